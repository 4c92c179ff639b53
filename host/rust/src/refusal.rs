//! What a call refuses.
use std::fmt;

/// Why a call was refused; its number is document 01's, or document 02's from 10 on.
#[derive(Clone, Copy, Debug, PartialEq, Eq)]
#[repr(u8)]
pub enum Refusal {
    OutOfRange = 1,
    NotAwaiting = 2,
    QueueFull = 3,
    CountsFull = 4,
    WrongRoom = 5,
    DeadlinePasses = 6,
    BadTrailer = 7,
    BadRecord = 8,
    TooLong = 9,
    PassesEnd = 10,
    WrongLength = 11,
    ShortRoom = 12,
    BadPattern = 13,
    TooMuchPadding = 14,
}

impl Refusal {
    const ALL: [Refusal; 14] = [
        Refusal::OutOfRange,
        Refusal::NotAwaiting,
        Refusal::QueueFull,
        Refusal::CountsFull,
        Refusal::WrongRoom,
        Refusal::DeadlinePasses,
        Refusal::BadTrailer,
        Refusal::BadRecord,
        Refusal::TooLong,
        Refusal::PassesEnd,
        Refusal::WrongLength,
        Refusal::ShortRoom,
        Refusal::BadPattern,
        Refusal::TooMuchPadding,
    ];
}

impl fmt::Display for Refusal {
    fn fmt(&self, f: &mut fmt::Formatter) -> fmt::Result {
        f.write_str(match self {
            Refusal::OutOfRange => "a value out of its range",
            Refusal::NotAwaiting => "the reply does not await its observation",
            Refusal::QueueFull => "4,096 probes await their reply at the monitor",
            Refusal::CountsFull => "a count or a sum is at its bound",
            Refusal::WrongRoom => "a room of the wrong size, or a state whose bounds do not hold",
            Refusal::DeadlinePasses => "the deadline is past the end of time",
            Refusal::BadTrailer => "no trailer of a log at the end",
            Refusal::BadRecord => "a record that is none",
            Refusal::TooLong => "more than 65,536 bytes",
            Refusal::PassesEnd => "a header or a value that passes the end of the area",
            Refusal::WrongLength => "an item of type 5 or 7 with another length",
            Refusal::ShortRoom => "a room too short for what is to be written",
            Refusal::BadPattern => "a pattern that is no hexadecimal text",
            Refusal::TooMuchPadding => "padding above 65,535 bytes, or a sample of more bits than that",
        })
    }
}

impl std::error::Error for Refusal {}

/// The number that a call returned, as a result.
pub fn served(number: u8) -> Result<(), Refusal> {
    match number {
        0 => Ok(()),
        _ => Err(*Refusal::ALL.iter().find(|r| **r as u8 == number).expect("one of the documents' numbers")),
    }
}
