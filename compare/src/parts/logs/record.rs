//! A log's bytes, written and read by document 01's table ('Log and program').

pub const RECORD: usize = 96;
pub const TRAILER: usize = 24;
pub const MOST_BYTES: usize = 65_536;
pub const MOST_RECORDS: usize = (MOST_BYTES - TRAILER) / RECORD;

pub const SENT: u8 = 0;
pub const ACCEPT: u8 = 1;
pub const OBSERVE: u8 = 2;
pub const ADVANCE: u8 = 3;
pub const IDLE: u8 = 4;

/// Flags of an observe. Flag 1 of an accept is its pending packet.
pub const PENDING: u8 = 1;
pub const T4: u8 = 1;
pub const ORDINAL: u8 = 2;
pub const COUNTERS: u8 = 4;
pub const FOLLOW: u8 = 8;
pub const CONVERTED: u8 = 16;
pub const ESTIMATES: u8 = 32;
pub const PTP: u8 = 64;
pub const UNKNOWN_MODE: u8 = 128;

/// A field: its first byte, how many it has, and the flag without which it is 0 (0: none).
type Field = (usize, usize, u8);

/// The last is the train of document 02, Q-3.
const SENT_FIELDS: [Field; 5] = [(4, 4, 0), (8, 4, 0), (12, 8, 0), (20, 8, 0), (28, 4, 0)];
const ACCEPT_FIELDS: [Field; 5] = [
    (4, 4, 0),
    (8, 4, 0),
    (12, 8, 0),
    (20, 8, PENDING),
    (28, 8, PENDING),
];
const OBSERVE_FIELDS: [Field; 16] = [
    (4, 4, 0),
    (8, 4, 0),
    (12, 8, 0),
    (20, 8, 0),
    (28, 8, T4),
    (36, 8, 0),
    (44, 4, 0),
    (48, 4, ORDINAL),
    (52, 4, COUNTERS),
    (56, 4, COUNTERS),
    (60, 4, COUNTERS),
    (64, 4, FOLLOW),
    (68, 8, FOLLOW),
    (76, 8, CONVERTED),
    (84, 2, ESTIMATES),
    (86, 2, ESTIMATES),
];
const ADVANCE_FIELDS: [Field; 1] = [(4, 8, 0)];

/// The fields of a kind and the flags that it may have; none for another kind.
fn table(kind: u8) -> Option<(&'static [Field], u8)> {
    match kind {
        SENT => Some((&SENT_FIELDS, 0)),
        ACCEPT => Some((&ACCEPT_FIELDS, PENDING)),
        OBSERVE => Some((&OBSERVE_FIELDS, 255)),
        ADVANCE => Some((&ADVANCE_FIELDS, 0)),
        IDLE => Some((&[], 0)),
        _ => None,
    }
}

/// The 96 bytes of a record.
#[derive(Clone, Copy, PartialEq)]
pub struct Record(pub [u8; RECORD]);

impl Record {
    /// A record of these values, in the order of the table. What is absent is 0.
    pub fn new(kind: u8, flags: u8, values: &[u64]) -> Self {
        let (fields, _) = table(kind).expect("a kind");
        assert_eq!(fields.len(), values.len());
        let mut bytes = [0; RECORD];
        bytes[0] = kind;
        bytes[1] = flags;
        bytes[95] = 255 - kind;
        for ((at, size, flag), value) in fields.iter().zip(values) {
            if flag & flags == *flag {
                let whole = value.to_be_bytes();
                bytes[*at..at + size].copy_from_slice(&whole[8 - size..]);
            }
        }
        Self(bytes)
    }
    pub fn kind(&self) -> u8 {
        self.0[0]
    }
    pub fn has(&self, flag: u8) -> bool {
        self.0[1] & flag != 0
    }
    /// The number of `size` bytes at a place, highest byte first.
    pub fn number(&self, at: usize, size: usize) -> u64 {
        number(&self.0, at, size)
    }
    /// Whether no rule of document 01 is broken.
    pub fn good(&self) -> bool {
        let flags = self.0[1];
        let Some((fields, allowed)) = table(self.kind()) else {
            return false;
        };
        let needs_follow = self.kind() == OBSERVE && flags & (CONVERTED | UNKNOWN_MODE) != 0;
        if flags & !allowed != 0 || self.0[95] != 255 - self.kind() {
            return false;
        }
        if needs_follow && flags & FOLLOW == 0 {
            return false;
        }
        let present = |i: usize| {
            i < 2
                || i == 95
                || fields
                    .iter()
                    .any(|(at, size, flag)| *at <= i && i < at + size && flags & flag == *flag)
        };
        (0..RECORD).all(|i| present(i) || self.0[i] == 0)
    }
}

fn number(bytes: &[u8], at: usize, size: usize) -> u64 {
    let field = &bytes[at..at + size];
    field.iter().fold(0, |n, b| n << 8 | u64::from(*b))
}

/// What a log says besides its records.
#[derive(Clone, Copy)]
pub struct Settings {
    pub copies: u16,
    pub threshold: u16,
    pub timeout: u64,
}

/// The bytes of a trailer, with any distance, count and last four bytes.
pub fn trailer(distance: u32, count: u32, settings: Settings, mark: &[u8; 4]) -> Vec<u8> {
    let mut bytes = distance.to_be_bytes().to_vec();
    bytes.extend_from_slice(&count.to_be_bytes());
    bytes.extend_from_slice(&settings.copies.to_be_bytes());
    bytes.extend_from_slice(&settings.threshold.to_be_bytes());
    bytes.extend_from_slice(&settings.timeout.to_be_bytes());
    bytes.extend_from_slice(mark);
    bytes
}

/// A log with `before` in front of its first record.
pub fn log(before: &[u8], records: &[Record], settings: Settings) -> Vec<u8> {
    let mut bytes = before.to_vec();
    records.iter().for_each(|r| bytes.extend_from_slice(&r.0));
    let distance = (TRAILER + RECORD * records.len()) as u32;
    bytes.extend(trailer(distance, records.len() as u32, settings, b"STLG"));
    bytes
}

/// Why no record of a log is played.
#[derive(Clone, Copy, PartialEq)]
pub enum Refused {
    TooLong,
    BadTrailer,
    BadRecord(usize),
}

/// The records that a log's trailer speaks of, good or bad.
pub fn placed(bytes: &[u8]) -> Result<Vec<Record>, Refused> {
    if bytes.len() > MOST_BYTES {
        return Err(Refused::TooLong);
    }
    if bytes.len() < TRAILER || !bytes.ends_with(b"STLG") {
        return Err(Refused::BadTrailer);
    }
    let end = &bytes[bytes.len() - TRAILER..];
    let (distance, count) = (number(end, 0, 4), number(end, 4, 4));
    if distance != 24 + 96 * count || distance > bytes.len() as u64 {
        return Err(Refused::BadTrailer);
    }
    let first = bytes.len() - distance as usize;
    let records = bytes[first..bytes.len() - TRAILER].chunks_exact(RECORD);
    Ok(records.map(|r| Record(r.try_into().unwrap())).collect())
}

/// Reads a log as document 01 says: 9, then 7, then 8, and only then the records.
pub fn read(bytes: &[u8]) -> Result<(Settings, Vec<Record>), Refused> {
    let records = placed(bytes)?;
    if let Some(bad) = records.iter().position(|r| !r.good()) {
        return Err(Refused::BadRecord(bad));
    }
    let end = &bytes[bytes.len() - TRAILER..];
    let settings = Settings {
        copies: number(end, 8, 2) as u16,
        threshold: number(end, 10, 2) as u16,
        timeout: number(end, 12, 8),
    };
    Ok((settings, records))
}

/// A good log as the list from which tools/make-log makes it.
pub fn list(bytes: &[u8]) -> Option<String> {
    let (settings, records) = read(bytes).ok()?;
    let mut list = format!(
        "copies {}\nthreshold {}\ntimeout {}\n",
        settings.copies, settings.threshold, settings.timeout
    );
    let first = bytes.len() - TRAILER - RECORD * records.len();
    for part in bytes[..first].chunks(40) {
        let digits: String = part.iter().map(|b| format!("{b:02x}")).collect();
        list += &format!("before {digits}\n");
    }
    records.iter().for_each(|r| list += &(line(r) + "\n"));
    Some(list)
}

/// A record as a line that tools/make-log reads.
fn line(r: &Record) -> String {
    let n = |at, size| r.number(at, size);
    match r.kind() {
        SENT => {
            let probe = format!(
                "sent {} ordinal {} at {} tag {}",
                n(4, 4),
                n(8, 4),
                n(12, 8),
                n(20, 8)
            );
            match n(28, 4) {
                0 => probe,
                train => format!("{probe} train {train}"),
            }
        }
        ACCEPT => {
            let key = format!("accept {} {} {}", n(4, 4), n(8, 4), n(12, 8));
            if r.has(PENDING) {
                format!("{key} pending {} {}", n(20, 8), n(28, 8))
            } else {
                key
            }
        }
        OBSERVE => observe_line(r),
        ADVANCE => format!("advance {}", n(4, 8)),
        _ => "idle".into(),
    }
}

fn observe_line(r: &Record) -> String {
    let n = |at, size| r.number(at, size);
    let mut line = format!(
        "observe {} {} {} rtt {}",
        n(4, 4),
        n(8, 4),
        n(12, 8),
        n(20, 8)
    );
    let mut add = |holds: bool, text: String| {
        if holds {
            line.push(' ');
            line.push_str(&text);
        }
    };
    add(r.has(T4), format!("t4 {}", n(28, 8) as i64));
    add(n(36, 8) != 0, format!("reference {}", n(36, 8) as i64));
    add(n(44, 4) != 0, format!("offset {}", n(44, 4) as u32 as i32));
    add(r.has(ORDINAL), format!("ordinal {}", n(48, 4)));
    let counters = format!("counters {} {} {}", n(52, 4), n(56, 4), n(60, 4));
    add(r.has(COUNTERS), counters);
    add(r.has(FOLLOW), format!("follow {} {}", n(64, 4), n(68, 8)));
    add(r.has(CONVERTED), format!("t3 {}", n(76, 8) as i64));
    add(r.has(UNKNOWN_MODE), "unknown".into());
    add(
        r.has(ESTIMATES),
        format!("estimates {} {}", n(84, 2), n(86, 2)),
    );
    add(r.has(PTP), "ptp".into());
    line
}
