//! An example reply's extension area, read from the packet itself: its items, where each starts, and what they tell an observation.
use ambrulicciu::{area_items, area_of, calls, counters_of, follow_up_of, tell_area, Refusal};

const REPLY: [u8; 44] = [
    0x00, 0x05, 0x00, 0x0c, 0x00, 0x00, 0x00, 0x0c, 0x00, 0x00, 0x00, 0x0b, 0x00, 0x00, 0x00, 0x0a, // S_TxC 12, R_RxC 11, R_TxC 10
    0x00, 0x07, 0x00, 0x10, 0x00, 0x00, 0x00, 0x09, 0xec, 0x1a, 0x5b, 0x00, 0x80, 0x00, 0x00, 0x00, 0x02, 0xaa, 0xbb, 0xcc, // of reply 9
    0x80, 0x04, 0x00, 0x04, 0x2e, 0x00, 0x00, 0x00, // not recognized
];

fn main() -> Result<(), Refusal> {
    let items = area_items(&REPLY)?;
    for item in &items {
        let value = &REPLY[item.start as usize..][..item.length.into()];
        print!("item at {}: type {}, flags {}, length {}", item.start - 4, item.kind, item.flags, item.length);
        match item.kind {
            5 => println!(": {:?}", counters_of(value)?),
            7 => println!(": {:?}", follow_up_of(value)?),
            _ => println!(", stepped over"),
        }
    }
    let mut observation = calls::Observation::default();
    tell_area(&REPLY, &mut observation)?;
    assert_eq!(observation.flags, calls::COUNTERS | calls::FOLLOW_UP);
    assert_eq!((observation.s_txc, observation.r_rxc, observation.r_txc, observation.follow_up_sequence), (12, 11, 10, 9));
    assert_eq!(area_items(&REPLY[..43]), Err(Refusal::PassesEnd));
    let again = area_of(&items, &REPLY)?;
    assert!((0..44).all(|i| again[i] == if (33..36).contains(&i) { 0 } else { REPLY[i] }));
    println!("area: as expected");
    Ok(())
}
