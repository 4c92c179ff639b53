//! Both sides on the same input; the first difference ends the run with a panic.
use crate::ber::{observation, parse_pattern, xor_popcount_and_max_burst, DirectionSummary, Observation};
use crate::tlv::{RawTlv, TlvFlags, TlvList, TlvType};
use ambrulicciu::{bit_errors, bit_observation, calls, pattern_of, BitObservation, BitSummary, Item, Refusal};

pub struct Random(pub u64);

impl Random {
    pub fn next(&mut self) -> u64 {
        self.0 = self.0.wrapping_add(0x9e3779b97f4a7c15);
        let mut z = self.0;
        z = (z ^ (z >> 30)).wrapping_mul(0xbf58476d1ce4e5b9);
        z = (z ^ (z >> 27)).wrapping_mul(0x94d049bb133111eb);
        z ^ (z >> 31)
    }
    pub fn below(&mut self, n: u64) -> u64 {
        self.next() % n
    }
    pub fn bytes(&mut self, n: usize) -> Vec<u8> {
        (0..n).map(|_| self.next() as u8).collect()
    }
}

pub fn repeated(pattern: &[u8], n: usize) -> Vec<u8> {
    pattern.iter().cycle().take(n).copied().collect()
}

/// Padding of a manner: equal, all different, random, one wrong bit in so many, runs over the borders.
pub fn padding(random: &mut Random, pattern: &[u8], n: usize, manner: u64) -> Vec<u8> {
    let mut padding = if pattern.is_empty() { random.bytes(n) } else { repeated(pattern, n) };
    match manner {
        0 => {}
        1 => padding.iter_mut().for_each(|b| *b = !*b),
        2 => padding = random.bytes(n),
        3 | 4 => {
            let one_in = if manner == 3 { 1000 } else { 100 };
            for bit in 0..n * 8 {
                if random.below(one_in) == 0 {
                    padding[bit / 8] ^= 128 >> (bit % 8);
                }
            }
        }
        _ => {
            let mut bit = random.below(40) as usize;
            while bit < n * 8 {
                for _ in 0..1 + random.below(150) {
                    if bit < n * 8 {
                        padding[bit / 8] ^= 128 >> (bit % 8);
                    }
                    bit += 1;
                }
                bit += 1 + random.below(90) as usize;
            }
        }
    }
    padding
}

fn count(random: &mut Random, pattern_length: usize, n: usize) {
    let pattern = random.bytes(pattern_length);
    for manner in 0..6 {
        let padding = padding(random, &pattern, n, manner);
        let found = bit_errors(&padding, &pattern);
        if n > 65535 {
            assert_eq!(found, Err(Refusal::TooMuchPadding));
            continue;
        }
        let found = found.unwrap();
        assert_eq!((found.errors, found.longest), xor_popcount_and_max_burst(&padding, &pattern), "{n} bytes, pattern {pattern:?}, manner {manner}");
    }
}

fn text(random: &mut Random) -> Vec<u8> {
    const DIGITS: &[u8] = b"0123456789abcdefABCDEF";
    let mut text: Vec<u8> = Vec::new();
    for _ in 0..random.below(3) {
        text.extend_from_slice([&b"0x"[..], b"0X", b"0", b"x", b""][random.below(5) as usize]);
    }
    for _ in 0..random.below(24) {
        text.push(DIGITS[random.below(22) as usize]);
    }
    if random.below(3) == 0 && !text.is_empty() {
        let at = random.below(text.len() as u64) as usize;
        text[at] = random.next() as u8;
    }
    text
}

fn parse(random: &mut Random) -> bool {
    let text = text(random);
    let ours = pattern_of(&text);
    let fits = match std::str::from_utf8(&text) {
        Ok(text) => parse_pattern(text).ok(),
        Err(_) => None,
    };
    assert_eq!(ours.as_ref().ok(), fits.as_ref(), "{text:?}");
    if fits.is_none() {
        assert_eq!(ours, Err(Refusal::BadPattern));
    }
    // a room of any size: the bytes, and the rest as it was; or 12 and no byte changed
    let mut room = random.bytes(random.0 as usize % 16);
    let before = room.clone();
    let mut length = [77];
    let number = calls::parse_pattern(&text, &mut room, &mut length);
    match &fits {
        Some(bytes) if bytes.len() <= room.len() => {
            assert_eq!((number, length[0]), (0, bytes.len() as u64));
            assert_eq!(&room[..bytes.len()], &bytes[..]);
            assert_eq!(&room[bytes.len()..], &before[bytes.len()..]);
        }
        _ => {
            assert_eq!(number, if fits.is_some() { 12 } else { 13 });
            assert_eq!((&room, length), (&before, [77]));
        }
    }
    fits.is_some()
}

/// A reply: items over bytes, most of them as a reflector writes them.
fn observe(random: &mut Random, seen: &mut [u64; 4]) {
    let pattern_length = random.below(5) as usize;
    let pattern = random.bytes(pattern_length);
    let size = random.below(20) as usize;
    let manner = random.below(6);
    let padded = padding(random, &pattern, size, manner);
    let mut bytes = Vec::new();
    let mut items = Vec::new();
    let mut list = Vec::new();
    let mut add = |kind: u8, flags: u8, value: Vec<u8>| {
        items.push(Item { flags, kind, length: value.len() as u16, start: bytes.len() as u32 }.word());
        bytes.extend_from_slice(&value);
        list.push(RawTlv::with_flags(TlvFlags::from_byte(flags), TlvType::from_byte(kind), value));
    };
    let odd = random.below(3) == 0;
    let count = if random.below(3) == 0 { 0 } else { random.below(8 * size as u64 + 3) as u32 };
    let burst = if random.below(4) == 0 { random.below(6) as u32 } else { count.min(random.below(9) as u32 + 1) };
    let kinds: &[u8] = &[1, 240, 241, 242];
    let mut order: Vec<u8> = kinds.to_vec();
    for _ in 0..random.below(3) {
        order.push([1, 240, 241, 242, 8, 5, 8, 3][random.below(8) as usize]);
    }
    for i in (1..order.len()).rev() {
        order.swap(i, random.below(i as u64 + 1) as usize);
    }
    if random.below(2) == 0 {
        order.sort();
        order.dedup();
    }
    if random.below(4) == 0 {
        order.truncate(random.below(5) as usize);
    }
    for kind in order {
        let flags = if odd && random.below(4) == 0 { random.next() as u8 } else { (random.next() & 15) as u8 };
        let value = match kind {
            1 if random.below(12) == 0 => random.bytes(size + 1),
            1 => padded.clone(),
            240 if random.below(12) == 0 => random.bytes(pattern.len()),
            240 => pattern.clone(),
            241 if random.below(12) == 0 => random.bytes(random.0 as usize % 6),
            241 => count.to_be_bytes().to_vec(),
            242 if random.below(12) == 0 => random.bytes(random.0 as usize % 6),
            242 => burst.to_be_bytes().to_vec(),
            _ => random.bytes(random.0 as usize % 20),
        };
        add(kind, flags, value);
    }
    let (intact, wanted) = (random.below(12) != 0, random.below(2) == 0);
    if random.below(50) == 0 {
        assert_eq!(bit_observation(&items, &bytes, &pattern, 65536 + random.below(9) as usize, intact, wanted), Err(Refusal::TooMuchPadding));
        seen[3] += 1;
    }
    let ours = bit_observation(&items, &bytes, &pattern, size, intact, wanted).unwrap();
    let theirs = match observation(&TlvList(list), intact, &pattern, size, wanted) {
        None => BitObservation::Unusable,
        Some(Observation::Unsupported) => BitObservation::Unsupported,
        Some(Observation::Sample { bits, forward_errors, forward_burst, reverse_errors, reverse_burst }) => {
            BitObservation::Sample { bits, forward_errors, forward_burst, reverse_errors, reverse_burst }
        }
    };
    assert_eq!(ours, theirs, "items {items:x?} bytes {bytes:?} pattern {pattern:?} size {size} intact {intact} wanted {wanted}");
    seen[match ours {
        BitObservation::Unusable => 0,
        BitObservation::Unsupported => 1,
        BitObservation::Sample { .. } => 2,
    }] += 1;
}

fn same(ours: &BitSummary, theirs: &DirectionSummary) {
    let shown = ours.show();
    let bits = |known: u64, value: f64| (known != 0).then_some(value.to_bits());
    assert_eq!(shown.packets_received, theirs.packets_received);
    assert_eq!(shown.packets_with_errors, theirs.packets_with_errors);
    assert_eq!(shown.padding_bits, theirs.padding_bits);
    assert_eq!(shown.bit_errors, theirs.bit_errors);
    assert_eq!(shown.burst_samples, theirs.burst_samples);
    assert_eq!((shown.max_burst_known != 0).then_some(shown.max_burst_bits as u32), theirs.max_burst_bits);
    assert_eq!(bits(shown.bit_error_ratio_known, shown.bit_error_ratio), theirs.bit_error_ratio.map(f64::to_bits));
    assert_eq!(bits(shown.bit_errors_per_million_known, shown.bit_errors_per_million), theirs.bit_errors_per_million.map(f64::to_bits));
    assert_eq!(
        bits(shown.packets_with_errors_per_million_known, shown.packets_with_errors_per_million),
        theirs.packets_with_errors_per_million.map(f64::to_bits)
    );
    assert_eq!(bits(shown.average_max_burst_known, shown.average_max_burst_bits), theirs.average_max_burst_bits.map(f64::to_bits));
    assert_eq!(ours.words()[5], theirs.burst_total());
}

/// A summary from fresh: samples, some of too many bits; the original is left alone where a call is refused.
fn summarize(random: &mut Random, calls: &mut [u64; 2]) {
    let mut ours = BitSummary::new();
    let mut theirs = DirectionSummary::default();
    same(&ours, &theirs);
    for _ in 0..random.below(40) {
        let bits = match random.below(8) {
            0 => 0,
            1 => 524_280 + random.below(3),
            2 => random.next(),
            _ => 8 * random.below(65_536),
        };
        let errors = if random.below(3) == 0 { 0 } else { (random.next() >> (32 + random.below(32))) as u32 };
        let burst = (random.below(3) != 0).then(|| (random.next() >> (32 + random.below(32))) as u32);
        let before = ours.clone();
        match ours.record(bits, errors, burst) {
            Ok(()) => {
                assert!(bits <= 524_280);
                theirs.note(bits, errors, burst);
                calls[0] += 1;
            }
            Err(refusal) => {
                assert_eq!((refusal, &ours), (Refusal::TooMuchPadding, &before));
                assert!(bits > 524_280);
                calls[1] += 1;
            }
        }
        same(&ours, &theirs);
    }
    // a count or a sum at its bound
    let mut words = ours.words();
    words[random.below(6) as usize] = (1 << 63) - 1 + random.below(3);
    let full = words[..6].iter().any(|w| *w >= 1 << 63);
    let mut bounded = BitSummary::from_words(words);
    let answer = bounded.record(8, 1, None);
    assert_eq!(answer, if full { Err(Refusal::CountsFull) } else { Ok(()) });
    if full {
        assert_eq!(bounded.words(), words);
    }
}

pub fn run(rounds: u64, seed: u64) {
    let mut random = Random(seed);
    let (mut counts, mut parsed, mut texts, mut seen, mut recorded) = (0u64, 0u64, 0u64, [0; 4], [0; 2]);
    for pattern in 0..=780 {
        for n in [0, 1, 2, 7, 8, 9, 63, 64, 65, 511, 512, 513, 1400] {
            count(&mut random, pattern, n);
            counts += 6;
        }
    }
    for pattern in [0, 1, 2, 7, 8, 63, 64, 71, 100, 255, 512, 759, 760, 761, 767, 1000, 65535, 65536] {
        count(&mut random, pattern, 65535);
        counts += 6;
    }
    count(&mut random, 3, 65536);
    counts += 6;
    for _ in 0..rounds {
        let pattern = if random.below(4) == 0 { random.below(700) } else { random.below(20) } as usize;
        let n = if random.below(40) == 0 { random.below(65_537) } else { random.below(2000) } as usize;
        count(&mut random, pattern, n);
        counts += 6;
        for _ in 0..20 {
            parsed += parse(&mut random) as u64;
            texts += 1;
            observe(&mut random, &mut seen);
        }
        summarize(&mut random, &mut recorded);
    }
    assert!(rounds < 100 || (seen.iter().all(|n| *n > 0) && recorded.iter().all(|n| *n > 0) && parsed > 0));
    println!("bits: {counts} counts; {texts} pattern texts, {parsed} of them good; {} observations ({} unusable, {} unsupported, {} samples), {} sizes refused; {} samples recorded, {} refused: as the original, f64 bit for bit",
        seen[0] + seen[1] + seen[2], seen[0], seen[1], seen[2], seen[3], recorded[0], recorded[1]);
}
