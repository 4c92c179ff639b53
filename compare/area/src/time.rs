//! An area with both items: reading it and both values, both sides in turns; the least of 200 turns of 20,000 each.
use crate::tlv::core::{RawTlv, TlvType};
use crate::tlv::traits::TypedTlv;
use crate::tlv::typed::{direct_measurement::DirectMeasurementTlv, follow_up_telemetry::FollowUpTelemetryTlv};
use ambrulicciu::calls;
use std::{hint::black_box, time::Instant};

fn turn<T>(call: impl Fn() -> T) -> f64 {
    let start = Instant::now();
    for _ in 0..20000 {
        black_box(call());
    }
    start.elapsed().as_nanos() as f64 / 20000.0
}

/// The original: every item by `RawTlv::parse`, then the first of each type by its `decode_value`.
fn original(bytes: &[u8]) -> (Option<DirectMeasurementTlv>, Option<FollowUpTelemetryTlv>) {
    let (mut at, mut list) = (0, Vec::new());
    while at < bytes.len() {
        let (item, taken) = RawTlv::parse(&bytes[at..]).unwrap();
        list.push(item);
        at += taken;
    }
    let of = |kind| list.iter().find(|item| item.is_processable() && item.tlv_type == kind);
    (
        of(TlvType::DirectMeasurement).and_then(|item| DirectMeasurementTlv::decode_value(&item.value).ok()),
        of(TlvType::FollowUpTelemetry).and_then(|item| FollowUpTelemetryTlv::decode_value(&item.value).ok()),
    )
}

pub fn run() {
    let mut bytes = vec![0, 5, 0, 12, 0, 0, 0, 12, 0, 0, 0, 11, 0, 0, 0, 10];
    bytes.extend([0, 7, 0, 16, 0, 0, 0, 9, 0xec, 0x1a, 0x5b, 0, 0x80, 0, 0, 0, 2, 0, 0, 0]);
    let (mut told, mut listed, mut theirs) = (f64::MAX, f64::MAX, f64::MAX);
    for _ in 0..200 {
        told = told.min(turn(|| {
            let mut observation = calls::Observation::default();
            (calls::area_observation(black_box(&bytes), &mut observation), observation)
        }));
        listed = listed.min(turn(|| {
            let (mut items, mut count, mut counters, mut follow) = ([0; 8], [0], [0; 3], [0; 3]);
            calls::area_read(black_box(&bytes), &mut items, &mut count);
            calls::counters_read(&bytes[items[0] as u32 as usize..][..12], &mut counters);
            calls::follow_up_read(&bytes[items[1] as u32 as usize..][..16], &mut follow);
            (counters, follow)
        }));
        theirs = theirs.min(turn(|| original(black_box(&bytes))));
    }
    println!("area with both items: observation told {told:.1} ns ({:.2}), items and both values {listed:.1} ns ({:.2}), the original {theirs:.1} ns", told / theirs, listed / theirs);
}
