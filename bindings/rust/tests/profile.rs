//! The cockpit profile called from Rust: tiles of encoders, each rule broken in one that fits, cuts, refusals.
mod common;

use common::{memory_of, refused};
use hookbarley::{decode, header, mode, profile, profile_rule, webp_find, Decoded, Frame, Memory, Profiled, Tile, MODE_BYTES};

fn bytes_of(name: &str) -> Vec<u8> {
    let path = format!("{}/../../tests/outside/profile/{name}", env!("CARGO_MANIFEST_DIR"));
    let file = std::fs::read(&path).expect(&path);
    match webp_find(&file) {
        Ok(place) => file[place].to_vec(),
        Err(_) => file,
    }
}

/// The answer and what is left of memory filled before.
fn judged(frame: &Frame, fill: u8) -> (Profiled, Memory) {
    let mut mem = memory_of(&frame.tile, fill);
    (profile(frame, &mut mem), mem)
}

/// The rule is named, and nothing lent has changed.
fn unchanged(frame: &Frame, answer: Profiled) {
    assert_eq!(judged(frame, 0xA5), (answer, memory_of(&frame.tile, 0xA5)));
}

/// The answer, and memory as `decode` leaves it.
fn decoded(frame: &Frame, answer: Profiled, by: Decoded) {
    let mut mem = memory_of(&frame.tile, 0);
    assert_eq!(decode(frame, &mut mem), by);
    assert_eq!(judged(frame, 0xA5), (answer, mem));
}

#[test]
fn tiles_of_encoders() {
    for name in ["fits.webp", "fits-large.webp", "fits-cropped.webp", "fits-two.vp8", "fits-four.vp8"] {
        decoded(&Frame::take(&bytes_of(name)).expect(name), Profiled::Fits, Decoded::Whole(256));
    }
    let broken = [
        ("wide.webp", profile_rule::SIZE), ("wide-segments.webp", profile_rule::SIZE), ("eight.vp8", profile_rule::PARTITIONS),
        ("eight-sharp.vp8", profile_rule::PARTITIONS), ("segments.webp", profile_rule::SEGMENTS),
        ("segments-sharp.webp", profile_rule::SEGMENTS), ("sharp.webp", profile_rule::SHARPNESS),
    ];
    for (name, rule) in broken {
        unchanged(&Frame::take(&bytes_of(name)).expect(name), Profiled::Rule(rule));
    }
}

#[test]
fn each_rule_broken() {
    let bytes = bytes_of("fits.webp");
    let good = Frame::take(&bytes).unwrap();
    let of = |tile: Tile| Frame { tile, ..good.clone() };
    let with = |entry: usize, value: i32| {
        let mut frame = good.clone();
        frame.header[entry] = value;
        frame
    };
    unchanged(&of(Tile { width: 240, ..good.tile }), Profiled::Rule(profile_rule::SIZE));
    for count in [0, 3, 5, 6, 7, 8, 9] {
        unchanged(&of(Tile { count, ..good.tile }), Profiled::Rule(profile_rule::PARTITIONS));
    }
    for value in [1, -1, 255] {
        unchanged(&with(header::SEGMENTS, value), Profiled::Rule(profile_rule::SEGMENTS));
        unchanged(&with(header::MAP, value), Profiled::Rule(profile_rule::SEGMENTS));
        unchanged(&with(header::SHARPNESS, value), Profiled::Rule(profile_rule::SHARPNESS));
    }
    let first = of(Tile { first_length: good.tile.first_length - 100, ..good.tile });
    let Decoded::NoModes(k) = decode(&first, &mut memory_of(&first.tile, 0)) else { panic!("the first partition is not cut") };
    decoded(&first, Profiled::Rule(profile_rule::WHOLE), Decoded::NoModes(k));
}

/// A made tile: the first macroblock that is both skipped and small is named.
#[test]
fn the_first_macroblock_is_named() {
    let bytes = bytes_of("skipped.vp8");
    let frame = Frame::take(&bytes).unwrap();
    let (answer, mem) = judged(&frame, 0xA5);
    let both = |record: &[u8]| record[mode::SKIP] == 1 && record[mode::SMALL] == 1;
    let first = mem.modes.chunks(MODE_BYTES).position(both).expect("none is");
    assert!(first > 0);
    assert_eq!(answer, Profiled::Skipped(first));
    decoded(&frame, answer, Decoded::Whole(256));
}

#[test]
fn refusals_change_nothing() {
    let bytes = bytes_of("fits.webp");
    let good = Frame::take(&bytes).unwrap();
    for (number, frame) in refused(&good) {
        let answer = match number {
            1 => Profiled::Rule(profile_rule::SIZE),
            2 => Profiled::Rule(profile_rule::PARTITIONS),
            n => Profiled::Refused(n),
        };
        let mut mem = memory_of(&good.tile, 0xA5);
        assert_eq!(profile(&frame, &mut mem), answer);
        assert_eq!(mem, memory_of(&good.tile, 0xA5));
    }
    let mut short = memory_of(&good.tile, 0xA5);
    short.strengths.pop();
    assert_eq!(profile(&good, &mut short), Profiled::Refused(4));
}
