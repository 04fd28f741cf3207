//! The archive called from Rust: the worked tile, refusals, cut partitions, memory lent again and again.
mod common;

use common::{memory_of, refused, worked, Case};
use hookbarley::{deblock, decode, decode_counted, filter, header, mode, strength, Deblocked, Decoded, Memory, Reads, Tile};
use hookbarley::{MODE_BYTES, STRENGTH_BYTES};

fn sum(p: &[u8]) -> u32 {
    p.iter().map(|&x| x as u32).sum()
}

#[test]
fn worked_tile() {
    let bytes = [0u8; 64];
    let mut mem = Memory::new(16, 16, 0xA5);
    assert_eq!(decode_counted(&worked(&bytes, 32, 32), &mut mem), (Decoded::Whole(1), Reads { first: 18, tokens: 24 }));
    assert_eq!((sum(&mem.y), sum(&mem.u), sum(&mem.v)), (32960, 8192, 8192));
}

#[test]
fn cut_partitions_leave_grey() {
    let bytes = [0u8; 64];
    let grey = { let mut m = Memory::new(16, 16, 128); m.columns.fill(0); m.modes.fill(0); m.strengths.fill(0); m };
    for cut in 0..32 {
        let mut mem = Memory::new(16, 16, 0xA5);
        match decode(&worked(&bytes, 32, cut), &mut mem) {
            Decoded::Whole(1) => assert_eq!(sum(&mem.y), 32960),
            Decoded::NoTokens(0) => assert_eq!(mem, grey),
            other => panic!("{cut}: {other:?}"),
        }
    }
    let mut mem = Memory::new(16, 16, 0xA5);
    assert_eq!(decode(&worked(&bytes, 32, 2), &mut mem), Decoded::NoTokens(0));
}

#[test]
fn refusals_change_nothing() {
    let bytes = [0u8; 64];
    let good = worked(&bytes, 32, 32);
    for (number, frame) in refused(&good) {
        let mut mem = Memory::new(16, 16, 0xA5);
        assert_eq!(decode_counted(&frame, &mut mem), (Decoded::Refused(number), Reads { first: 0, tokens: 0 }));
        assert_eq!(mem, Memory::new(16, 16, 0xA5));
    }
    let mut short = Memory::new(16, 16, 0xA5);
    short.y.pop();
    let before = short.clone();
    assert_eq!(decode(&good, &mut short), Decoded::Refused(4));
    assert_eq!(short, before);
}

#[test]
fn memory_lent_again_and_again() {
    let mut again = Memory::new(16, 16, 0);
    let mut x = 1u32;
    for _ in 0..500 {
        let bytes: Vec<u8> = (0..64).map(|_| { x = x.wrapping_mul(1664525).wrapping_add(1013904223); (x >> 24) as u8 }).collect();
        let mut fresh = Memory::new(16, 16, (x >> 16) as u8);
        let frame = worked(&bytes, 32, 32);
        assert_eq!(decode(&frame, &mut again), decode(&frame, &mut fresh));
        assert_eq!(again, fresh);
    }
}

#[test]
fn real_tiles() {
    for (name, blocks, first, tokens, sums) in [
        ("real/0003", 12, 84, 525, (344832, 103888, 96800)),
        ("real/0023", 8, 563, 15377, (253688, 66014, 65520)),
        ("real/0039", 6, 259, 5638, (171566, 55040, 55115)),
    ] {
        let c = Case::read(name);
        let mut mem = memory_of(&c.tile, 0xA5);
        assert_eq!(decode_counted(&c.whole(), &mut mem), (Decoded::Whole(blocks), Reads { first, tokens }), "{name}");
        assert_eq!((sum(&mem.y), sum(&mem.u), sum(&mem.v)), sums, "{name}");
    }
}

/// Every cut of a tile of eight partitions: what is finished equals the whole tile's, the rest is grey; no more symbols are read than from
/// the whole tile.
#[test]
fn real_tile_cut_everywhere() {
    let c = Case::read("real/0010");
    let mut whole = memory_of(&c.tile, 0);
    let (answer, all) = decode_counted(&c.whole(), &mut whole);
    assert_eq!(answer, Decoded::Whole(2));
    let mut mem = memory_of(&c.tile, 0xA5);
    for p in 0..=c.tile.count {
        for n in 0..c.length(p) {
            let (answer, reads) = decode_counted(&c.cut(p, n), &mut mem);
            let k = match answer {
                Decoded::NoModes(k) if p == 0 => k,
                Decoded::NoTokens(k) if p > 0 => k,
                Decoded::Whole(k) => k,
                other => panic!("partition {p}, {n} bytes: {other:?}"),
            };
            let asked = if answer == Decoded::Whole(k) { k } else { k + 1 } as u64;
            assert!(reads.first <= all.first.min(asked * Reads::MOST.first));
            assert!(reads.tokens <= all.tokens.min(asked * Reads::MOST.tokens));
            // One macroblock a row: the finished rows stand first.
            assert_eq!(mem.y[..256 * k], whole.y[..256 * k]);
            assert_eq!(mem.u[..64 * k], whole.u[..64 * k]);
            assert_eq!(mem.v[..64 * k], whole.v[..64 * k]);
            assert_eq!(mem.modes[..MODE_BYTES * k], whole.modes[..MODE_BYTES * k]);
            assert_eq!(mem.strengths[..STRENGTH_BYTES * k], whole.strengths[..STRENGTH_BYTES * k]);
            assert!(mem.y[256 * k..].iter().chain(&mem.u[64 * k..]).chain(&mem.v[64 * k..]).all(|&x| x == 128));
            // A strength record ends with its mode record's segment and small.
            for (t, m) in mem.strengths.chunks(STRENGTH_BYTES).zip(mem.modes.chunks(MODE_BYTES)) {
                assert_eq!([t[strength::SEGMENT], t[strength::SMALL]], [m[mode::SEGMENT], m[mode::SMALL]]);
            }
            assert!(mem.modes[MODE_BYTES * k..].iter().chain(&mem.strengths[STRENGTH_BYTES * k..]).all(|&x| x == 0));
        }
    }
}

/// Tiles that differ in token partition 1 agree in macroblock row 0.
#[test]
fn partitions_apart() {
    let mut c = Case::read("real/0039");
    let mut one = memory_of(&c.tile, 0);
    decode(&c.whole(), &mut one);
    let (at, length, width) = (c.tile.token_starts[1], c.tile.token_lengths[1], c.tile.width);
    for x in 0..=255u8 {
        c.bytes[at..at + length].fill(x);
        let mut other = memory_of(&c.tile, x);
        decode(&c.whole(), &mut other);
        assert_eq!(one.y[..16 * width], other.y[..16 * width]);
        assert_eq!(one.u[..4 * width], other.u[..4 * width]);
        assert_eq!(one.v[..4 * width], other.v[..4 * width]);
    }
}

#[test]
fn kernel() {
    let mut e = [100, 100, 100, 100, 110, 110, 110, 110];
    filter(&mut e, false, true, 24, 0, 0);
    assert_eq!(e, [100, 100, 100, 100, 110, 110, 110, 110]);
    filter(&mut e, false, true, 25, 0, 0);
    assert_eq!(e, [100, 101, 103, 104, 106, 107, 109, 110]);
}

fn sized(width: usize, simple: usize) -> Tile {
    Tile { width, height: 16, simple, ..Tile::default() }
}

#[test]
fn deblocks_an_edge() {
    // two macroblocks, 100 and 110: the worked numbers of a macroblock edge with limit 21 + 4, level by level
    let mut mem = Memory::new(32, 16, 0);
    for (i, x) in mem.y.iter_mut().enumerate() {
        *x = if i % 32 < 16 { 100 } else { 110 };
    }
    mem.strengths = vec![21, 0, 0, 0, 3, 1, 21, 0, 0, 0, 255, 255];
    let before = mem.clone();
    assert_eq!(deblock(&sized(32, 0), &mut mem), Deblocked::Done);
    for row in mem.y.chunks(32) {
        assert_eq!(&row[12..20], &[100, 101, 103, 104, 106, 107, 109, 110]);
    }
    let mut simple = before.clone();
    assert_eq!(deblock(&sized(32, 1), &mut simple), Deblocked::Done);
    assert_eq!(&simple.y[12..20], &[100, 100, 100, 102, 107, 110, 110, 110]);
    // limit 0: nothing
    let mut still = before.clone();
    still.strengths.fill(0);
    assert_eq!(deblock(&sized(32, 0), &mut still), Deblocked::Done);
    assert_eq!((&still.y, &still.u, &still.v), (&before.y, &before.u, &before.v));
}

#[test]
fn deblocking_refuses_and_changes_nothing() {
    let good = Memory::new(32, 16, 100);
    let mut limit = good.clone();
    limit.strengths[STRENGTH_BYTES + strength::LIMIT] = 190;
    let mut short = limit.clone();
    short.v.pop();
    for (number, mem, width) in [(11, &limit, 32), (4, &short, 32), (1, &short, 33), (4, &good, 16)] {
        let mut m = mem.clone();
        assert_eq!(deblock(&sized(width, 0), &mut m), Deblocked::Refused(number));
        assert_eq!(&m, mem);
    }
}

#[test]
fn a_cut_tile_stays_grey() {
    let bytes = [0u8; 64];
    let mut frame = worked(&bytes, 32, 2);
    frame.header[header::LEVEL] = 63;
    let mut mem = Memory::new(16, 16, 0xA5);
    assert_eq!(decode(&frame, &mut mem), Decoded::NoTokens(0));
    for simple in [0, 1] {
        assert_eq!(deblock(&sized(16, simple), &mut mem), Deblocked::Done);
        assert_eq!((sum(&mem.y), sum(&mem.u), sum(&mem.v)), (32768, 8192, 8192));
    }
}
