//! Rescues called from Rust: whole tiles, every cut, modes that end, refusals.
mod common;

use common::{memory_of, refused, worked, Case};
use hookbarley::{deblock, decode, mark, rescue, Deblocked, Decoded, Frame, Memory, Rescued, COLUMN_BYTES, MODE_BYTES, STRENGTH_BYTES};

/// What the call leaves of a frame, memory and marks filled before.
fn rescued(frame: &Frame, fill: u8) -> (Rescued, Memory, Vec<u8>) {
    let mut mem = memory_of(&frame.tile, fill);
    let mut marks = vec![fill; frame.tile.blocks()];
    (rescue(frame, &mut mem, &mut marks), mem, marks)
}

fn decoded(frame: &Frame) -> (Decoded, Memory) {
    let mut mem = memory_of(&frame.tile, 0);
    (decode(frame, &mut mem), mem)
}

/// First so many marked whole, then up to `kept` from modes, then grey.
fn marked(whole: usize, kept: usize, blocks: usize) -> Vec<u8> {
    [vec![mark::WHOLE; whole], vec![mark::MODES; kept - whole], vec![mark::GREY; blocks - kept]].concat()
}

/// The samples of macroblock i, Y, U and V.
fn samples(mem: &Memory, width: usize, i: usize) -> Vec<u8> {
    let (row, column) = (i / (width / 16), i % (width / 16));
    let square = |plane: &[u8], side: usize| -> Vec<u8> {
        let lines = plane.chunks(width / 16 * side).skip(row * side).take(side);
        lines.flat_map(|line| line[column * side..][..side].to_vec()).collect()
    };
    [square(&mem.y, 16), square(&mem.u, 8), square(&mem.v, 8)].concat()
}

#[test]
fn a_whole_tile_is_as_decoded() {
    for name in ["real/0003", "real/0023", "real/0031", "real/0039"] {
        let c = Case::read(name);
        let (answer, mem, marks) = rescued(&c.whole(), 0xA5);
        let blocks = c.tile.blocks();
        assert_eq!((answer, marks), (Rescued::Kept(blocks), marked(blocks, blocks, blocks)), "{name}");
        assert_eq!((Decoded::Whole(blocks), mem), decoded(&c.whole()), "{name}");
    }
}

/// Every length of every token partition: what is whole is as decoded, the rest has the whole tile's modes and leaves no flags.
#[test]
fn a_cut_tile_is_rebuilt_from_its_modes() {
    let c = Case::read("real/0031");
    let (blocks, columns) = (c.tile.blocks(), c.tile.width / 16);
    let (_, whole) = decoded(&c.whole());
    let mut rebuilt = 0;
    for p in 1..=c.tile.count {
        for n in 0..c.length(p) {
            let frame = c.cut(p, n);
            let (k, seen) = match decoded(&frame) {
                (Decoded::Whole(k) | Decoded::NoTokens(k), seen) => (k, seen),
                (other, _) => panic!("partition {p}, {n} bytes: {other:?}"),
            };
            let (answer, mem, marks) = rescued(&frame, 0xA5);
            assert_eq!((answer, marks), (Rescued::Kept(blocks), marked(k, blocks, blocks)), "partition {p}, {n} bytes");
            assert!((0..k).all(|i| samples(&mem, c.tile.width, i) == samples(&seen, c.tile.width, i)));
            assert_eq!(mem.strengths[..STRENGTH_BYTES * k], seen.strengths[..STRENGTH_BYTES * k]);
            assert_eq!(mem.modes, whole.modes);
            for flags in mem.columns.chunks(COLUMN_BYTES).skip(k.saturating_sub(blocks - columns)) {
                assert_eq!(flags[2..], [0, 0]);
            }
            rebuilt += blocks - k;
        }
    }
    assert!(rebuilt > 100);
}

/// Every length of the first partition: as decoded, grey behind. Without tokens too as many are kept, and grey stays grey.
#[test]
fn where_modes_end_it_is_grey() {
    let c = Case::read("real/0037");
    let blocks = c.tile.blocks();
    for n in 0..c.length(0) {
        let mut frame = c.cut(0, n);
        let (k, seen) = match decoded(&frame) {
            (Decoded::Whole(k) | Decoded::NoModes(k), seen) => (k, seen),
            (other, _) => panic!("{n} bytes: {other:?}"),
        };
        assert_eq!(rescued(&frame, 0xA5), (Rescued::Kept(k), seen, marked(k, k, blocks)), "{n} bytes");
        frame.tile.token_lengths.fill(0);
        let (answer, mut mem, marks) = rescued(&frame, 0xA5);
        assert_eq!((answer, marks), (Rescued::Kept(k), marked(0, k, blocks)), "{n} bytes");
        assert!(mem.modes[MODE_BYTES * k..].iter().chain(&mem.strengths[STRENGTH_BYTES * k..]).all(|&x| x == 0));
        assert_eq!(deblock(&frame.tile, &mut mem), Deblocked::Done);
        assert!((k..blocks).all(|i| samples(&mem, c.tile.width, i).iter().all(|&x| x == 128)));
    }
}

#[test]
fn refusals_change_nothing() {
    let bytes = [0u8; 64];
    let good = worked(&bytes, 32, 32);
    let unchanged = |frame: &Frame, number: u32, marks_length: usize| {
        let (mut mem, mut marks) = (Memory::new(16, 16, 0xA5), vec![0xA5; marks_length]);
        assert_eq!(rescue(frame, &mut mem, &mut marks), Rescued::Refused(number));
        assert_eq!((mem, marks), (Memory::new(16, 16, 0xA5), vec![0xA5; marks_length]));
    };
    for (number, frame) in refused(&good) {
        unchanged(&frame, number, 1);
        for marks_length in [0, 2] {
            unchanged(&frame, number.min(4), marks_length);
        }
    }
    for marks_length in [0, 2, 256] {
        unchanged(&good, 4, marks_length);
    }
}
