//! Tiles recoded from Rust: the same picture from one partition, every room, cut tiles, refusals.
mod common;

use common::{memory_of, refused, worked, Case};
use hookbarley::{decode, recode, Decoded, Frame, Memory, Tile};

const LONG: usize = 1 << 16;

/// What the call answers and leaves, memory filled before.
fn recoded(frame: &Frame, out: &mut [u8]) -> (Result<Tile, u32>, Memory) {
    let mut mem = memory_of(&frame.tile, 0xA5);
    (recode(frame, &mut mem, out), mem)
}

fn decoded(frame: &Frame) -> (Decoded, Memory) {
    let mut mem = memory_of(&frame.tile, 0xA5);
    (decode(frame, &mut mem), mem)
}

fn length(tile: &Tile) -> usize {
    tile.first_length + tile.token_lengths[0]
}

#[test]
fn one_partition_gives_the_same_picture() {
    for name in ["real/0003", "real/0010", "real/0023", "real/0031", "real/0039"] {
        let c = Case::read(name);
        let mut out = vec![0x5A; LONG];
        let (tile, mem) = recoded(&c.whole(), &mut out);
        let tile = tile.expect(name);
        let whole = decoded(&c.whole());
        assert_eq!((tile.count, tile.first_start, tile.first_length), (1, 0, c.tile.first_length), "{name}");
        assert_eq!(out[..tile.first_length], c.bytes[..c.tile.first_length], "{name}");
        assert!(out[length(&tile)..].iter().all(|&x| x == 0x5A), "{name}");
        assert_eq!(mem, whole.1, "{name}");
        let frame = Frame { bytes: &out, header: c.header.clone(), tile };
        assert_eq!(decoded(&frame), whole, "{name}");
        let mut again = vec![0; length(&tile)];
        assert_eq!(recoded(&frame, &mut again).0, Ok(tile), "{name}");
        assert_eq!(again, out[..length(&tile)], "{name}");
    }
}

#[test]
fn a_room_too_small_is_left_alone() {
    let c = Case::read("real/0031");
    let needed = length(&recoded(&c.whole(), &mut vec![0; LONG]).0.unwrap());
    for room in 0..needed + 3 {
        let mut out = vec![0x5A; room];
        let (answer, mem) = recoded(&c.whole(), &mut out);
        assert_eq!(answer.is_ok(), needed <= room, "{room} of {needed} bytes");
        assert_eq!(mem, decoded(&c.whole()).1);
        if answer.is_err() {
            assert_eq!((answer, out), (Err(16), vec![0x5A; room]));
        }
    }
}

/// Every length of every partition: the number of `decode`, its memory, and nothing written unless it is whole.
#[test]
fn a_cut_tile_is_refused_as_decoded() {
    let c = Case::read("real/0037");
    for p in 0..=c.tile.count {
        for n in 0..c.length(p) {
            let frame = c.cut(p, n);
            let mut out = vec![0x5A; LONG];
            let (answer, mem) = recoded(&frame, &mut out);
            let (seen, left) = decoded(&frame);
            let number = match seen {
                Decoded::Whole(_) => 0,
                Decoded::Refused(number) => number,
                Decoded::NoModes(_) => 6,
                Decoded::NoTokens(_) => 7,
            };
            assert_eq!((answer.err().unwrap_or(0), mem), (number, left), "partition {p}, {n} bytes");
            assert!(number == 0 || out.iter().all(|&x| x == 0x5A), "partition {p}, {n} bytes");
        }
    }
}

#[test]
fn refusals_change_nothing() {
    let bytes = [0u8; 64];
    for (number, frame) in refused(&worked(&bytes, 32, 32)) {
        let (mut mem, mut out) = (Memory::new(16, 16, 0xA5), [0x5A; 64]);
        assert_eq!(recode(&frame, &mut mem, &mut out), Err(number));
        assert_eq!((mem, out), (Memory::new(16, 16, 0xA5), [0x5A; 64]));
    }
}
