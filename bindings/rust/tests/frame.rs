//! A key frame's own header from Rust: from a file to its planes, refusals in order, every truncation.
use hookbarley::{deblock, decode, webp_find, Deblocked, Decoded, Frame, Memory};

fn frame(name: &str) -> Vec<u8> {
    let path = format!("{}/../../{name}", env!("CARGO_MANIFEST_DIR"));
    let file = std::fs::read(&path).expect(&path);
    let at = webp_find(&file).expect(name);
    file[at].to_vec()
}

fn sum(p: &[u8]) -> u32 {
    p.iter().map(|&x| x as u32).sum()
}

#[test]
fn from_a_file_to_its_planes() {
    for (name, sums) in [("q50", [7864495, 1869616, 2222832]), ("q75", [7862718, 1870044, 2222860]), ("q90", [7861994, 1870584, 2223410])] {
        let bytes = frame(&format!("bench/tile-{name}.webp"));
        let f = Frame::take(&bytes).unwrap();
        let mut mem = Memory::new(f.tile.width, f.tile.height, 0xA5);
        assert_eq!(decode(&f, &mut mem), Decoded::Whole(256));
        assert_eq!([sum(&mem.y), sum(&mem.u), sum(&mem.v)], sums);
        assert_eq!(deblock(&f.tile, &mut mem), Deblocked::Done);
        assert_eq!((f.tile.true_width, f.tile.true_height, f.tile.simple, f.tile.count), (256, 256, 0, 1));
    }
}

#[test]
fn refusals_in_order() {
    let good = frame("bench/tile-q50.webp");
    let refused = |at: &[(usize, u8)], n: usize| {
        let mut b = good[..n].to_vec();
        for &(i, x) in at {
            b[i] = x;
        }
        Frame::take(&b).unwrap_err()
    };
    assert_eq!(refused(&[], 9), 12);
    assert_eq!(refused(&[(0, good[0] | 1)], 20), 12);
    assert_eq!(refused(&[(5, 0x2b)], 20), 12);
    assert_eq!(refused(&[(0, good[0] & 0xf1 | 8)], 20), 12);
    assert_eq!(refused(&[(6, 0), (7, 0xc0)], 20), 12);
    assert_eq!(refused(&[], 20), 13);
    assert_eq!(refused(&[(0, 0x30), (1, 0), (2, 0)], 20), 14);
    assert_eq!(refused(&[(0, 0xd0), (1, 0), (2, 0)], 20), 14);
}

#[test]
fn every_truncation() {
    let bytes = frame("tests/outside/webp/odd.webp");
    let whole = Frame::take(&bytes).unwrap();
    for n in 0..bytes.len() {
        match Frame::take(&bytes[..n]) {
            Err(number) => assert_eq!(number, if n < 10 { 12 } else { 13 }, "{n}"),
            Ok(f) => {
                assert_eq!(f.header, whole.header, "{n}");
                assert_eq!((f.tile.reader, f.tile.token_starts), (whole.tile.reader, whole.tile.token_starts), "{n}");
                let mut mem = Memory::new(f.tile.width, f.tile.height, 0xA5);
                assert!(!matches!(decode(&f, &mut mem), Decoded::Refused(_)), "{n}");
            }
        }
    }
}
