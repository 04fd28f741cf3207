//! Key frames recoded whole from Rust: the same picture from one partition, every room, every truncation, refusals.
use hookbarley::{decode, recode_frame, webp_find, Decoded, Frame, Memory};

const LONG: usize = 1 << 16;

fn frame(name: &str) -> Vec<u8> {
    let path = format!("{}/../../{name}", env!("CARGO_MANIFEST_DIR"));
    let file = std::fs::read(&path).expect(&path);
    let at = webp_find(&file).expect(name);
    file[at].to_vec()
}

/// What the header's and the picture call make of it, memory filled before; the number of a header that is refused.
fn decoded(bytes: &[u8]) -> Result<(Decoded, Frame<'_>, Memory), u32> {
    let taken = Frame::take(bytes)?;
    let mut mem = Memory::new(taken.tile.width, taken.tile.height, 0xA5);
    let answer = decode(&taken, &mut mem);
    Ok((answer, taken, mem))
}

fn number(answer: Decoded) -> u32 {
    match answer {
        Decoded::Whole(_) => 0,
        Decoded::Refused(number) => number,
        Decoded::NoModes(_) => 6,
        Decoded::NoTokens(_) => 7,
    }
}

#[test]
fn one_partition_shows_the_same_picture() {
    for name in ["bench/tile-q50.webp", "bench/tile-q90.webp", "tests/outside/webp/odd.webp", "tests/second/kept/simple-segments.webp"] {
        let bytes = frame(name);
        let (answer, taken, left) = decoded(&bytes).unwrap();
        let (mut mem, mut out) = (Memory::new(taken.tile.width, taken.tile.height, 0x5A), vec![0x5A; LONG]);
        let n = recode_frame(&bytes, &mut mem, &mut out).expect(name);
        assert!(out[n..].iter().all(|&x| x == 0x5A), "{name}");
        let (again, new, seen) = decoded(&out[..n]).unwrap();
        assert_eq!((again, &new.header, new.tile.count), (answer, &taken.header, 1), "{name}");
        assert_eq!((&mem, &seen), (&left, &left), "{name}");
        let mut twice = vec![0; n];
        assert_eq!(recode_frame(&out[..n], &mut mem, &mut twice), Ok(n), "{name}");
        assert_eq!(twice, out[..n], "{name}");
    }
}

#[test]
fn every_room_and_every_truncation() {
    let bytes = frame("tests/outside/webp/odd.webp");
    let taken = Frame::take(&bytes).unwrap();
    let lent = || Memory::new(taken.tile.width, taken.tile.height, 0xA5);
    let needed = recode_frame(&bytes, &mut lent(), &mut vec![0; LONG]).unwrap();
    for room in 0..needed + 3 {
        let (mut mem, mut out) = (lent(), vec![0x5A; room]);
        let answer = recode_frame(&bytes, &mut mem, &mut out);
        assert_eq!(answer, if needed <= room { Ok(needed) } else { Err(16) });
        assert!(answer.is_ok() || out.iter().all(|&x| x == 0x5A));
    }
    for n in 0..bytes.len() {
        let (mut mem, mut out) = (lent(), vec![0x5A; LONG]);
        let answer = recode_frame(&bytes[..n], &mut mem, &mut out).err().unwrap_or(0);
        match decoded(&bytes[..n]) {
            Ok((seen, _, left)) => assert_eq!((answer, mem), (number(seen), left), "{n} bytes"),
            Err(refused) => assert_eq!((answer, mem), (refused, lent()), "{n} bytes"),
        }
        assert!(answer == 0 || out.iter().all(|&x| x == 0x5A), "{n} bytes");
    }
}

#[test]
fn memory_of_another_size_is_refused() {
    let bytes = frame("tests/outside/webp/even.webp");
    let (mut mem, mut out) = (Memory::new(48, 16, 0xA5), vec![0x5A; LONG]);
    assert_eq!(recode_frame(&bytes, &mut mem, &mut out), Err(4));
    assert_eq!((mem, out), (Memory::new(48, 16, 0xA5), vec![0x5A; LONG]));
}
