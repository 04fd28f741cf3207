//! From a frame's bytes to the screen from Rust: beside the three calls one after the other, a level of 0, every truncation, refusals.
use hookbarley::{deblock, decode_counted, header, show, show_counted, webp_find, Decoded, Frame, Memory, Reads, Tile, ENTRIES};

fn frame(name: &str) -> Vec<u8> {
    let path = format!("{}/../../{name}", env!("CARGO_MANIFEST_DIR"));
    let file = std::fs::read(&path).expect(&path);
    let at = webp_find(&file).expect(name);
    file[at].to_vec()
}

/// Nothing taken yet: entries and tile hold something else.
fn untaken(bytes: &[u8]) -> Frame<'_> {
    Frame { bytes, header: vec![77; ENTRIES], tile: Tile { width: 5, count: 3, ..Tile::default() } }
}

/// What the three calls make of it; the number where the header is refused.
fn in_three(bytes: &[u8]) -> Result<(Decoded, Reads, Frame<'_>, Memory), u32> {
    let frame = Frame::take(bytes)?;
    let mut mem = Memory::new(frame.tile.width, frame.tile.height, 0);
    let (answer, reads) = decode_counted(&frame, &mut mem);
    if frame.header[header::LEVEL] != 0 {
        deblock(&frame.tile, &mut mem);
    }
    Ok((answer, reads, frame, mem))
}

/// The one call on the same bytes leaves the same.
fn as_in_three(bytes: &[u8]) -> Decoded {
    let mut frame = untaken(bytes);
    match in_three(bytes) {
        Ok((answer, reads, taken, mem)) => {
            let mut shown = Memory::new(taken.tile.width, taken.tile.height, 0xA5);
            assert_eq!(show_counted(&mut frame, &mut shown), (answer, reads));
            assert_eq!((frame, shown), (taken, mem));
            answer
        }
        Err(number) => {
            let mut mem = Memory::new(16, 16, 0xA5);
            assert_eq!(show_counted(&mut frame, &mut mem), (Decoded::Refused(number), Reads { first: 0, tokens: 0 }));
            assert_eq!((frame, mem), (untaken(bytes), Memory::new(16, 16, 0xA5)));
            Decoded::Refused(number)
        }
    }
}

#[test]
fn as_the_three_calls() {
    for name in ["q50", "q75", "q90"] {
        assert_eq!(as_in_three(&frame(&format!("bench/tile-{name}.webp"))), Decoded::Whole(256));
    }
    assert_eq!(as_in_three(&frame("tests/second/kept/simple-segments.webp")), Decoded::Whole(45));
}

/// The frame's level is 0 and its segments have levels: not filtered. With its own level the same frame is.
#[test]
fn a_level_of_0_is_not_filtered() {
    let shown = |name: &str| {
        let bytes = frame(&format!("tests/second/kept/{name}.webp"));
        let (_, _, mut taken, mem) = in_three(&bytes).unwrap();
        let mut plain = Memory::new(taken.tile.width, taken.tile.height, 0);
        decode_counted(&taken, &mut plain);
        assert!(taken.header[header::SEGMENT_LEVEL..][..4].iter().any(|&x| x > 0));
        let mut shown = Memory::new(taken.tile.width, taken.tile.height, 1);
        show(&mut taken, &mut shown);
        assert_eq!(shown, mem);
        (taken.header[header::LEVEL], shown == plain)
    };
    assert_eq!(shown("level-0-segments"), (0, true));
    assert_eq!(shown("normal-segments").1, false);
}

#[test]
fn every_truncation() {
    let bytes = frame("tests/outside/webp/odd.webp");
    let answers: Vec<Decoded> = (0..=bytes.len()).map(|n| as_in_three(&bytes[..n])).collect();
    assert!(answers.contains(&Decoded::Refused(12)) && answers.contains(&Decoded::Refused(13)));
    assert!(answers.contains(&Decoded::NoTokens(0)) && answers.contains(&Decoded::Whole(1)));
}

#[test]
fn refusals_change_nothing() {
    let bytes = frame("tests/outside/webp/even.webp");
    let unchanged = |number: u32, entries: usize, mem: Memory| {
        let before = Frame { header: vec![77; entries], ..untaken(&bytes) };
        let (mut frame, mut lent) = (before.clone(), mem.clone());
        assert_eq!(show(&mut frame, &mut lent), Decoded::Refused(number));
        assert_eq!((frame, lent), (before, mem));
    };
    let good = Memory::new(16, 16, 0xA5);
    for entries in [0, ENTRIES - 1, ENTRIES + 1] {
        unchanged(9, entries, good.clone());
    }
    unchanged(4, ENTRIES, Memory::new(16, 32, 0xA5));
    unchanged(4, ENTRIES, Memory { columns: vec![0xA5; 3], ..good.clone() });
    unchanged(4, ENTRIES, Memory { strengths: vec![], ..good });
}
