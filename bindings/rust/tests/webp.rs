//! The WebP calls from Rust: files read and written back, damaged files, frames of every length up to 70.
use hookbarley::{webp_find, webp_wrap};

fn file(name: &str) -> Vec<u8> {
    let path = format!("{}/../../{name}", env!("CARGO_MANIFEST_DIR"));
    std::fs::read(&path).expect(&path)
}

#[test]
fn files_read_and_written_back() {
    let small = ["tests/outside/webp/even.webp", "tests/outside/webp/odd.webp"];
    for name in small.into_iter().chain(["bench/tile-q50.webp", "bench/tile-q75.webp", "bench/tile-q90.webp"]) {
        let bytes = file(name);
        let at = webp_find(&bytes).expect(name);
        assert_eq!(at.start, 20);
        let mut out = vec![0xA5; bytes.len() + 3];
        assert_eq!(webp_wrap(&bytes[at], &mut out), Ok(bytes.len()), "{name}");
        assert_eq!(out[..bytes.len()], bytes[..], "{name}");
        assert_eq!(out[bytes.len()..], [0xA5; 3]);
    }
}

#[test]
fn other_kinds_are_19() {
    assert_eq!(webp_find(&file("tests/outside/webp/lossless.webp")), Err(19));
    assert_eq!(webp_find(&file("tests/outside/webp/extended.webp")), Err(19));
}

#[test]
fn cut_and_longer() {
    let bytes = file("tests/outside/webp/odd.webp");
    for n in 0..bytes.len() {
        assert_eq!(webp_find(&bytes[..n]), Err(if n < 12 { 17 } else { 18 }), "{n}");
    }
    let mut longer = bytes.clone();
    longer.push(0);
    assert_eq!(webp_find(&longer), Err(18));
    let mut pad = bytes.clone();
    *pad.last_mut().unwrap() = 1;
    assert_eq!(webp_find(&pad), Err(18));
}

#[test]
fn the_order() {
    let good = file("tests/outside/webp/even.webp");
    let mut b = good.clone();
    b[16] ^= 2;
    assert_eq!(webp_find(&b), Err(18));
    b[15] = b'L';
    assert_eq!(webp_find(&b), Err(19));
    b[4] ^= 1;
    assert_eq!(webp_find(&b), Err(18));
    b[8] = b'w';
    assert_eq!(webp_find(&b), Err(17));
    b[8] = b'W';
    b[0] = b'r';
    assert_eq!(webp_find(&b), Err(17));
}

#[test]
fn every_length_and_room() {
    for n in 0..70 {
        let frame: Vec<u8> = (0..n).map(|i| (200 + i) as u8).collect();
        let need = 20 + n + n % 2;
        for room in 0..need {
            let mut out = vec![0xA5; room];
            assert_eq!(webp_wrap(&frame, &mut out), Err(16));
            assert!(out.iter().all(|&x| x == 0xA5));
        }
        let mut out = vec![0xA5; need];
        assert_eq!(webp_wrap(&frame, &mut out), Ok(need));
        let at = webp_find(&out).unwrap();
        assert_eq!(out[at], frame[..]);
    }
}
