//! The Rust wrapper on any bytes: a WebP file or a bare frame. The calls must agree with each other, and none may panic, which ends the
//! program. rust.c calls it.
use hookbarley::*;

const BLOCKS_MOST: usize = 64;

/// One input.
///
/// # Safety
/// `bytes` points to `length` bytes.
#[no_mangle]
pub unsafe extern "C" fn fuzz_one(bytes: *const u8, length: usize) {
    let bytes = std::slice::from_raw_parts(bytes, length);
    let frame = webp_find(bytes).map_or(bytes, |place| &bytes[place]);
    wrap(frame);
    edge(bytes);
    match Frame::take(frame) {
        Ok(frame) if frame.tile.blocks() <= BLOCKS_MOST => picture(&frame, bytes),
        _ => (),
    }
}

fn memory_of(frame: &Frame, fill: u8) -> Memory {
    Memory::new(frame.tile.width, frame.tile.height, fill)
}

fn finished_of(decoded: Decoded) -> usize {
    match decoded {
        Decoded::Whole(k) | Decoded::NoModes(k) | Decoded::NoTokens(k) => k,
        Decoded::Refused(n) => panic!("a frame that was taken is refused: {n}"),
    }
}

fn picture(frame: &Frame, bytes: &[u8]) {
    let mut memory = memory_of(frame, 1);
    let (decoded, reads) = decode_counted(frame, &mut memory);
    let finished = finished_of(decoded);
    shown(frame, decoded, &memory);
    rescued(frame, finished);
    surveyed(frame, decoded, reads, &memory);
    assert_ne!(profile(frame, &mut memory_of(frame, 2)), Profiled::Fits, "no tile of so few macroblocks fits");
    recoded(frame, decoded, &memory);
    spoiled(frame, bytes);
}

fn shown(frame: &Frame, decoded: Decoded, memory: &Memory) {
    let (mut other, mut at_once, mut apart) = (frame.clone(), memory_of(frame, 3), memory.clone());
    assert_eq!(show(&mut other, &mut at_once), decoded);
    assert_eq!(&other, frame);
    if frame.header[header::LEVEL] != 0 {
        assert_eq!(deblock(&frame.tile, &mut apart), Deblocked::Done);
    }
    assert_eq!(at_once, apart);
}

fn rescued(frame: &Frame, finished: usize) {
    let mut marks = vec![9; frame.tile.blocks()];
    let rescued = rescue(frame, &mut memory_of(frame, 4), &mut marks);
    assert_eq!(rescued, Rescued::Kept(marks.iter().filter(|&&m| m != mark::GREY).count()));
    assert_eq!(marks.iter().take_while(|&&m| m == mark::WHOLE).count(), finished);
}

fn surveyed(frame: &Frame, decoded: Decoded, reads: Reads, memory: &Memory) {
    let (mut record, mut sum, mut lent) = ([0; record::COUNTS], [0; record::COUNTS], memory_of(frame, 5));
    assert_eq!(survey(frame, &mut lent, &mut record), Surveyed::Counted(decoded));
    assert_eq!(&lent, memory);
    assert_eq!((record[record::FIRST_READS], record[record::TOKEN_READS]), (reads.first, reads.tokens));
    assert_eq!(survey_add(&mut sum, &record), Ok(()));
    assert_eq!(sum, record);
}

fn recoded(frame: &Frame, decoded: Decoded, memory: &Memory) {
    let (mut lent, mut out) = (memory_of(frame, 6), vec![7; 4 * frame.bytes.len() + 1000]);
    if let Ok(tile) = recode(frame, &mut lent, &mut out) {
        let (again, mut other) = (Frame { bytes: &out, header: frame.header.clone(), tile }, memory_of(frame, 8));
        assert_eq!((decode(&again, &mut other), &other), (decoded, memory));
    }
    assert_eq!(&lent, memory);
}

/// A tile with one number, and memory with one length, changed as the input says: an answer, and no panic.
fn spoiled(frame: &Frame, bytes: &[u8]) {
    let byte = |i: usize| bytes.get(i).map_or(0, |&b| b as usize);
    let (mut other, mut memory, mut marks) = (frame.clone(), memory_of(frame, 9), vec![0; byte(3) % 65]);
    let number = byte(1) << (byte(2) % 64);
    match byte(0) % 8 {
        0 => other.tile.width = number,
        1 => other.tile.count = number,
        2 => other.tile.first_start = number,
        3 => other.tile.token_lengths[0] = number,
        4 => other.tile.reader.at = number,
        5 => other.tile.reader.window = number,
        6 => memory.modes.truncate(number),
        _ => other.header.truncate(number),
    }
    decode(&other, &mut memory);
    rescue(&other, &mut memory, &mut marks);
    profile(&other, &mut memory);
    deblock(&other.tile, &mut memory);
    let _ = recode(&other, &mut memory, &mut marks);
    show(&mut other, &mut memory);
}

fn wrap(frame: &[u8]) {
    let mut out = vec![0; frame.len() + 21];
    let written = webp_wrap(frame, &mut out).unwrap();
    assert_eq!(&out[webp_find(&out[..written]).unwrap()], frame);
    assert_eq!(webp_wrap(frame, &mut out[..written - 1]), Err(answer::ROOM));
}

/// The kernel, and why it did so, on the last bytes.
fn edge(bytes: &[u8]) {
    if bytes.len() < 12 {
        return;
    }
    let last = &bytes[bytes.len() - 12..];
    let before: [u8; 8] = last[..8].try_into().unwrap();
    let (simple, edge) = (last[11] & 1 != 0, last[11] & 2 != 0);
    let mut after = before;
    filter(&mut after, simple, edge, last[8], last[9], last[10]);
    let told = explain(&before, simple, edge, last[8], last[9], last[10]);
    assert_eq!((told.before, told.after), (before, after));
    for k in 0..8 {
        assert_eq!(after[k] as i32, (before[k] as i32 + told.steps[k]).clamp(0, 255));
    }
}
