//! Surveys called from Rust: every case as expected, folds and parts, a full record, refusals.
mod common;

use common::{memory_of, refused, worked, Case};
use hookbarley::{answer, decode_counted, mode, record, survey, survey_add, Decoded, Frame, Memory, Record, Surveyed, MODE_BYTES};

const LIMIT: u64 = i64::MAX as u64;

/// Survey of a frame over memory filled before.
fn surveyed(frame: &Frame, fill: u8, record: &mut Record) -> (Surveyed, Memory) {
    let mut mem = memory_of(&frame.tile, fill);
    (survey(frame, &mut mem, record), mem)
}

fn alone(frame: &Frame) -> Record {
    let mut record = [0; record::COUNTS];
    surveyed(frame, 0xA5, &mut record);
    record
}

fn lines(path: &str) -> Vec<Record> {
    let path = format!("{}/../../crates/replay/data/{path}", env!("CARGO_MANIFEST_DIR"));
    let text = std::fs::read_to_string(&path).expect(&path);
    let counts = |line: &str| line.split(' ').map(|n| n.parse().unwrap()).collect::<Vec<u64>>().try_into().unwrap();
    text.lines().map(counts).collect()
}

fn total(record: &Record, from: usize, rows: usize) -> u64 {
    record[from..][..rows].iter().sum()
}

/// Each tile alone, all of them folded, and the fold of two parts added.
#[test]
fn tiles_count_as_expected() {
    let (mut all, mut parts) = ([0; record::COUNTS], [[0; record::COUNTS]; 2]);
    let expected = lines("real/expected-survey.txt");
    for (i, line) in expected.iter().enumerate() {
        let c = Case::read(&format!("real/{i:04}"));
        assert_eq!(alone(&c.whole()), *line, "tile {i}");
        surveyed(&c.whole(), 0, &mut all);
        surveyed(&c.whole(), 0, &mut parts[i % 2]);
    }
    assert_eq!(vec![all], lines("real/expected-survey-all.txt"));
    let [mut one, other] = parts;
    assert_eq!(survey_add(&mut one, &other), Ok(()));
    assert_eq!(one, all);
    assert_eq!(total(&all, record::ANSWERS, 8), expected.len() as u64);
    let finished = total(&all, record::SEGMENTS, 4);
    for (from, rows) in [(record::LUMA, 5), (record::CHROMA, 4), (record::SKIP, 2), (record::INSIDE, 2)] {
        assert_eq!(total(&all, from, rows), finished);
    }
    assert_eq!(total(&all, record::SUBBLOCKS, 10), 16 * all[record::SMALL]);
}

/// Every length of the first partition: answer and memory are the picture call's, only what is finished counts.
#[test]
fn a_cut_tile_counts_what_is_finished() {
    let c = Case::read("real/0037");
    for n in 0..c.length(0) {
        let frame = c.cut(0, n);
        let mut seen = memory_of(&frame.tile, 0);
        let (answer, reads) = decode_counted(&frame, &mut seen);
        let (number, k) = match answer {
            Decoded::Whole(k) => (0, k),
            Decoded::NoModes(k) => (6, k),
            other => panic!("{n} bytes: {other:?}"),
        };
        let mut record = [0; record::COUNTS];
        assert_eq!(surveyed(&frame, 0xA5, &mut record), (Surveyed::Counted(answer), seen.clone()), "{n} bytes");
        assert_eq!((record[record::ANSWERS + number], total(&record, record::ANSWERS, 8)), (1, 1));
        assert_eq!((total(&record, record::LUMA, 5), record[record::FIRST_READS]), (k as u64, reads.first));
        assert_eq!(record[record::TOKEN_READS], reads.tokens);
        let small = seen.modes[..MODE_BYTES * k].chunks(MODE_BYTES).filter(|m| m[mode::SMALL] == 1).count();
        assert_eq!(record[record::SMALL], small as u64);
    }
}

/// Each count that the tile raises, up to the limit and past it.
#[test]
fn a_full_record_stays_as_it_was() {
    let c = Case::read("real/0003");
    let frame = c.whole();
    let (added, (_, seen)) = (alone(&frame), surveyed(&frame, 0, &mut [0; record::COUNTS]));
    for i in (0..record::COUNTS).filter(|&i| added[i] > 0) {
        let mut record = [0; record::COUNTS];
        record[i] = LIMIT - added[i];
        assert_eq!(surveyed(&frame, 0, &mut record).0, Surveyed::Counted(Decoded::Whole(c.tile.blocks())));
        assert_eq!(record[i], LIMIT);
        let before = record;
        assert_eq!(surveyed(&frame, 0xA5, &mut record), (Surveyed::Full(c.tile.blocks()), seen.clone()));
        assert_eq!(record, before);
        assert_eq!(survey_add(&mut record, &added), Err(answer::FULL));
        assert_eq!(record, before);
    }
}

/// A refusal counts its answer and nothing else.
#[test]
fn refusals_are_counted() {
    let bytes = [0u8; 64];
    for (number, frame) in refused(&worked(&bytes, 32, 32)) {
        let (mut record, mut mem) = ([0; record::COUNTS], Memory::new(16, 16, 0xA5));
        assert_eq!(survey(&frame, &mut mem, &mut record), Surveyed::Counted(Decoded::Refused(number)));
        assert_eq!(mem, Memory::new(16, 16, 0xA5));
        let mut want = [0; record::COUNTS];
        want[record::ANSWERS + number as usize] = 1;
        assert_eq!(record, want);
    }
}
