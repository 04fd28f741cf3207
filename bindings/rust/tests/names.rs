//! The numbers that this crate has beside include/hookbarley.h are the header's.
use hookbarley::{answer, header, mark, mode, profile_rule, record, strength, Reads};
use hookbarley::{COLUMN_BYTES, ENTRIES, MODE_BYTES, PARTITIONS, STRENGTH_BYTES, TILE_NUMBERS};

#[test]
fn names_and_numbers_are_those_of_c() {
    let path = format!("{}/../../include/hookbarley.h", env!("CARGO_MANIFEST_DIR"));
    let text = std::fs::read_to_string(&path).expect(&path);
    let in_c = |name: &str| {
        let line = text.lines().find_map(|l| l.trim_start().strip_prefix("HOOKBARLEY_")?.strip_prefix(name)?.strip_prefix(" = "));
        let digits: String = line.expect(name).chars().take_while(char::is_ascii_digit).collect();
        digits.parse::<usize>().expect(name)
    };
    let ours = [
        ("ENTRIES", ENTRIES), ("TILE_NUMBERS", TILE_NUMBERS), ("PARTITIONS", PARTITIONS), ("COLUMN_BYTES", COLUMN_BYTES),
        ("MODE_BYTES", MODE_BYTES), ("STRENGTH_BYTES", STRENGTH_BYTES),
        ("FIRST_MOST", Reads::MOST.first as usize), ("TOKEN_MOST", Reads::MOST.tokens as usize),
        ("HEADER_SEGMENTS", header::SEGMENTS), ("HEADER_MAP", header::MAP), ("HEADER_ABSOLUTE", header::ABSOLUTE),
        ("HEADER_SEGMENT_QUANTIZER", header::SEGMENT_QUANTIZER), ("HEADER_SEGMENT_LEVEL", header::SEGMENT_LEVEL),
        ("HEADER_MAP_PROBABILITY", header::MAP_PROBABILITY), ("HEADER_LEVEL", header::LEVEL), ("HEADER_SHARPNESS", header::SHARPNESS),
        ("HEADER_DELTAS", header::DELTAS), ("HEADER_INTRA_DELTA", header::INTRA_DELTA), ("HEADER_SMALL_DELTA", header::SMALL_DELTA),
        ("HEADER_QUANTIZER", header::QUANTIZER), ("HEADER_QUANTIZER_DELTA", header::QUANTIZER_DELTA),
        ("HEADER_COEFFICIENTS", header::COEFFICIENTS), ("HEADER_SKIPPING", header::SKIPPING),
        ("HEADER_SKIP_PROBABILITY", header::SKIP_PROBABILITY),
        ("MODE_SEGMENT", mode::SEGMENT), ("MODE_SKIP", mode::SKIP), ("MODE_SMALL", mode::SMALL), ("MODE_LUMA", mode::LUMA),
        ("MODE_CHROMA", mode::CHROMA),
        ("STRENGTH_LIMIT", strength::LIMIT), ("STRENGTH_INNER", strength::INNER), ("STRENGTH_THRESHOLD", strength::THRESHOLD),
        ("STRENGTH_INSIDE", strength::INSIDE), ("STRENGTH_SEGMENT", strength::SEGMENT), ("STRENGTH_SMALL", strength::SMALL),
        ("MARK_WHOLE", mark::WHOLE as usize), ("MARK_MODES", mark::MODES as usize), ("MARK_GREY", mark::GREY as usize),
        ("SURVEY_COUNTS", record::COUNTS), ("SURVEY_ANSWERS", record::ANSWERS), ("SURVEY_SEGMENTS", record::SEGMENTS),
        ("SURVEY_LUMA", record::LUMA), ("SURVEY_SMALL", record::SMALL), ("SURVEY_CHROMA", record::CHROMA), ("SURVEY_SKIP", record::SKIP),
        ("SURVEY_INSIDE", record::INSIDE), ("SURVEY_SUBBLOCKS", record::SUBBLOCKS), ("SURVEY_FIRST_READS", record::FIRST_READS),
        ("SURVEY_TOKEN_READS", record::TOKEN_READS),
    ];
    let answers = [
        ("WHOLE", answer::WHOLE), ("SIZE", answer::SIZE), ("COUNT", answer::COUNT),
        ("ENTRY", answer::ENTRY), ("LENGTH", answer::LENGTH), ("PARTITION", answer::PARTITION),
        ("NO_MODES", answer::NO_MODES), ("NO_TOKENS", answer::NO_TOKENS), ("ARGUMENT", answer::ARGUMENT),
        ("LIMIT", answer::LIMIT), ("NO_KEY_FRAME", answer::NO_KEY_FRAME), ("PAST_END", answer::PAST_END),
        ("NO_HEADER", answer::NO_HEADER), ("FULL", answer::FULL), ("ROOM", answer::ROOM),
        ("MARKS", answer::MARKS), ("SIZES", answer::SIZES), ("KIND", answer::KIND),
        ("PROFILE_FITS", profile_rule::FITS), ("PROFILE_SIZE", profile_rule::SIZE), ("PROFILE_PARTITIONS", profile_rule::PARTITIONS),
        ("PROFILE_SEGMENTS", profile_rule::SEGMENTS), ("PROFILE_SHARPNESS", profile_rule::SHARPNESS),
        ("PROFILE_WHOLE", profile_rule::WHOLE), ("PROFILE_SKIPPED", profile_rule::SKIPPED),
    ];
    for (name, number) in ours.into_iter().chain(answers.map(|(name, number)| (name, number as usize))) {
        assert_eq!(in_c(name), number, "HOOKBARLEY_{name}");
    }
}
