//! Safe calls of libhookbarley.a. References give what the library supposes of its caller (include/hookbarley.h): memory that is there,
//! aligned and written, of which nothing that is lent to be written overlaps.

extern "C" {
    fn hookbarley_decode(
        bytes: *const u8, bytes_len: usize,
        header: *const i32, header_len: usize,
        tile: *const usize, tile_len: usize,
        y: *mut u8, y_len: usize,
        u: *mut u8, u_len: usize,
        v: *mut u8, v_len: usize,
        columns: *mut u8, columns_len: usize,
        modes: *mut u8, modes_len: usize,
        strengths: *mut u8, strengths_len: usize,
        finished: *mut usize, first_reads: *mut u64, token_reads: *mut u64,
    ) -> u32;
    fn hookbarley_rescue(
        bytes: *const u8, bytes_len: usize,
        header: *const i32, header_len: usize,
        tile: *const usize, tile_len: usize,
        y: *mut u8, y_len: usize,
        u: *mut u8, u_len: usize,
        v: *mut u8, v_len: usize,
        columns: *mut u8, columns_len: usize,
        modes: *mut u8, modes_len: usize,
        strengths: *mut u8, strengths_len: usize,
        marks: *mut u8, marks_len: usize,
        kept: *mut usize,
    ) -> u32;
    fn hookbarley_profile(
        bytes: *const u8, bytes_len: usize,
        header: *const i32, header_len: usize,
        tile: *const usize, tile_len: usize,
        y: *mut u8, y_len: usize,
        u: *mut u8, u_len: usize,
        v: *mut u8, v_len: usize,
        columns: *mut u8, columns_len: usize,
        modes: *mut u8, modes_len: usize,
        strengths: *mut u8, strengths_len: usize,
        rule: *mut u32, macroblock: *mut usize,
    ) -> u32;
    fn hookbarley_survey(
        bytes: *const u8, bytes_len: usize,
        header: *const i32, header_len: usize,
        tile: *const usize, tile_len: usize,
        y: *mut u8, y_len: usize,
        u: *mut u8, u_len: usize,
        v: *mut u8, v_len: usize,
        columns: *mut u8, columns_len: usize,
        modes: *mut u8, modes_len: usize,
        strengths: *mut u8, strengths_len: usize,
        finished: *mut usize, first_reads: *mut u64, token_reads: *mut u64,
        record: *mut u64, record_len: usize,
    ) -> u32;
    fn hookbarley_survey_add(record: *mut u64, record_len: usize, other: *const u64, other_len: usize) -> u32;
    fn hookbarley_recode(
        bytes: *const u8, bytes_len: usize,
        header: *const i32, header_len: usize,
        tile: *const usize, tile_len: usize,
        y: *mut u8, y_len: usize,
        u: *mut u8, u_len: usize,
        v: *mut u8, v_len: usize,
        columns: *mut u8, columns_len: usize,
        modes: *mut u8, modes_len: usize,
        strengths: *mut u8, strengths_len: usize,
        out: *mut u8, room: usize,
        result: *mut usize, result_len: usize,
    ) -> u32;
    fn hookbarley_recode_frame(
        bytes: *const u8, bytes_len: usize,
        y: *mut u8, y_len: usize,
        u: *mut u8, u_len: usize,
        v: *mut u8, v_len: usize,
        columns: *mut u8, columns_len: usize,
        modes: *mut u8, modes_len: usize,
        strengths: *mut u8, strengths_len: usize,
        out: *mut u8, room: usize,
        written: *mut usize,
    ) -> u32;
    fn hookbarley_deblock(
        y: *mut u8, y_len: usize,
        u: *mut u8, u_len: usize,
        v: *mut u8, v_len: usize,
        strengths: *const u8, strengths_len: usize,
        width: usize, height: usize, simple: u32,
    ) -> u32;
    fn hookbarley_frame(bytes: *const u8, length: usize, header: *mut i32, header_len: usize, tile: *mut usize, tile_len: usize) -> u32;
    fn hookbarley_key_frame(
        bytes: *const u8, length: usize,
        header: *mut i32, header_len: usize,
        tile: *mut usize, tile_len: usize,
        y: *mut u8, y_len: usize,
        u: *mut u8, u_len: usize,
        v: *mut u8, v_len: usize,
        columns: *mut u8, columns_len: usize,
        modes: *mut u8, modes_len: usize,
        strengths: *mut u8, strengths_len: usize,
        finished: *mut usize, first_reads: *mut u64, token_reads: *mut u64,
    ) -> u32;
    fn hookbarley_filter(samples: *mut u8, samples_len: usize, simple: u8, edge: u8, limit: u8, inner: u8, threshold: u8) -> u32;
    fn hookbarley_explain(
        samples: *const u8, samples_len: usize,
        simple: u8, edge: u8, limit: u8, inner: u8, threshold: u8,
        after: *mut u8, after_len: usize,
        steps: *mut i32, steps_len: usize,
        rule: *mut u32, pair: *mut u32,
    ) -> u32;
    fn hookbarley_webp_find(bytes: *const u8, length: usize, start: *mut usize, frame_length: *mut usize) -> u32;
    fn hookbarley_webp_wrap(frame: *const u8, frame_length: usize, out: *mut u8, room: usize, written: *mut usize) -> u32;
}

/// What the calls answer. include/hookbarley.h says when.
pub mod answer {
    pub const WHOLE: u32 = 0;
    pub const SIZE: u32 = 1;
    pub const COUNT: u32 = 2;
    pub const ENTRY: u32 = 3;
    pub const LENGTH: u32 = 4;
    pub const PARTITION: u32 = 5;
    pub const NO_MODES: u32 = 6;
    pub const NO_TOKENS: u32 = 7;
    pub const ARGUMENT: u32 = 9;
    pub const LIMIT: u32 = 11;
    pub const NO_KEY_FRAME: u32 = 12;
    pub const PAST_END: u32 = 13;
    pub const NO_HEADER: u32 = 14;
    pub const FULL: u32 = 15;
    pub const ROOM: u32 = 16;
    pub const MARKS: u32 = 17;
    pub const SIZES: u32 = 18;
    pub const KIND: u32 = 19;
}

/// The entries of a header.
pub const ENTRIES: usize = 1096;
/// The numbers of a tile.
pub const TILE_NUMBERS: usize = 28;
/// Token partitions, at most.
pub const PARTITIONS: usize = 8;
/// Column memory, for each macroblock column.
pub const COLUMN_BYTES: usize = 4;
/// Mode memory, for each macroblock.
pub const MODE_BYTES: usize = 20;
/// Strength memory, for each macroblock.
pub const STRENGTH_BYTES: usize = 6;

/// The entries of a header that are looked at. include/hookbarley.h says what each is.
pub mod header {
    pub const SEGMENTS: usize = 2;
    pub const MAP: usize = 3;
    pub const ABSOLUTE: usize = 5;
    pub const SEGMENT_QUANTIZER: usize = 6;
    pub const SEGMENT_LEVEL: usize = 10;
    pub const MAP_PROBABILITY: usize = 14;
    pub const LEVEL: usize = 18;
    pub const SHARPNESS: usize = 19;
    pub const DELTAS: usize = 20;
    pub const INTRA_DELTA: usize = 22;
    pub const SMALL_DELTA: usize = 26;
    pub const QUANTIZER: usize = 31;
    pub const QUANTIZER_DELTA: usize = 32;
    pub const COEFFICIENTS: usize = 38;
    pub const SKIPPING: usize = 1094;
    pub const SKIP_PROBABILITY: usize = 1095;
}

/// The bytes of a mode record.
pub mod mode {
    pub const SEGMENT: usize = 0;
    pub const SKIP: usize = 1;
    pub const SMALL: usize = 2;
    /// Sixteen.
    pub const LUMA: usize = 3;
    pub const CHROMA: usize = 19;
}

/// The bytes of a strength record.
pub mod strength {
    pub const LIMIT: usize = 0;
    pub const INNER: usize = 1;
    pub const THRESHOLD: usize = 2;
    pub const INSIDE: usize = 3;
    pub const SEGMENT: usize = 4;
    pub const SMALL: usize = 5;
}

/// What a macroblock that `rescue` leaves is made of.
pub mod mark {
    /// Modes and tokens: `decode` finishes it too.
    pub const WHOLE: u8 = 0;
    /// Modes alone: it is predicted, nothing is added.
    pub const MODES: u8 = 1;
    /// Neither: its samples are 128.
    pub const GREY: u8 = 2;
}

/// The rules of the cockpit profile, in the order in which `profile` tries them. include/hookbarley.h says what each asks.
pub mod profile_rule {
    pub const FITS: u32 = 0;
    pub const SIZE: u32 = 1;
    pub const PARTITIONS: u32 = 2;
    pub const SEGMENTS: u32 = 3;
    pub const SHARPNESS: u32 = 4;
    pub const WHOLE: u32 = 5;
    pub const SKIPPED: u32 = 6;
}

/// The tables of a survey's record: where each starts. include/hookbarley.h says what its counts are.
pub mod record {
    /// So many counts has a record.
    pub const COUNTS: usize = 37;
    /// Eight: calls by their answer, 0 to 7.
    pub const ANSWERS: usize = 0;
    /// Four: finished macroblocks by segment.
    pub const SEGMENTS: usize = 8;
    /// Five: by large mode, then small.
    pub const LUMA: usize = 12;
    /// That fifth one.
    pub const SMALL: usize = 16;
    /// Four: by chroma mode.
    pub const CHROMA: usize = 17;
    /// Two: not skipped, skipped.
    pub const SKIP: usize = 21;
    /// Two: inner edges not filtered, filtered.
    pub const INSIDE: usize = 23;
    /// Ten: the sub-blocks of small macroblocks by mode.
    pub const SUBBLOCKS: usize = 25;
    /// Symbols read from the first partition.
    pub const FIRST_READS: usize = 35;
    /// Symbols read from token partitions.
    pub const TOKEN_READS: usize = 36;
}

/// What pictures are counted into (`survey`), zeros before the first.
pub type Record = [u64; record::COUNTS];

/// A key frame's tile, as the library takes it: 28 numbers.
#[repr(C)]
#[derive(Clone, Copy, Debug, Default, PartialEq, Eq)]
pub struct Tile {
    /// The sides of the planes: the true sizes rounded up to 16.
    pub width: usize,
    pub height: usize,
    /// What of the planes is the picture.
    pub true_width: usize,
    pub true_height: usize,
    /// 1: the simple loop filter, else 0.
    pub simple: usize,
    /// Token partitions; from there on their starts and lengths are not looked at.
    pub count: usize,
    pub first_start: usize,
    pub first_length: usize,
    // A plain 8: with `PARTITIONS` here rustc 1.95 fails on a closure that captures a part of a tile.
    pub token_starts: [usize; 8],
    pub token_lengths: [usize; 8],
    /// The boolean reader in the first partition, behind the coded header.
    pub reader: Reader,
}

impl Tile {
    /// Its macroblocks; so many marks `rescue` asks for.
    pub fn blocks(&self) -> usize {
        (self.width / 16) * (self.height / 16)
    }
}

const _: () = assert!(std::mem::size_of::<Tile>() == TILE_NUMBERS * std::mem::size_of::<usize>());

/// A boolean reader: the place of the next byte, range, shifts since a byte came in, window.
#[repr(C)]
#[derive(Clone, Copy, Debug, Default, PartialEq, Eq)]
pub struct Reader {
    pub at: usize,
    pub range: usize,
    pub shifts: usize,
    pub window: usize,
}

impl Reader {
    /// A partition opened afresh: two bytes in the window, zero past its end.
    pub fn open(partition: &[u8]) -> Reader {
        let byte = |i: usize| partition.get(i).map_or(0, |&b| b as usize);
        Reader { at: 2, range: 255, shifts: 0, window: byte(0) * 256 + byte(1) }
    }
}

/// What a picture is decoded from: bytes that hold the partitions, the header's entries, the tile. `Frame::take` makes it of a key frame.
#[derive(Clone, Debug, PartialEq, Eq)]
pub struct Frame<'a> {
    pub bytes: &'a [u8],
    /// `ENTRIES` of them.
    pub header: Vec<i32>,
    pub tile: Tile,
}

impl<'a> Frame<'a> {
    /// Takes the header of a key frame, which is all of `bytes` (RFC 6386, sections 9 and 19.2), or gives the number of the refusal: 12 no
    /// key frame, 13 a partition past the end, 14 the header ran out. `decode` never refuses what was taken.
    pub fn take(bytes: &'a [u8]) -> Result<Frame<'a>, u32> {
        let mut frame = Frame { bytes, header: vec![0; ENTRIES], tile: Tile::default() };
        let header = &mut frame.header;
        let tile = &mut frame.tile as *mut Tile as *mut usize;
        // Safe: a slice, a vector, and a tile, which is so many numbers (`repr(C)`); nothing else refers to the last two.
        match unsafe { hookbarley_frame(bytes.as_ptr(), bytes.len(), header.as_mut_ptr(), header.len(), tile, TILE_NUMBERS) } {
            answer::WHOLE => Ok(frame),
            refused => Err(refused),
        }
    }
}

/// The memory lent to a call. `Memory::new` makes it of the lengths that a size asks.
#[derive(Clone, Debug, PartialEq, Eq)]
pub struct Memory {
    pub y: Vec<u8>,
    pub u: Vec<u8>,
    pub v: Vec<u8>,
    pub columns: Vec<u8>,
    pub modes: Vec<u8>,
    pub strengths: Vec<u8>,
}

impl Memory {
    pub fn new(width: usize, height: usize, fill: u8) -> Memory {
        let blocks = (width / 16) * (height / 16);
        Memory {
            y: vec![fill; width * height],
            u: vec![fill; (width / 2) * (height / 2)],
            v: vec![fill; (width / 2) * (height / 2)],
            columns: vec![fill; COLUMN_BYTES * (width / 16)],
            modes: vec![fill; MODE_BYTES * blocks],
            strengths: vec![fill; STRENGTH_BYTES * blocks],
        }
    }
}

/// How a call ended.
#[derive(Clone, Copy, Debug, PartialEq, Eq)]
pub enum Decoded {
    /// Every macroblock is finished.
    Whole(usize),
    /// An argument was refused, 1 to 5, or 12 to 14 a frame; nothing lent has changed.
    Refused(u32),
    /// The first partition ran out in this macroblock (6).
    NoModes(usize),
    /// A token partition ran out in this macroblock (7).
    NoTokens(usize),
}

impl Decoded {
    fn of(number: u32, k: usize) -> Decoded {
        match number {
            answer::WHOLE => Decoded::Whole(k),
            answer::NO_MODES => Decoded::NoModes(k),
            answer::NO_TOKENS => Decoded::NoTokens(k),
            n => Decoded::Refused(n),
        }
    }
}

/// What a picture cost: the symbols read from the first partition and from token partitions, those of a macroblock that ran out too, up to
/// the symbol that is missing. At most `MOST` of each a macroblock, over the macroblocks finished and, where a partition ran out, one more;
/// none where an argument was refused.
#[derive(Clone, Copy, Debug, PartialEq, Eq)]
pub struct Reads {
    pub first: u64,
    pub tokens: u64,
}

impl Reads {
    /// The most symbols that a macroblock reads.
    pub const MOST: Reads = Reads { first: 119, tokens: 7296 };
}

/// A call of the library on a frame and lent memory, and what it takes besides; `header` and `tile` are pointers, which the call reads or
/// writes. Each pointer and length is of a slice or of the tile's numbers, and what is lent to be written are different vectors.
macro_rules! on_tile {
    ($call:ident, $frame:expr, $header:expr, $tile:expr, $mem:expr, $($besides:expr),+) => {
        $call(
            $frame.bytes.as_ptr(), $frame.bytes.len(),
            $header, $frame.header.len(),
            $tile, TILE_NUMBERS,
            $mem.y.as_mut_ptr(), $mem.y.len(),
            $mem.u.as_mut_ptr(), $mem.u.len(),
            $mem.v.as_mut_ptr(), $mem.v.len(),
            $mem.columns.as_mut_ptr(), $mem.columns.len(),
            $mem.modes.as_mut_ptr(), $mem.modes.len(),
            $mem.strengths.as_mut_ptr(), $mem.strengths.len(),
            $($besides),+
        )
    };
}

/// Decodes a picture into lent memory, whatever it held.
pub fn decode(frame: &Frame, mem: &mut Memory) -> Decoded {
    decode_counted(frame, mem).0
}

/// The same, with what it cost.
pub fn decode_counted(frame: &Frame, mem: &mut Memory) -> (Decoded, Reads) {
    let mut k = 0usize;
    let mut reads = Reads { first: 0, tokens: 0 };
    // Safe: as `on_tile` says; the three numbers stand alone.
    let (header, tile) = (frame.header.as_ptr(), &frame.tile as *const Tile as *const usize);
    let number = unsafe { on_tile!(hookbarley_decode, frame, header, tile, mem, &mut k, &mut reads.first, &mut reads.tokens) };
    (Decoded::of(number, k), reads)
}

/// From a key frame's bytes to the picture on the screen: what `Frame::take`, `decode` and `deblock` make of `frame.bytes`, in one call. A
/// frame whose level (`header::LEVEL`) is 0 is not filtered. Header and tile become the frame's, whatever they and the memory held. After a
/// refusal nothing has changed, header and tile included: 12 to 14 as `Frame::take`, 4 where the memory is of another size, 9 where the
/// header is not `ENTRIES` long. After `NoModes` and `NoTokens` the rest is grey.
pub fn show(frame: &mut Frame, mem: &mut Memory) -> Decoded {
    show_counted(frame, mem).0
}

/// The same, with what it cost.
pub fn show_counted(frame: &mut Frame, mem: &mut Memory) -> (Decoded, Reads) {
    let mut k = 0usize;
    let mut reads = Reads { first: 0, tokens: 0 };
    let (header, tile) = (frame.header.as_mut_ptr(), &mut frame.tile as *mut Tile as *mut usize);
    // Safe: as `on_tile` says; header and tile, which is so many numbers (`repr(C)`), overlap nothing; the three numbers stand alone.
    let number = unsafe { on_tile!(hookbarley_key_frame, frame, header, tile, mem, &mut k, &mut reads.first, &mut reads.tokens) };
    (Decoded::of(number, k), reads)
}

/// How a survey of one picture ended.
#[derive(Clone, Copy, Debug, PartialEq, Eq)]
pub enum Surveyed {
    /// The picture is decoded and counted, one that was refused or cut too.
    Counted(Decoded),
    /// A count would pass 2^63-1 (15): the picture is decoded, so many macroblocks are finished, and the record is as it was.
    Full(usize),
}

/// Decodes a picture as `decode` does and counts it into a record: its answer, its finished macroblocks, the symbols read. Over many calls
/// each table sums to what they finished (`record`), and their order does not matter.
pub fn survey(frame: &Frame, mem: &mut Memory, record: &mut Record) -> Surveyed {
    let (mut k, mut first, mut tokens) = (0usize, 0u64, 0u64);
    let counts = record.as_mut_ptr();
    let (header, tile) = (frame.header.as_ptr(), &frame.tile as *const Tile as *const usize);
    // Safe: as `on_tile` says; the record overlaps none of the vectors, and the three numbers stand alone.
    let number = unsafe { on_tile!(hookbarley_survey, frame, header, tile, mem, &mut k, &mut first, &mut tokens, counts, record::COUNTS) };
    match number {
        answer::FULL => Surveyed::Full(k),
        n => Surveyed::Counted(Decoded::of(n, k)),
    }
}

/// Adds one record to another: of two deliveries surveyed apart it makes the record of both. Or 15 where a sum would pass 2^63-1; then
/// `record` is as it was.
pub fn survey_add(record: &mut Record, other: &Record) -> Result<(), u32> {
    // Safe: two arrays that do not overlap.
    match unsafe { hookbarley_survey_add(record.as_mut_ptr(), record.len(), other.as_ptr(), other.len()) } {
        answer::WHOLE => Ok(()),
        n => Err(n),
    }
}

/// How a rescue ended.
#[derive(Clone, Copy, Debug, PartialEq, Eq)]
pub enum Rescued {
    /// So many macroblocks are not grey.
    Kept(usize),
    /// An argument was refused, 1 to 5; nothing lent has changed, marks included.
    Refused(u32),
}

/// Decodes a picture and rescues what a cut one still tells: where `decode` answers `NoTokens`, that macroblock and all later ones are
/// rebuilt from their modes, until these run out. `marks`, a byte a macroblock, says what each is made of (`mark`). What memory and marks
/// held does not matter. `deblock` never refuses what is left, and grey stays grey.
pub fn rescue(frame: &Frame, mem: &mut Memory, marks: &mut [u8]) -> Rescued {
    let mut kept = 0usize;
    // Safe: as `on_tile` says; the marks are a slice that overlaps none of the vectors, and the number stands alone.
    let (header, tile) = (frame.header.as_ptr(), &frame.tile as *const Tile as *const usize);
    let number = unsafe { on_tile!(hookbarley_rescue, frame, header, tile, mem, marks.as_mut_ptr(), marks.len(), &mut kept) };
    match number {
        answer::WHOLE => Rescued::Kept(kept),
        n => Rescued::Refused(n),
    }
}

/// Whether a tile fits the cockpit profile; if not, the first rule that fails.
#[derive(Clone, Copy, Debug, PartialEq, Eq)]
pub enum Profiled {
    /// All six rules hold: memory is as `decode` leaves it, whole.
    Fits,
    /// This one of the rules 1 to 5 fails (`profile_rule`). Up to the fourth nothing lent has changed.
    Rule(u32),
    /// Rule 6 fails: this macroblock is the first that is both skipped and small.
    Skipped(usize),
    /// An argument was refused, 3 to 5; nothing lent has changed.
    Refused(u32),
}

/// Whether a tile fits the cockpit profile: 256 by 256; 1, 2 or 4 token partitions; no segments and no map; sharpness 0; `decode` answers
/// `Whole`; no macroblock is both skipped and small. From rule 5 on memory is as `decode` leaves it, whatever it held.
pub fn profile(frame: &Frame, mem: &mut Memory) -> Profiled {
    let (mut rule, mut macroblock) = (0u32, 0usize);
    // Safe: as `on_tile` says; the two numbers stand alone.
    let (header, tile) = (frame.header.as_ptr(), &frame.tile as *const Tile as *const usize);
    let number = unsafe { on_tile!(hookbarley_profile, frame, header, tile, mem, &mut rule, &mut macroblock) };
    match (number, rule) {
        (answer::WHOLE, profile_rule::FITS) => Profiled::Fits,
        (answer::WHOLE, profile_rule::SKIPPED) => Profiled::Skipped(macroblock),
        (answer::WHOLE, rule) => Profiled::Rule(rule),
        (n, _) => Profiled::Refused(n),
    }
}

/// Decodes a picture and writes its tile again with one token partition: the same tokens, in raster order, behind a copy of the first
/// partition, at the start of `out`. Gives the tile that was written: with `out` and the same header it makes a frame that `decode` answers
/// `Whole`, leaving the same memory. Or the number of the refusal: that of `decode` (1 to 7), or 16 where `out` is too small; then `out` is
/// as it was. Memory is always as `decode` leaves it.
pub fn recode(frame: &Frame, mem: &mut Memory, out: &mut [u8]) -> Result<Tile, u32> {
    let mut tile = Tile::default();
    let result = &mut tile as *mut Tile as *mut usize;
    let (header, given) = (frame.header.as_ptr(), &frame.tile as *const Tile as *const usize);
    // Safe: as `on_tile` says; `out` is a slice that overlaps none of the vectors, and the tile, so many numbers (`repr(C)`), stands alone.
    match unsafe { on_tile!(hookbarley_recode, frame, header, given, mem, out.as_mut_ptr(), out.len(), result, TILE_NUMBERS) } {
        answer::WHOLE => Ok(tile),
        refused => Err(refused),
    }
}

/// Writes a key frame again with a single token partition: header and modes encoded anew with the partition count 0, then the tokens in
/// raster order, at the start of `out`. Gives how many bytes the new frame has. It shows the same picture, and recoding it writes the same
/// bytes. Or the number of the refusal: 12 to 14 as `Frame::take`, 4 where the memory is of another size, 6 and 7 as `decode`, 18 where the
/// first partition would be too long for the tag, 16 where `out` is too small; then `out` is as it was. Memory is as `decode` leaves it,
/// after 4 and 12 to 14 as it was.
pub fn recode_frame(bytes: &[u8], mem: &mut Memory, out: &mut [u8]) -> Result<usize, u32> {
    let mut written = 0usize;
    // Safe: each pointer and length is of a slice, the lent ones are different vectors, `out` overlaps none of them, the number stands alone.
    let number = unsafe {
        hookbarley_recode_frame(
            bytes.as_ptr(), bytes.len(),
            mem.y.as_mut_ptr(), mem.y.len(),
            mem.u.as_mut_ptr(), mem.u.len(),
            mem.v.as_mut_ptr(), mem.v.len(),
            mem.columns.as_mut_ptr(), mem.columns.len(),
            mem.modes.as_mut_ptr(), mem.modes.len(),
            mem.strengths.as_mut_ptr(), mem.strengths.len(),
            out.as_mut_ptr(), out.len(),
            &mut written,
        )
    };
    match number {
        answer::WHOLE => Ok(written),
        refused => Err(refused),
    }
}

/// How deblocking ended.
#[derive(Clone, Copy, Debug, PartialEq, Eq)]
pub enum Deblocked {
    /// The planes are deblocked.
    Done,
    /// An argument was refused: 1 the size, 4 a length, 11 a strength record's limit above 189; nothing lent has changed.
    Refused(u32),
}

/// Deblocks the planes in place by the strengths that `decode` or `rescue` left; what they left is never refused. Of the tile its sides and
/// its kind of filter are looked at; the simple kind touches luma only. A frame whose `header::LEVEL` is 0 is not to be filtered: skip the
/// call then, as `show` does.
pub fn deblock(tile: &Tile, mem: &mut Memory) -> Deblocked {
    // Safe: each pointer and length is of a slice, and the lent ones are three different vectors.
    let number = unsafe {
        hookbarley_deblock(
            mem.y.as_mut_ptr(), mem.y.len(),
            mem.u.as_mut_ptr(), mem.u.len(),
            mem.v.as_mut_ptr(), mem.v.len(),
            mem.strengths.as_ptr(), mem.strengths.len(),
            tile.width, tile.height, (tile.simple != 0) as u32,
        )
    };
    match number {
        answer::WHOLE => Deblocked::Done,
        n => Deblocked::Refused(n),
    }
}

/// The edge kernel on eight samples, p3 to p0 and q0 to q3, in place.
pub fn filter(samples: &mut [u8; 8], simple: bool, edge: bool, limit: u8, inner: u8, threshold: u8) {
    // Safe: eight samples.
    unsafe { hookbarley_filter(samples.as_mut_ptr(), 8, simple as u8, edge as u8, limit, inner, threshold) };
}

/// Two neighbours on one side of an edge, in the order in which the filter tries them.
#[derive(Clone, Copy, Debug, PartialEq, Eq)]
pub enum Pair {
    P3P2,
    P2P1,
    P1P0,
    Q3Q2,
    Q2Q1,
    Q1Q0,
}

/// Which rule acted on eight samples, and why.
#[derive(Clone, Copy, Debug, PartialEq, Eq)]
pub enum Rule {
    /// The edge test failed: the step across the edge is too large. Nothing moves.
    EdgeFailed,
    /// This pair is the first that is not smooth. Nothing moves.
    Rough(Pair),
    /// The simple filter: p0 and q0 move.
    Simple,
    /// High edge variance: p0 and q0 move.
    HighVariance,
    /// A macroblock's edge: three samples on each side move.
    MacroblockEdge,
    /// An inner edge: two samples on each side move.
    InnerEdge,
}

/// Why eight samples became what they are: `after[k]` is `before[k] + steps[k]`, clipped to a byte.
#[derive(Clone, Copy, Debug, PartialEq, Eq)]
pub struct Explanation {
    pub rule: Rule,
    pub before: [u8; 8],
    pub after: [u8; 8],
    pub steps: [i32; 8],
}

/// What `filter` does to the same samples with the same arguments, and by which rule.
pub fn explain(samples: &[u8; 8], simple: bool, edge: bool, limit: u8, inner: u8, threshold: u8) -> Explanation {
    let (mut after, mut steps, mut rule, mut pair) = ([0u8; 8], [0i32; 8], 0u32, 0u32);
    // Safe: eight of each, and two numbers that nothing else refers to.
    unsafe {
        hookbarley_explain(
            samples.as_ptr(), 8, simple as u8, edge as u8, limit, inner, threshold,
            after.as_mut_ptr(), 8, steps.as_mut_ptr(), 8, &mut rule, &mut pair,
        )
    };
    let rule = match (rule, pair) {
        (1, _) => Rule::EdgeFailed,
        (2, 1) => Rule::Rough(Pair::P3P2),
        (2, 2) => Rule::Rough(Pair::P2P1),
        (2, 3) => Rule::Rough(Pair::P1P0),
        (2, 4) => Rule::Rough(Pair::Q3Q2),
        (2, 5) => Rule::Rough(Pair::Q2Q1),
        (2, _) => Rule::Rough(Pair::Q1Q0),
        (3, _) => Rule::Simple,
        (4, _) => Rule::HighVariance,
        (5, _) => Rule::MacroblockEdge,
        _ => Rule::InnerEdge,
    };
    Explanation { rule, before: *samples, after, steps }
}

/// Where the key frame stands in a simple lossy WebP file (RFC 9649), or the number of the refusal: 17 the marks, 18 a size at odds with
/// the bytes or a pad byte that is not 0, 19 the first chunk's kind.
pub fn webp_find(bytes: &[u8]) -> Result<std::ops::Range<usize>, u32> {
    let (mut start, mut len) = (0usize, 0usize);
    // Safe: a slice, and two numbers that nothing else refers to.
    match unsafe { hookbarley_webp_find(bytes.as_ptr(), bytes.len(), &mut start, &mut len) } {
        answer::WHOLE => Ok(start..start + len),
        n => Err(n),
    }
}

/// Writes a simple lossy WebP file around a frame to the start of `out` and gives its length, or the number of the refusal: 18 the frame is
/// too long, 16 `out` is too small; then `out` is as it was.
pub fn webp_wrap(frame: &[u8], out: &mut [u8]) -> Result<usize, u32> {
    let mut written = 0usize;
    // Safe: two slices that do not overlap, and a number that nothing else refers to.
    match unsafe { hookbarley_webp_wrap(frame.as_ptr(), frame.len(), out.as_mut_ptr(), out.len(), &mut written) } {
        answer::WHOLE => Ok(written),
        n => Err(n),
    }
}

/// The README's call compiles (`cargo test`).
#[cfg(doctest)]
#[doc = include_str!("../../../README.md")]
struct Readme;
