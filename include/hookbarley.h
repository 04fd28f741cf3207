/* Hookbarley: a formally verified decoder for VP8 key-frame tiles (RFC 6386). Link libhookbarley.a (tools/archive.sh, x86-64-v2).
 *
 * Every call returns an answer, whatever its arguments. The answer and every byte of lent memory are proved of the library's code. The proof
 * assumes what C cannot check; the caller must make sure of it:
 *   - A pointer and its length describe valid memory, aligned for its type. Lengths count elements, not bytes. If a length is 0, the pointer
 *     is ignored and may be NULL. Pointers without a length are always written to and must not be NULL.
 *   - Input memory (const) is fully initialised, even the parts that do not affect the answer. So are the planes of hookbarley_deblock, the
 *     samples of hookbarley_filter and a survey's record, which are changed in place. All other output memory may come straight from malloc:
 *     its old contents never matter.
 *   - Output memory overlaps nothing else that is passed in. Inputs may overlap each other.
 *   - During the call nobody else writes to any of this memory, and nobody else reads the output memory.
 */
#ifndef HOOKBARLEY_H
#define HOOKBARLEY_H

#include <stddef.h>
#include <stdint.h>

/* The version; CHANGELOG.md says what changed. */
#define HOOKBARLEY_VERSION "1.0.0"

#ifdef __cplusplus
extern "C" {
#endif

/* What the calls return. No call returns 8 or 10. */
enum hookbarley_number {
    HOOKBARLEY_WHOLE = 0,         /* Success. For a picture: every macroblock is finished. */
    HOOKBARLEY_SIZE = 1,          /* Width or height is not a multiple of 16 in 16..16384. */
    HOOKBARLEY_COUNT = 2,         /* The number of token partitions is not 1..8. */
    HOOKBARLEY_ENTRY = 3,         /* A header entry is outside -255..255. */
    HOOKBARLEY_LENGTH = 4,        /* A lent length does not match the size, or the header does not have HOOKBARLEY_ENTRIES entries. */
    HOOKBARLEY_PARTITION = 5,     /* A partition lies outside the bytes, or the starting reader is out of range. */
    HOOKBARLEY_NO_MODES = 6,      /* The first partition ran out in macroblock *finished. */
    HOOKBARLEY_NO_TOKENS = 7,     /* A token partition ran out in macroblock *finished. */
    HOOKBARLEY_ARGUMENT = 9,      /* A tile without 28 numbers, a header without 1096 entries, a record without 37 counts, or not eight samples. */
    HOOKBARLEY_LIMIT = 11,        /* A strength record's limit is above 189. */
    HOOKBARLEY_NO_KEY_FRAME = 12, /* Fewer than 10 bytes, not a key frame, a wrong start code, a version above 3, or a size of zero. */
    HOOKBARLEY_PAST_END = 13,     /* The first partition, the table of partition sizes or a token partition extends past the end. */
    HOOKBARLEY_NO_HEADER = 14,    /* The coded header ran out, or the first partition has fewer than two bytes. */
    HOOKBARLEY_FULL = 15,         /* A count in a record would exceed 2^63-1. */
    HOOKBARLEY_ROOM = 16,         /* The output room is too small for the WebP file, the recoded tile or the recoded frame. */
    HOOKBARLEY_MARKS = 17,        /* 'RIFF' or 'WEBP' is missing or wrong. */
    HOOKBARLEY_SIZES = 18,        /* A size disagrees with the bytes, a pad byte is not 0, or what would be written is too long for its layout. */
    HOOKBARLEY_KIND = 19          /* The first chunk is not 'VP8 ', or there is none. */
};

/* Lengths and limits. */
enum {
    HOOKBARLEY_ENTRIES = 1096,     /* entries of a header */
    HOOKBARLEY_TILE_NUMBERS = 28,  /* numbers of a tile */
    HOOKBARLEY_PARTITIONS = 8,     /* the most token partitions */
    HOOKBARLEY_COLUMN_BYTES = 4,   /* column memory for each macroblock column */
    HOOKBARLEY_MODE_BYTES = 20,    /* mode memory for each macroblock */
    HOOKBARLEY_STRENGTH_BYTES = 6, /* strength memory for each macroblock */
    HOOKBARLEY_SURVEY_COUNTS = 37, /* counts of a survey's record */
    HOOKBARLEY_FIRST_MOST = 119,   /* the most symbols that a macroblock reads from the first partition */
    HOOKBARLEY_TOKEN_MOST = 7296   /* and from its token partition */
};

/* A key frame's tile: 28 numbers. The calls take it as `(const size_t *)&tile, HOOKBARLEY_TILE_NUMBERS`. */
struct hookbarley_tile {
    size_t width, height;           /* of the planes, in samples: the true sizes rounded up to 16 */
    size_t true_width, true_height; /* the visible part, at the top left */
    size_t simple;                  /* 1 for the simple loop filter, else 0 */
    size_t count;                   /* token partitions: 1, 2, 4 or 8 in a frame; hookbarley_decode accepts 1 to 8 */
    size_t first_start, first_length; /* the first partition, which holds the modes */
    size_t token_starts[HOOKBARLEY_PARTITIONS], token_lengths[HOOKBARLEY_PARTITIONS]; /* ignored from `count` on */
    size_t at, range, shifts, window; /* the boolean reader in the first partition, just past the coded header */
};

/* The index of each of these numbers, for callers that keep them in an array. */
enum hookbarley_tile_place {
    HOOKBARLEY_TILE_WIDTH = 0,
    HOOKBARLEY_TILE_HEIGHT = 1,
    HOOKBARLEY_TILE_TRUE_WIDTH = 2,
    HOOKBARLEY_TILE_TRUE_HEIGHT = 3,
    HOOKBARLEY_TILE_SIMPLE = 4,
    HOOKBARLEY_TILE_COUNT = 5,
    HOOKBARLEY_TILE_FIRST_START = 6,
    HOOKBARLEY_TILE_FIRST_LENGTH = 7,
    HOOKBARLEY_TILE_TOKEN_STARTS = 8,   /* eight */
    HOOKBARLEY_TILE_TOKEN_LENGTHS = 16, /* eight */
    HOOKBARLEY_TILE_AT = 24,
    HOOKBARLEY_TILE_RANGE = 25,
    HOOKBARLEY_TILE_SHIFTS = 26,
    HOOKBARLEY_TILE_WINDOW = 27
};

/* The header entries (RFC 6386, sections 9.3 to 9.11) that affect decoding. A flag is set if it is not 0; a probability is its entry modulo
 * 256. The other entries have no effect, but must be in -255..255 too. */
enum hookbarley_header_place {
    HOOKBARLEY_HEADER_SEGMENTS = 2,          /* flag: there are segments */
    HOOKBARLEY_HEADER_MAP = 3,               /* flag: a segment map in the modes */
    HOOKBARLEY_HEADER_ABSOLUTE = 5,          /* flag: segment values are absolute, not added to the frame's */
    HOOKBARLEY_HEADER_SEGMENT_QUANTIZER = 6, /* four */
    HOOKBARLEY_HEADER_SEGMENT_LEVEL = 10,    /* four: their filter levels */
    HOOKBARLEY_HEADER_MAP_PROBABILITY = 14,  /* three */
    HOOKBARLEY_HEADER_LEVEL = 18,            /* the frame's filter level */
    HOOKBARLEY_HEADER_SHARPNESS = 19,
    HOOKBARLEY_HEADER_DELTAS = 20,           /* flag: the two filter deltas apply */
    HOOKBARLEY_HEADER_INTRA_DELTA = 22,      /* for every macroblock of a key frame (ref_frame 0) */
    HOOKBARLEY_HEADER_SMALL_DELTA = 26,      /* added for macroblocks with small modes (B_PRED) */
    HOOKBARLEY_HEADER_QUANTIZER = 31,        /* the frame's */
    HOOKBARLEY_HEADER_QUANTIZER_DELTA = 32,  /* five, added to it for Y DC, Y2 DC, Y2 AC, UV DC, UV AC */
    HOOKBARLEY_HEADER_COEFFICIENTS = 38,     /* 1056 probabilities, at 38 + ((kind * 8 + band) * 3 + context) * 11 + j */
    HOOKBARLEY_HEADER_SKIPPING = 1094,       /* flag: macroblocks may be skipped */
    HOOKBARLEY_HEADER_SKIP_PROBABILITY = 1095
};

/* The bytes of a mode record. Modes are 0 DC, 1 TM, 2 V, 3 H. In a small macroblock each luma mode is 0 DC, 1 TM, 2 VE, 3 HE, 4 RD, 5 VR,
 * 6 LD, 7 VL, 8 HD or 9 HU. */
enum hookbarley_mode_place {
    HOOKBARLEY_MODE_SEGMENT = 0,
    HOOKBARLEY_MODE_SKIP = 1,
    HOOKBARLEY_MODE_SMALL = 2, /* 1: each of the sixteen luma blocks has a mode of its own (B_PRED) */
    HOOKBARLEY_MODE_LUMA = 3,  /* sixteen; all equal if the macroblock is not small */
    HOOKBARLEY_MODE_CHROMA = 19
};

/* The bytes of a strength record. */
enum hookbarley_strength_place {
    HOOKBARLEY_STRENGTH_LIMIT = 0,     /* 0..189; 0 means no filtering; the macroblock's own edges use limit + 4 */
    HOOKBARLEY_STRENGTH_INNER = 1,     /* 0..63 */
    HOOKBARLEY_STRENGTH_THRESHOLD = 2, /* 0..2 */
    HOOKBARLEY_STRENGTH_INSIDE = 3,    /* 1: the inner edges are filtered */
    HOOKBARLEY_STRENGTH_SEGMENT = 4,   /* as in the mode record */
    HOOKBARLEY_STRENGTH_SMALL = 5      /* as in the mode record */
};

/* Decodes one picture. Arguments are checked in this order: 9, then 1 to 5. After any of these, nothing lent has changed, and *finished and
 * both counts are 0. After 6 and 7, macroblocks 0..*finished-1 (raster order) are finished, every other sample is 128, and the modes and
 * strengths of the other macroblocks are 0. The old contents of lent memory never matter. A partition may have any length, even 0; it runs
 * out when one of the eight bits that decide a symbol lies past its end.
 *
 * bytes            the file, or whatever holds the partitions
 * header           HOOKBARLEY_ENTRIES entries
 * tile             HOOKBARLEY_TILE_NUMBERS numbers; the true sizes and `simple` are ignored. Macroblock row r reads token partition
 *                  r mod count. The reader: `at`, the index of the next byte, in 2..first_length + 2; range in 128..255; shifts since the
 *                  last byte was loaded, 0..7; window below 65536 and a multiple of 2^shifts. For a first partition that holds only modes:
 *                  2, 255, 0, first byte * 256 + second byte (0 for a byte past its end)
 * y, u, v          lent: width*height, and (width/2)*(height/2) twice; rows without padding; the samples before the loop filter
 * columns          lent: HOOKBARLEY_COLUMN_BYTES for each macroblock column: what the row below needs, as of the last finished macroblock.
 *                  Four modes of 4 bits in a big-endian 16-bit number, the first in the lowest bits; then nine flags of one bit in
 *                  another, the first lowest
 * modes            lent: HOOKBARLEY_MODE_BYTES for each macroblock
 * strengths        lent: HOOKBARLEY_STRENGTH_BYTES for each macroblock, for the loop filter
 * finished         how many macroblocks are finished
 * first_reads, token_reads   the symbols read from the first partition and from the token partitions. A macroblock that ran out counts up
 *                  to the missing symbol. At most HOOKBARLEY_FIRST_MOST and HOOKBARLEY_TOKEN_MOST for each finished macroblock and, after
 *                  6 and 7, for one more
 */
uint32_t hookbarley_decode(const uint8_t *bytes, size_t bytes_len,
                           const int32_t *header, size_t header_len,
                           const size_t *tile, size_t tile_len,
                           uint8_t *y, size_t y_len,
                           uint8_t *u, size_t u_len,
                           uint8_t *v, size_t v_len,
                           uint8_t *columns, size_t columns_len,
                           uint8_t *modes, size_t modes_len,
                           uint8_t *strengths, size_t strengths_len,
                           size_t *finished, uint64_t *first_reads, uint64_t *token_reads);

/* What hookbarley_rescue made a macroblock from. */
enum hookbarley_mark {
    HOOKBARLEY_MARK_WHOLE = 0, /* modes and tokens: hookbarley_decode finishes it too */
    HOOKBARLEY_MARK_MODES = 1, /* modes only: predicted, with no residual */
    HOOKBARLEY_MARK_GREY = 2   /* nothing: every sample is 128 */
};

/* Decodes one picture and rescues what it can of a cut one. Like hookbarley_decode, but when a token partition runs out in a macroblock, that
 * macroblock and all later ones are rebuilt from their modes alone, and token partitions are no longer read. When the first partition runs
 * out, the rest is grey, as after 6. So the answer is never 6 or 7: it is 0 or a refusal.
 *
 * The checks are those of hookbarley_decode, in the same order; 4 covers the marks too. After 9 and 1 to 5 nothing lent has changed, marks
 * included, and *kept is 0. After 0, macroblocks marked 0 have the samples, modes and strengths of hookbarley_decode; if that call does not
 * answer 7, all memory is exactly as it leaves it. Macroblocks marked 1 have their modes, and strengths that filter inner edges only if the
 * modes are small. Macroblocks marked 2 have samples of 128, and modes and strengths of 0. hookbarley_deblock always accepts the result,
 * and grey stays grey. The old contents of lent memory, marks included, never matter.
 *
 * bytes .. tile    as for hookbarley_decode
 * y .. strengths   lent: as for hookbarley_decode; columns are as of the last macroblock that is not grey, and those marked 1 clear all
 *                  nine flags
 * marks            lent: one byte for each macroblock, enum hookbarley_mark: all 0s come first, then the 1s, then the 2s
 * kept             how many macroblocks are marked 0 or 1
 */
uint32_t hookbarley_rescue(const uint8_t *bytes, size_t bytes_len,
                           const int32_t *header, size_t header_len,
                           const size_t *tile, size_t tile_len,
                           uint8_t *y, size_t y_len,
                           uint8_t *u, size_t u_len,
                           uint8_t *v, size_t v_len,
                           uint8_t *columns, size_t columns_len,
                           uint8_t *modes, size_t modes_len,
                           uint8_t *strengths, size_t strengths_len,
                           uint8_t *marks, size_t marks_len,
                           size_t *kept);

/* The rules of the cockpit profile (hookbarley_profile), in the order in which they are checked. */
enum hookbarley_profile_rule {
    HOOKBARLEY_PROFILE_FITS = 0,       /* all rules hold, or an argument was refused */
    HOOKBARLEY_PROFILE_SIZE = 1,       /* width and height are 256 */
    HOOKBARLEY_PROFILE_PARTITIONS = 2, /* there are 1, 2 or 4 token partitions */
    HOOKBARLEY_PROFILE_SEGMENTS = 3,   /* HOOKBARLEY_HEADER_SEGMENTS and HOOKBARLEY_HEADER_MAP are both 0 */
    HOOKBARLEY_PROFILE_SHARPNESS = 4,  /* HOOKBARLEY_HEADER_SHARPNESS is 0 */
    HOOKBARLEY_PROFILE_WHOLE = 5,      /* hookbarley_decode answers 0 */
    HOOKBARLEY_PROFILE_SKIPPED = 6     /* no mode record is both skipped and small */
};

/* Checks whether a tile fits the cockpit profile. Returns 0 and sets *rule to the first rule that fails, or to 0 if the tile fits; for the last
 * rule, *macroblock is the first macroblock that breaks it. Checked in this order: 9, rules 1 and 2, the refusals 3 to 5 of
 * hookbarley_decode, rules 3 to 6. So 1 and 2 are never returned, and a tile of another size or count is reported as such whatever is lent.
 *
 * After 9 and 3 to 5, and if one of the rules 1 to 4 fails, nothing lent has changed. If rule 5 or 6 fails or the tile fits, memory is as
 * hookbarley_decode leaves it: a tile that fits is fully decoded.
 *
 * bytes .. strengths   as for hookbarley_decode
 * rule             the first rule that fails, enum hookbarley_profile_rule; 0 after a refusal
 * macroblock       if *rule is 6, the first macroblock (raster order) that is both skipped and small; else 0
 */
uint32_t hookbarley_profile(const uint8_t *bytes, size_t bytes_len,
                            const int32_t *header, size_t header_len,
                            const size_t *tile, size_t tile_len,
                            uint8_t *y, size_t y_len,
                            uint8_t *u, size_t u_len,
                            uint8_t *v, size_t v_len,
                            uint8_t *columns, size_t columns_len,
                            uint8_t *modes, size_t modes_len,
                            uint8_t *strengths, size_t strengths_len,
                            uint32_t *rule, size_t *macroblock);

/* The tables of a survey's record: where each starts, and how many counts it has. The first table counts calls, the next five count finished
 * macroblocks; then come sub-blocks and symbols. Modes are numbered as in mode records. */
enum hookbarley_survey_place {
    HOOKBARLEY_SURVEY_ANSWERS = 0,    /* eight, one for each answer 0 to 7 of the picture call */
    HOOKBARLEY_SURVEY_SEGMENTS = 8,   /* four */
    HOOKBARLEY_SURVEY_LUMA = 12,      /* five: large modes 0 DC, 1 TM, 2 V, 3 H; then small */
    HOOKBARLEY_SURVEY_SMALL = 16,     /* the fifth of these */
    HOOKBARLEY_SURVEY_CHROMA = 17,    /* four */
    HOOKBARLEY_SURVEY_SKIP = 21,      /* two: not skipped, skipped */
    HOOKBARLEY_SURVEY_INSIDE = 23,    /* two, by the strength record: inner edges not filtered, filtered */
    HOOKBARLEY_SURVEY_SUBBLOCKS = 25, /* ten: the sub-blocks of small macroblocks, by mode */
    HOOKBARLEY_SURVEY_FIRST_READS = 35, /* symbols read from the first partition */
    HOOKBARLEY_SURVEY_TOKEN_READS = 36  /* and from token partitions */
};

/* Decodes one picture like hookbarley_decode and counts it into a record. Set the record to zeros before the first call. The answer, the lent
 * memory and the outputs are those of hookbarley_decode. A call adds 1 for its answer, 1 to 7 included; for each finished macroblock, 1 in
 * each of five tables, plus 16 among the sub-blocks if it is small; and the symbols that it read. So over many calls the answers add up to
 * the number of calls, each of the five tables to the finished macroblocks, and the sub-blocks to 16 times the small ones. The order of the
 * calls does not matter.
 *
 * Returns 9 if there are not HOOKBARLEY_SURVEY_COUNTS counts or not 28 tile numbers: nothing is decoded, nothing lent has changed, and the
 * outputs are 0. Returns 15 if a count would exceed 2^63-1: the picture is decoded, the outputs are set, and the record is unchanged.
 *
 * bytes .. token_reads   as for hookbarley_decode
 * record           HOOKBARLEY_SURVEY_COUNTS counts, updated in place
 */
uint32_t hookbarley_survey(const uint8_t *bytes, size_t bytes_len,
                           const int32_t *header, size_t header_len,
                           const size_t *tile, size_t tile_len,
                           uint8_t *y, size_t y_len,
                           uint8_t *u, size_t u_len,
                           uint8_t *v, size_t v_len,
                           uint8_t *columns, size_t columns_len,
                           uint8_t *modes, size_t modes_len,
                           uint8_t *strengths, size_t strengths_len,
                           size_t *finished, uint64_t *first_reads, uint64_t *token_reads,
                           uint64_t *record, size_t record_len);

/* Adds one record to another, count by count: the records of two parts make the record of the whole. Returns 0; 9 if one of them does not have
 * HOOKBARLEY_SURVEY_COUNTS counts; or 15 if a sum would exceed 2^63-1. After 9 and 15 the record is unchanged. */
uint32_t hookbarley_survey_add(uint64_t *record, size_t record_len, const uint64_t *other, size_t other_len);

/* Decodes one picture and writes its tile again with a single token partition: the same tokens with the same probabilities, in raster order
 * (RFC 6386, section 7.3), after a copy of the first partition. Both partitions are written to the start of `out`, and `result` receives
 * the 28 numbers of the new tile. hookbarley_decode of `out` with those numbers and the same header answers 0 and leaves the same samples,
 * modes, strengths and columns. Recoding a recoded tile writes the same bytes.
 *
 * The checks are those of hookbarley_decode, in the same order, and 9 covers the result too; then 6 and 7; then 16, exactly if the two
 * partitions are longer than the room. After 9 nothing has changed at all. After any other number but 0, `out` is unchanged and the numbers
 * of the result are 0. Otherwise the other lent memory is always as hookbarley_decode leaves it. The bytes of `out` after the two
 * partitions are unchanged.
 *
 * bytes .. tile    as for hookbarley_decode
 * y .. strengths   lent: as for hookbarley_decode
 * out              lent: the first partition, then the token partition. first_length + 4 bytes, plus one for each symbol that
 *                  hookbarley_decode counts in *token_reads, are always enough
 * result           lent: HOOKBARLEY_TILE_NUMBERS numbers. The partitions lie in `out` and the count is 1; width, height, true sizes, filter
 *                  kind and reader are the tile's
 */
uint32_t hookbarley_recode(const uint8_t *bytes, size_t bytes_len,
                           const int32_t *header, size_t header_len,
                           const size_t *tile, size_t tile_len,
                           uint8_t *y, size_t y_len,
                           uint8_t *u, size_t u_len,
                           uint8_t *v, size_t v_len,
                           uint8_t *columns, size_t columns_len,
                           uint8_t *modes, size_t modes_len,
                           uint8_t *strengths, size_t strengths_len,
                           uint8_t *out, size_t room,
                           size_t *result, size_t result_len);

/* Writes a key frame again with a single token partition: the coded header with the partition count 0 and the modes, encoded anew, then the
 * tokens in raster order, each symbol with the probability that it was read with (RFC 6386, sections 7.3, 9.5 and 19.2). The tag has
 * the new first partition's size; start code, width and height are copied. The frame is written to the start of `out`, *written bytes long.
 * It shows the same picture, and recoding it writes the same bytes.
 *
 * It answers 12 to 14 like hookbarley_frame, 4 if a lent length does not match the frame's size, 6 and 7 like hookbarley_decode; then 18
 * if the new first partition would be longer than 2^19-1 bytes, the most that a tag can hold; then 16, exactly if the frame is longer than
 * the room. After any other number than 0, `out` is unchanged and *written is 0. The bytes of `out` after the frame are unchanged.
 *
 * bytes            a key frame, from its tag to its end
 * y .. strengths   lent: as for hookbarley_decode of the frame's tile, which it leaves as that call does; unchanged after 4 and 12 to 14
 * out              lent: the new frame. Mostly it is a few bytes shorter than the old one
 * written          how many bytes the new frame has
 */
uint32_t hookbarley_recode_frame(const uint8_t *bytes, size_t bytes_len,
                                 uint8_t *y, size_t y_len,
                                 uint8_t *u, size_t u_len,
                                 uint8_t *v, size_t v_len,
                                 uint8_t *columns, size_t columns_len,
                                 uint8_t *modes, size_t modes_len,
                                 uint8_t *strengths, size_t strengths_len,
                                 uint8_t *out, size_t room,
                                 size_t *written);

/* Applies the loop filter to a picture in place (RFC 6386, section 15): macroblocks in raster order, and in each the left edge (except in
 * column 0), the inner vertical edges, the top edge (except in row 0) and the inner horizontal edges. It never refuses what
 * hookbarley_decode or hookbarley_rescue left. Checked in this order, and after a refusal nothing has changed: 1 width or height; 4 a
 * length; 11 a limit above 189 in any record. After a decode that stopped (6, 7) no sample of an unfinished macroblock changes: grey stays
 * grey.
 *
 * y, u, v          lent: as hookbarley_decode or hookbarley_rescue left them
 * strengths        HOOKBARLEY_STRENGTH_BYTES for each macroblock; read only. Segment and small are ignored
 * width, height    in samples, multiples of 16
 * simple           not 0 for the simple filter, which changes luma only. The frame header's filter_type tells which to use
 *
 * A frame whose level (HOOKBARLEY_HEADER_LEVEL) is 0 must not be filtered, whatever its segments say: skip this call then, as
 * hookbarley_key_frame does.
 */
uint32_t hookbarley_deblock(uint8_t *y, size_t y_len,
                            uint8_t *u, size_t u_len,
                            uint8_t *v, size_t v_len,
                            const uint8_t *strengths, size_t strengths_len,
                            size_t width, size_t height, uint32_t simple);

/* Applies the loop filter's kernel (RFC 6386, section 15) to eight samples across an edge, p3 p2 p1 p0 q0 q1 q2 q3, in place. `simple` selects
 * the simple filter, `edge` a macroblock edge instead of an inner one; both are true if they are not 0. Returns 0, or 9 with nothing
 * changed if there are not eight samples. */
uint32_t hookbarley_filter(uint8_t *samples, size_t samples_len, uint8_t simple, uint8_t edge,
                           uint8_t limit, uint8_t inner, uint8_t threshold);

/* Which rule acted on eight samples (hookbarley_explain). The first two leave the samples unchanged. */
enum hookbarley_rule {
    HOOKBARLEY_EDGE_FAILED = 1,     /* the edge test failed: the step across the edge is too large to be a coding artefact */
    HOOKBARLEY_ROUGH = 2,           /* two neighbours on one side differ by more than `inner`; *pair tells which */
    HOOKBARLEY_SIMPLE = 3,          /* the simple filter: p0 and q0 change */
    HOOKBARLEY_HIGH_VARIANCE = 4,   /* high edge variance: p0 and q0 change */
    HOOKBARLEY_MACROBLOCK_EDGE = 5, /* a macroblock edge: three samples on each side change */
    HOOKBARLEY_INNER_EDGE = 6       /* an inner edge: two samples on each side change */
};

/* The first pair that is not smooth, in the order in which they are checked; 0 for every other rule. */
enum hookbarley_pair {
    HOOKBARLEY_P3_P2 = 1,
    HOOKBARLEY_P2_P1 = 2,
    HOOKBARLEY_P1_P0 = 3,
    HOOKBARLEY_Q3_Q2 = 4,
    HOOKBARLEY_Q2_Q1 = 5,
    HOOKBARLEY_Q1_Q0 = 6
};

/* Explains what hookbarley_filter does to the same samples with the same arguments, and by which rule. The samples are only read; after[k] is
 * what samples[k] becomes, and steps[k] (-127..127) is what the rule adds before the sum is clipped to 0..255: after[k] =
 * clip(samples[k] + steps[k]). A step is 0 if the rule leaves the sample alone. *rule and *pair are as above. Returns 0; or 9, with *rule
 * and *pair 0 and `after` and `steps` unchanged, if samples, after or steps do not have eight elements. */
uint32_t hookbarley_explain(const uint8_t *samples, size_t samples_len, uint8_t simple, uint8_t edge,
                            uint8_t limit, uint8_t inner, uint8_t threshold,
                            uint8_t *after, size_t after_len, int32_t *steps, size_t steps_len,
                            uint32_t *rule, uint32_t *pair);

/* Parses a key frame's header (RFC 6386, sections 9 and 19.2): frame tag, start code and sizes, then the coded header. It fills the entries
 * that hookbarley_decode reads (all others become 0) and the numbers of a tile (those of partitions from `count` on become 0). The frame is
 * all of the bytes: the last token partition extends to their end. Checked in this order: 9 not 28 numbers or not 1096 entries; 12; 13 the
 * first partition; 14; 13 the token partitions. After a refusal the 28 numbers are zero (unchanged if there are not 28) and the entries are
 * unchanged. hookbarley_decode never refuses the result with 1 to 5, given memory of the right lengths.
 *
 * The filter kind is the header's own filter_type, whatever the version: for a key frame the version (0 to 3) has no other effect. The two
 * scaling bits of each size, the colour space and the clamping type are ignored.
 */
uint32_t hookbarley_frame(const uint8_t *bytes, size_t length, int32_t *header, size_t header_len, size_t *tile, size_t tile_len);

/* From a key frame's bytes to the picture on the screen: hookbarley_frame, hookbarley_decode and hookbarley_deblock in one call. The header
 * decides the kind of loop filter; if the frame's level (HOOKBARLEY_HEADER_LEVEL) is 0, nothing is filtered, whatever its segments and
 * deltas say (RFC 6386, section 15).
 *
 * Checked in this order: 9 not 28 numbers or not 1096 entries; 12 to 14 as for hookbarley_frame; 4 a lent length does not match the frame's
 * size. After any of these nothing lent has changed, header and tile included, and *finished and both counts are 0. Otherwise the answer is
 * 0, 6 or 7 as for hookbarley_decode: header and tile are the frame's, the planes are deblocked, and after 6 and 7 every sample of an
 * unfinished macroblock is 128. The old contents of lent memory never matter. To get the samples before the loop filter, use the three
 * separate calls.
 *
 * bytes            the whole frame
 * header           lent: HOOKBARLEY_ENTRIES entries
 * tile             lent: HOOKBARLEY_TILE_NUMBERS numbers
 * y .. strengths   lent: as for hookbarley_decode, for the frame's size
 * finished, first_reads, token_reads   as for hookbarley_decode
 */
uint32_t hookbarley_key_frame(const uint8_t *bytes, size_t length,
                              int32_t *header, size_t header_len,
                              size_t *tile, size_t tile_len,
                              uint8_t *y, size_t y_len,
                              uint8_t *u, size_t u_len,
                              uint8_t *v, size_t v_len,
                              uint8_t *columns, size_t columns_len,
                              uint8_t *modes, size_t modes_len,
                              uint8_t *strengths, size_t strengths_len,
                              size_t *finished, uint64_t *first_reads, uint64_t *token_reads);

/* Finds the key frame in a WebP file with the simple lossy layout (RFC 9649, sections 2.3 to 2.5): 'RIFF', size, 'WEBP', 'VP8 ', size, the
 * frame, and a pad byte of 0 if its length is odd; sizes are little-endian. The file is all of the bytes: the RIFF size plus 8 is `length`,
 * and the one chunk fills it. Checked in this order: 17 the marks; 18 the RIFF size; 19 the chunk's kind; 18 the chunk's size and the pad
 * byte. After 0 the frame is the *frame_length bytes at bytes[*start]; the length may be 0, since the layout does not depend on the frame.
 * After a refusal both are 0. Only the first 20 bytes and the pad byte are examined.
 */
uint32_t hookbarley_webp_find(const uint8_t *bytes, size_t length, size_t *start, size_t *frame_length);

/* Writes that layout around a frame to the start of `out`: 20 bytes, the frame, and a pad byte of 0 if its length is odd. Checked in this
 * order: 18 the RIFF size would exceed 2^32 - 10 (a frame of more than 2^32 - 22 bytes); 16 the room is too small. After 0 the file is the
 * first *written bytes of `out` and the rest of `out` is unchanged. After a refusal *written is 0 and `out` is unchanged.
 */
uint32_t hookbarley_webp_wrap(const uint8_t *frame, size_t frame_length, uint8_t *out, size_t room, size_t *written);

/* ---- From a frame to its planes. The calls above take every length separately; these pass the lengths that a tile needs.
 *
 * Lend memory once for each size, then show every frame of that size in it:
 *
 *     if (hookbarley_take(frame, length, header, &tile)) return;
 *     hookbarley_lend(&tile, malloc(hookbarley_room(&tile)), &memory);
 *     number = hookbarley_show(frame, length, header, &tile, &memory, &finished);
 */
struct hookbarley_memory {
    uint8_t *y, *u, *v, *columns, *modes, *strengths;
};

/* The length of each of the six. */
struct hookbarley_lengths {
    size_t y, u, v, columns, modes, strengths;
};

static inline size_t hookbarley_blocks(const struct hookbarley_tile *t) { return t->width / 16 * (t->height / 16); }

static inline struct hookbarley_lengths hookbarley_lengths_of(const struct hookbarley_tile *t) {
    struct hookbarley_lengths n;
    n.y = t->width * t->height;
    n.u = n.v = t->width / 2 * (t->height / 2);
    n.columns = HOOKBARLEY_COLUMN_BYTES * (t->width / 16);
    n.modes = HOOKBARLEY_MODE_BYTES * hookbarley_blocks(t);
    n.strengths = HOOKBARLEY_STRENGTH_BYTES * hookbarley_blocks(t);
    return n;
}

/* How many bytes a tile needs in all: Y, U, V, columns, modes and strengths, in this order. */
static inline size_t hookbarley_room(const struct hookbarley_tile *t) {
    struct hookbarley_lengths n = hookbarley_lengths_of(t);
    return n.y + n.u + n.v + n.columns + n.modes + n.strengths;
}

/* Divides that many bytes among the six. */
static inline void hookbarley_lend(const struct hookbarley_tile *t, uint8_t *room, struct hookbarley_memory *m) {
    struct hookbarley_lengths n = hookbarley_lengths_of(t);
    m->y = room;
    m->u = m->y + n.y;
    m->v = m->u + n.u;
    m->columns = m->v + n.v;
    m->modes = m->columns + n.columns;
    m->strengths = m->modes + n.modes;
}

/* hookbarley_frame. */
static inline uint32_t hookbarley_take(const uint8_t *frame, size_t length, int32_t *header, struct hookbarley_tile *t) {
    return hookbarley_frame(frame, length, header, HOOKBARLEY_ENTRIES, (size_t *)t, HOOKBARLEY_TILE_NUMBERS);
}

/* hookbarley_key_frame into memory that was lent for this tile, which comes from hookbarley_take of this frame or another of the same size, or
 * from the last hookbarley_show. After 4 this frame has another size, and tile and memory are unchanged: take it and lend memory again. */
static inline uint32_t hookbarley_show(const uint8_t *frame, size_t length, int32_t *header, struct hookbarley_tile *t,
                                       const struct hookbarley_memory *m, size_t *finished) {
    struct hookbarley_lengths n = hookbarley_lengths_of(t);
    uint64_t first_reads, token_reads;
    return hookbarley_key_frame(frame, length, header, HOOKBARLEY_ENTRIES, (size_t *)t, HOOKBARLEY_TILE_NUMBERS,
                                m->y, n.y, m->u, n.u, m->v, n.v, m->columns, n.columns, m->modes, n.modes, m->strengths, n.strengths,
                                finished, &first_reads, &token_reads);
}

/* hookbarley_decode with the header and tile from hookbarley_take. */
static inline uint32_t hookbarley_picture(const uint8_t *frame, size_t length, const int32_t *header, const struct hookbarley_tile *t,
                                          const struct hookbarley_memory *m, size_t *finished,
                                          uint64_t *first_reads, uint64_t *token_reads) {
    struct hookbarley_lengths n = hookbarley_lengths_of(t);
    return hookbarley_decode(frame, length, header, HOOKBARLEY_ENTRIES, (const size_t *)t, HOOKBARLEY_TILE_NUMBERS,
                             m->y, n.y, m->u, n.u, m->v, n.v, m->columns, n.columns, m->modes, n.modes, m->strengths, n.strengths,
                             finished, first_reads, token_reads);
}

/* hookbarley_rescue, likewise; the marks are hookbarley_blocks bytes. */
static inline uint32_t hookbarley_rescue_picture(const uint8_t *frame, size_t length, const int32_t *header,
                                                 const struct hookbarley_tile *t, const struct hookbarley_memory *m,
                                                 uint8_t *marks, size_t *kept) {
    struct hookbarley_lengths n = hookbarley_lengths_of(t);
    return hookbarley_rescue(frame, length, header, HOOKBARLEY_ENTRIES, (const size_t *)t, HOOKBARLEY_TILE_NUMBERS,
                             m->y, n.y, m->u, n.u, m->v, n.v, m->columns, n.columns, m->modes, n.modes, m->strengths, n.strengths,
                             marks, hookbarley_blocks(t), kept);
}

/* hookbarley_profile, likewise. */
static inline uint32_t hookbarley_profile_picture(const uint8_t *bytes, size_t length, const int32_t *header,
                                                  const struct hookbarley_tile *t, const struct hookbarley_memory *m,
                                                  uint32_t *rule, size_t *macroblock) {
    struct hookbarley_lengths n = hookbarley_lengths_of(t);
    return hookbarley_profile(bytes, length, header, HOOKBARLEY_ENTRIES, (const size_t *)t, HOOKBARLEY_TILE_NUMBERS,
                              m->y, n.y, m->u, n.u, m->v, n.v, m->columns, n.columns, m->modes, n.modes, m->strengths, n.strengths,
                              rule, macroblock);
}

/* hookbarley_survey, likewise, into a record of HOOKBARLEY_SURVEY_COUNTS counts. What it adds to the record tells what was finished and read. */
static inline uint32_t hookbarley_survey_picture(const uint8_t *bytes, size_t length, const int32_t *header,
                                                 const struct hookbarley_tile *t, const struct hookbarley_memory *m, uint64_t *record) {
    struct hookbarley_lengths n = hookbarley_lengths_of(t);
    size_t finished;
    uint64_t first_reads, token_reads;
    return hookbarley_survey(bytes, length, header, HOOKBARLEY_ENTRIES, (const size_t *)t, HOOKBARLEY_TILE_NUMBERS,
                             m->y, n.y, m->u, n.u, m->v, n.v, m->columns, n.columns, m->modes, n.modes, m->strengths, n.strengths,
                             &finished, &first_reads, &token_reads, record, HOOKBARLEY_SURVEY_COUNTS);
}

/* hookbarley_recode, likewise; `result` is the tile that was written to `out`. */
static inline uint32_t hookbarley_recode_picture(const uint8_t *bytes, size_t length, const int32_t *header,
                                                 const struct hookbarley_tile *t, const struct hookbarley_memory *m,
                                                 uint8_t *out, size_t room, struct hookbarley_tile *result) {
    struct hookbarley_lengths n = hookbarley_lengths_of(t);
    return hookbarley_recode(bytes, length, header, HOOKBARLEY_ENTRIES, (const size_t *)t, HOOKBARLEY_TILE_NUMBERS,
                             m->y, n.y, m->u, n.u, m->v, n.v, m->columns, n.columns, m->modes, n.modes, m->strengths, n.strengths,
                             out, room, (size_t *)result, HOOKBARLEY_TILE_NUMBERS);
}

/* hookbarley_recode_frame, with memory lent for the frame's tile. */
static inline uint32_t hookbarley_recode_bytes(const uint8_t *bytes, size_t length, const struct hookbarley_tile *t,
                                               const struct hookbarley_memory *m, uint8_t *out, size_t room, size_t *written) {
    struct hookbarley_lengths n = hookbarley_lengths_of(t);
    return hookbarley_recode_frame(bytes, length, m->y, n.y, m->u, n.u, m->v, n.v, m->columns, n.columns, m->modes, n.modes, m->strengths,
                                   n.strengths, out, room, written);
}

/* hookbarley_deblock of what was decoded. */
static inline uint32_t hookbarley_deblock_picture(const struct hookbarley_tile *t, const struct hookbarley_memory *m) {
    struct hookbarley_lengths n = hookbarley_lengths_of(t);
    return hookbarley_deblock(m->y, n.y, m->u, n.u, m->v, n.v, m->strengths, n.strengths, t->width, t->height, t->simple != 0);
}

#ifdef __cplusplus
}
#endif

#endif
