/* The sentences of `explain`, and the words in them. The page of pixels (pixel_page.h) has the same ones in its data, so that its panel
 * says what the command says: its script fills in %s, %d, %+d and %zu as printf does. */
#ifndef CLI_EXPLAIN_WORDS_H
#define CLI_EXPLAIN_WORDS_H

#define SAY_UNFILTERED "nothing is filtered: the frame's level is 0\n"
#define SAY_SAMPLE "%s at %zu %zu: %d before the loop filter, %d after it\n"
#define SAY_CHROMA_ALONE "  the simple filter leaves U and V alone\n"
#define SAY_NO_EDGE "  no filtered edge lies within four samples\n"

/* An edge: which of how many, its kind and macroblock, where it lies, which of the eight this sample is. */
#define SAY_EDGE "  %d. %s edge of the macroblock in column %zu, row %zu,\n" \
                 "     between %s %zu and %zu of samples; this one is %s, the %s %s it\n"
#define SAY_LINE "     p3..p0 %d %d %d %d | q0..q3 %d %d %d %d; limit %d, inner %d, threshold %d\n"

/* The rules: what explain_counted counts, and the number that it is held against. */
#define SAY_EDGE_FAILED "     edge test failed: the jump across the edge counts %d, more than the limit %d: it is taken for an outline\n"
#define SAY_ROUGH "     smoothness failed: %s and %s differ by %d, more than the inner limit %d: they are taken for texture\n"
#define SAY_SIMPLE "     simple filter: the two samples at the edge move toward each other\n"
#define SAY_HIGH_VARIANCE \
    "     high variance: neighbours at the edge differ by %d, more than the threshold %d: only the two at the edge move\n"
#define SAY_MACROBLOCK_EDGE "     macroblock edge: both sides are smooth: three samples on each side are blended\n"
#define SAY_INNER_EDGE "     inner edge: both sides are smooth: two samples on each side are blended\n"

/* What became of the sample. */
#define SAY_STAYS "     stays %d\n"
#define SAY_BEYOND "     stays %d: the rule does not reach this far\n"
#define SAY_STOPPED "     %d becomes %d: the step is %+d, stopped at %d\n"
#define SAY_MOVED "     %d becomes %d: the step is %+d\n"

static const char *const explain_planes[] = {"luma", "U", "V"};
static const char *const explain_places[] = {"p3", "p2", "p1", "p0", "q0", "q1", "q2", "q3"};
static const char *const explain_nths[] = {"fourth", "third", "second", "first", "first", "second", "third", "fourth"}; /* by place */

/* Where h is 1 if the edge is horizontal: kinds at h, an inner edge's at 2 + h; lines at h; sides at 2 * h, behind it at 2 * h + 1. */
static const char *const explain_kinds[] = {"left", "top", "inner vertical", "inner horizontal"};
static const char *const explain_lines[] = {"columns", "rows"};
static const char *const explain_sides[] = {"left of", "right of", "above", "below"};

/* By hookbarley_pair, two places; by hookbarley_rule, how many samples on each side move. */
static const unsigned char explain_pairs[][2] = {{0, 0}, {0, 1}, {1, 2}, {2, 3}, {7, 6}, {6, 5}, {5, 4}};
static const unsigned char explain_reach[] = {0, 0, 0, 1, 1, 3, 2};

#endif
