/* hookbarley: decodes VP8 key frames with the proved library. `hookbarley --help` says how. */
#include "answers.h"
#include "commands.h"
#include "stop.h"
#include "workers.h"
#include <stdlib.h>
#include <string.h>

/* In two parts: C99 promises no more than 4095 bytes of one string. */
static const char help[] =
    "hookbarley " HOOKBARLEY_VERSION ": decodes VP8 key frames with a formally verified library\n"
    "\n"
    "  hookbarley decode [OPTIONS] IN OUT         decode one picture; OUT ends in .yuv, .pgm or .ppm\n"
    "  hookbarley decode [OPTIONS] IN.. FOLDER    decode many into FOLDER, each under its own name, as .ppm or --to FORM\n"
    "  hookbarley info [--json] IN..              show size, partitions, quantizer, segments, filter, answer and modes\n"
    "  hookbarley fits [--json] IN..              check the cockpit profile; name the first rule that fails\n"
    "  hookbarley wrap IN OUT.webp                write a WebP file around a key frame\n"
    "  hookbarley recode IN OUT                   rewrite IN with one token partition per frame; the pictures stay the same\n"
    "  hookbarley explain IN X Y                  tell why the loop filter changed this pixel or not, edge by edge\n"
    "  hookbarley explain IN OUT                  colour luma by the rule that changed each sample; OUT.ppm or OUT.svg\n"
    "  hookbarley page IN OUT.html                write a page for a browser: point at a pixel and read what explain tells\n"
    "  hookbarley survey [OPTIONS] IN..           decode files and folders and count them into one table\n"
    "  hookbarley survey [OPTIONS] --add FILE..   add up records that --json wrote\n"
    "  hookbarley --help, hookbarley --version\n"
    "\n"
    "IN is a WebP file (simple lossy layout), an IVF file of VP8 key frames, or a bare VP8 frame. For decode to a FOLDER,\n"
    "info, fits and survey it may be a folder: every file in it is taken, recursively. - is standard input or output.\n"
    "\n"
    "  .yuv   I420, cropped to the true size: the exact samples\n"
    "  .pgm   luma only: the exact samples\n"
    "  .ppm   colour, for viewing; this conversion from YUV is not part of the proof\n"
    "\n"
    "  --unfiltered         decode: write the samples before the loop filter\n"
    "  --simple, --normal   decode, explain, page: use this loop filter whatever the frame says; none if its level is 0\n"
    "  --to FORM            decode: write yuv, pgm or ppm, whatever OUT ends in\n"
    "  --rescue             decode, explain, page: when tokens run out, rebuild the rest from its modes, soft instead of\n"
    "                       grey. decode reports how many macroblocks are whole, soft and grey. Decodes a truncated WebP\n"
    "                       file as far as its bytes go\n"
    "  --tint KIND          decode: write luma as .ppm with each macroblock coloured by KIND: " TINT_KINDS ";\n"
    "                       marks (whole, soft, grey) requires --rescue\n"
    "\n"
    "  --json               info, fits, survey: print JSON\n"
    "  --html OUT           survey: also write a page with charts; it needs no network\n"
    "  --add                survey: the names are records that --json wrote; add them up\n"
    "  -j N                 decode to a FOLDER, survey: use N processes; the output is the same\n"
    "\n";

static const char more_help[] =
    "The pictures of an IVF file follow one another in OUT. A truncated picture is still written: what was finished, and\n"
    "grey for the rest. OUT is not created if nothing can be decoded. A frame that ends before its last token partition\n"
    "begins is refused, even with --rescue. The files of a folder keep their places in FOLDER.\n"
    "\n"
    "The cockpit profile, in this order: coded as 256 x 256; 1, 2 or 4 token partitions; no segments; sharpness 0; whole;\n"
    "no macroblock both skipped and small.\n"
    "\n"
    "recode writes a file of the same kind and says how many bytes it saves or costs. If a frame is refused or cut, nothing is\n"
    "written.\n"
    "\n"
    "page makes one file that needs no network: the picture before and after the loop filter, tinted by segment, mode, rule\n"
    "or mark. Like explain it takes the first picture of an IVF file; this must have at most 4096 macroblocks.\n"
    "\n"
    "survey names every file that is not whole on standard error. Files that are not frames are counted separately. --add\n"
    "combines records from other hosts; docs/SURVEY.md has a recipe.\n"
    "\n"
    "On a terminal decode to a FOLDER and survey show files, rate and time left. At the first signal (Ctrl-C) they finish\n"
    "the files in hand and report what is done; another one, later, ends them at once. Every file is written beside its\n"
    "place and then renamed, so a file that is there is whole.\n"
    "\n"
    "Exit status: 0 if every picture is whole (and for fits, if every one fits); 1 if one was refused, cut or rescued (its\n"
    "number is on standard error) or does not fit; 2 for wrong usage, a file that cannot be read or written, or a process\n"
    "that ended early. Once stopped it ends by that signal: 130 in a shell for Ctrl-C.\n";

/* A command, and what it takes besides names. */
struct command {
    const char *name;
    int (*run)(const struct options *);
    unsigned takes;
};

enum { TAKES_FILTER = 1, TAKES_FORM = 2, TAKES_RESCUE = 4, TAKES_JSON = 8, TAKES_JOBS = 16, TAKES_SURVEY = 32 };

static const struct command commands[] = {
    {"decode", decode, TAKES_FILTER | TAKES_FORM | TAKES_RESCUE | TAKES_JOBS},
    {"info", info, TAKES_JSON},
    {"fits", fits, TAKES_JSON},
    {"wrap", wrap, 0},
    {"recode", recode, 0},
    {"explain", explain, TAKES_FILTER | TAKES_RESCUE},
    {"page", pixel_page, TAKES_FILTER | TAKES_RESCUE},
    {"survey", survey, TAKES_JSON | TAKES_JOBS | TAKES_SURVEY},
};

/* ---- options, each with the word that follows it or NULL. They return 0 or STATUS_USAGE. */
static int take_simple(struct options *o, const char *next) { return (void)next, o->filter = FILTER_SIMPLE, 0; }
static int take_normal(struct options *o, const char *next) { return (void)next, o->filter = FILTER_NORMAL, 0; }
static int take_unfiltered(struct options *o, const char *next) { return (void)next, o->filter = FILTER_NONE, 0; }
static int take_rescue(struct options *o, const char *next) { return (void)next, o->rescue = 1, 0; }
static int take_json(struct options *o, const char *next) { return (void)next, o->json = 1, 0; }
static int take_add(struct options *o, const char *next) { return (void)next, o->add = 1, 0; }

static int take_form(struct options *o, const char *form) {
    o->to = form ? form_of(form) : FORM_NONE;
    return o->to == FORM_NONE ? usage("--to takes yuv, pgm or ppm", "") : 0;
}

static int take_html(struct options *o, const char *path) {
    o->html = path;
    return path ? 0 : usage("--html takes a file", "");
}

static int take_tint(struct options *o, const char *kind) {
    if (!kind) return usage("--tint takes " TINT_KINDS, "");
    o->tint = tint_of(kind);
    return o->tint == TINT_NONE ? usage("--tint takes " TINT_KINDS ", not ", kind) : 0;
}

/* A number of processes. */
static int take_jobs(struct options *o, const char *word) {
    char *end = NULL;
    long jobs = word ? strtol(word, &end, 10) : 0;
    if (!word || end == word || *end || jobs < 1 || jobs > WORKERS_MOST) return usage("-j takes a number of processes, 1 to 256", "");
    o->jobs = (int)jobs;
    return 0;
}

static const struct option {
    const char *name;
    unsigned of; /* the commands that take it */
    int value;   /* 1: another word follows */
    int (*take)(struct options *, const char *);
} options_of[] = {
    {"--unfiltered", TAKES_FORM, 0, take_unfiltered},
    {"--simple", TAKES_FILTER, 0, take_simple},
    {"--normal", TAKES_FILTER, 0, take_normal},
    {"--to", TAKES_FORM, 1, take_form},
    {"--tint", TAKES_FORM, 1, take_tint},
    {"--rescue", TAKES_RESCUE, 0, take_rescue},
    {"--json", TAKES_JSON, 0, take_json},
    {"--html", TAKES_SURVEY, 1, take_html},
    {"--add", TAKES_SURVEY, 0, take_add},
    {"-j", TAKES_JOBS, 1, take_jobs},
};

/* The option of a word; -j may have its number in the same word. */
static const struct option *option_of(const char *word) {
    for (size_t i = 0; i < sizeof options_of / sizeof *options_of; i++)
        if (!strcmp(word, options_of[i].name) || (options_of[i].take == take_jobs && !strncmp(word, "-j", 2))) return &options_of[i];
    return NULL;
}

/* The option at word *i, which may take the next one too. */
static int take_option(struct options *o, const struct command *command, char **words, int *i, int count) {
    const char *word = words[*i];
    const struct option *option = option_of(word);
    if (!option) return usage("what is ", word);
    if (!(option->of & command->takes)) {
        fprintf(stderr, "hookbarley: %s takes no %s; hookbarley --help says how\n", command->name, option->name);
        return STATUS_USAGE;
    }
    if (strcmp(word, option->name)) return option->take(o, word + strlen(option->name));
    if (!option->value) return option->take(o, NULL);
    return option->take(o, ++*i < count ? words[*i] : NULL);
}

/* Takes the options out of the words; the others move to the front and are counted. Returns 0 or STATUS_USAGE. */
static int parse(struct options *o, const struct command *command, char **words, int count) {
    int plain = 0;
    for (int i = 0; i < count; i++) {
        if (plain || words[i][0] != '-' || !words[i][1]) o->names[o->count++] = words[i];
        else if (!strcmp(words[i], "--")) plain = 1;
        else if (take_option(o, command, words, &i, count)) return STATUS_USAGE;
    }
    return 0;
}

/* Whether a word before -- asks for help, behind a command too. */
static int asks_for_help(char **words, int count) {
    for (int i = 0; i < count && strcmp(words[i], "--"); i++)
        if (!strcmp(words[i], "--help") || (!i && !strcmp(words[i], "help"))) return 1;
    return 0;
}

int main(int argc, char **argv) {
    if (argc < 2) return usage("no command", "");
    if (asks_for_help(argv + 1, argc - 1)) return fputs(help, stdout) < 0 || fputs(more_help, stdout) < 0;
    if (!strcmp(argv[1], "--version")) return puts("hookbarley " HOOKBARLEY_VERSION) < 0;
    struct options options = {.filter = FILTER_CODED, .to = FORM_NONE, .tint = TINT_NONE, .jobs = 1, .names = argv + 2};
    for (size_t i = 0; i < sizeof commands / sizeof *commands; i++) {
        if (strcmp(argv[1], commands[i].name)) continue;
        if (parse(&options, &commands[i], argv + 2, argc - 2)) return STATUS_USAGE;
        stop_begin();
        int status = commands[i].run(&options);
        if (fflush(stdout) || ferror(stdout)) status = cannot_write("standard output");
        return stop_end(status);
    }
    return usage("what is ", argv[1]);
}
