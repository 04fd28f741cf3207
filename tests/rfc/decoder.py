#!/usr/bin/env python3
"""RFC 6386's own decoder (section 20), taken out of the RFC's text and built.

    decoder.py RFC6386.TXT OUT     files into OUT/source; programs OUT/rfc-decode, rfc-decode-checked, rfc-decode-forms

The files of sections 20.1 to 20.27 are taken as they stand: page footers, form feeds and page headers dropped, the margin of three spaces
removed, the lines that begin and end a code block dropped. Where a page ends the text does not say whether a blank line stood there: none is
put where the page is full (three blank lines before the footer) or the line before goes on (a backslash), else one.

What does not compile is changed, each change named in PATCHES by its line and printed; headers that the RFC includes and does not print are
written by this script (MISSING). OUT/source/as-printed keeps the files before the changes. rfc-decode-checked is the same under gcc's address
and undefined-behaviour sanitizers. rfc-decode-forms has the changes of FORMS too: it takes what the project takes and the RFC's decoder
refuses, and opens a partition of one byte, and one that begins with 255, as the project does (OUT/source-forms).
"""
import os
import re
import subprocess
import sys

FOOTER = re.compile(r"^Bankoski, et al\. .*\[Page \d+\]$")
HEADER = re.compile(r"^RFC 6386 .*November 2011$")
BEGIN, END = "   ---- Begin code block", "   ---- End code block"
SECTION = re.compile(r"^20\.(\d+)\.  (\S+)( File)?$")

# (line of the text, what stands there once, what is built in its place, why)
PATCHES = [
    (13377, " coeffs ", "*coeffs ", "a pointer without its star"),
    (16335, "IMGFMT", "IMG_FMT", "another name wherever it is used"),
    (15944, "vpx/", "", "the files are printed without folders"),
]

# What the RFC's decoder does otherwise than the project before the first macroblock (README.md); for rfc-decode-forms alone
FORMS = [
    (8129, "2))", "2) > 3)", "the colour and clamping bits are read and not looked at"),
    (8320, "<=", "<", "nothing behind the first partition: an only token partition that is empty"),
    (7482, "= 0", "= sz ? start_partition[0] << 8 : 0", "a partition of one byte is read, and not taken for zeros"),
    (7527, "<<= 1", "= d->value << 1 & 0xffff", "the window keeps sixteen bits"),
]

# Headers that are included and not printed. Only what the printed files need, by the names they use.
MISSING = {
    "vpx_config.h": "/* included by mem.h; nothing of it is used */\n",
    "vpx_codec.h": """\
/* Not printed in RFC 6386; what the printed files use of it. Not taken from any other source. */
#ifndef VPX_CODEC_H
#define VPX_CODEC_H
#include "vpx_integer.h"
#include "vpx_image.h"
#define VPX_CODEC_ABI_VERSION 0
#define DEPRECATED
#define DECLSPEC_DEPRECATED
typedef enum {
    VPX_CODEC_OK, VPX_CODEC_ERROR, VPX_CODEC_MEM_ERROR, VPX_CODEC_ABI_MISMATCH, VPX_CODEC_INCAPABLE, VPX_CODEC_UNSUP_BITSTREAM,
    VPX_CODEC_UNSUP_FEATURE, VPX_CODEC_CORRUPT_FRAME, VPX_CODEC_INVALID_PARAM, VPX_CODEC_LIST_END
} vpx_codec_err_t;
typedef long vpx_codec_caps_t, vpx_codec_flags_t, vpx_enc_frame_flags_t;
typedef int64_t vpx_codec_pts_t;
typedef const void *vpx_codec_iter_t;
typedef const struct vpx_codec_iface vpx_codec_iface_t;
typedef struct vpx_codec_ctx { int unused; } vpx_codec_ctx_t;
typedef struct vpx_codec_mmap { unsigned int id, sz, align, flags; void *base, *priv; void (*dtor)(struct vpx_codec_mmap *); } vpx_codec_mmap_t;
typedef struct vpx_codec_enc_cfg { int unused; } vpx_codec_enc_cfg_t;
typedef struct vpx_fixed_buf { void *buf; size_t sz; } vpx_fixed_buf_t;
typedef struct vpx_codec_cx_pkt { int unused; } vpx_codec_cx_pkt_t;
#endif
""",
}

UNITS = ["dixie.c", "dixie_loopfilter.c", "idct_add.c", "modemv.c", "predict.c", "tokens.c", "vpx_image.c"]


def unpaged(text):
    """The text's lines without page breaks, each with its line number in the text."""
    out, lines, i = [], text.split("\n"), 0
    while i < len(lines):
        if not FOOTER.match(lines[i]):
            out.append((i + 1, lines[i]))
            i += 1
            continue
        blank = 0
        while out and not out[-1][1].strip():
            out.pop()
            blank += 1
        at = i + 1
        i += 1
        while i < len(lines) and (not lines[i].strip() or HEADER.match(lines[i])):
            i += 1
        if out and blank > 3 and not out[-1][1].endswith("\\"):
            out.append((at, ""))
    return out


def files(text):
    """{name: its lines, each with its number in the text} of sections 20.1 to 20.27"""
    found, name, number, state, body = {}, None, 0, "", []
    lines = unpaged(text)
    start = [k for k, (_, l) in enumerate(lines) if l.startswith("20.  Attachment One")][-1]

    def close():
        while body and not body[0][1].strip():
            body.pop(0)
        while body and not body[-1][1].strip():
            body.pop()
        if name:
            assert name not in found and body, name
            for n, l in body:
                assert not l.strip() or l.startswith("   "), (n, l)
            found[name] = [(n, l[3:].rstrip()) for n, l in body]

    for n, line in lines[start + 1:]:
        m = SECTION.match(line)
        if m or line.startswith("21.  "):
            if state != "closed":
                close()
            body.clear()
            if not m:
                break
            assert int(m.group(1)) == number + 1, line
            number, name, state = number + 1, m.group(2), "open"
        elif line.startswith(BEGIN):
            assert state == "open" and not any(l.strip() for _, l in body), line
            body.clear()
        elif line.startswith(END):
            close()
            body.clear()
            state = "closed"
        elif state == "open":
            body.append((n, line))
        else:
            assert not line.strip(), (n, line)
    assert number == 27, number
    return found


def write(folder, found, patches, more):
    os.makedirs(folder, exist_ok=True)
    left = {n: (old, new) for n, old, new, _ in patches}
    for name, lines in found.items():
        with open(os.path.join(folder, name), "w") as out:
            for n, line in lines:
                if n in left:
                    old, new = left.pop(n)
                    assert line.count(old) == 1, (n, old)
                    line = line.replace(old, new)
                out.write(line + "\n")
    assert not left, left
    for name, content in more.items():
        assert name not in found
        with open(os.path.join(folder, name), "w") as out:
            out.write(content)


def build(out, program, source, extra):
    # gnu99: the RFC names variables `bool`. fwrapv: signed sums as two's complement. The wrapped calls: driver.c.
    flags = "-std=gnu99 -O1 -g -fwrapv -w".split()
    wrap = "-Wl" + "".join(",--wrap=vp8_dixie_" + f for f in ("loopfilter_process_row", "predict_init", "walsh", "idct_add", "tokens_process_row"))
    driver = os.path.join(os.path.dirname(os.path.abspath(__file__)), "driver.c")
    source = os.path.join(out, source)
    subprocess.run(["gcc", *flags, *extra, "-I", source, "-o", os.path.join(out, program), driver, *[os.path.join(source, u) for u in UNITS], wrap], check=True)
    print("built:", program)


def main():
    if len(sys.argv) != 3:
        sys.exit(__doc__)
    with open(sys.argv[1], encoding="ascii") as source:
        text = source.read()
    out = sys.argv[2]
    found = files(text)
    print(f"{len(found)} files, {sum(map(len, found.values()))} lines")
    write(os.path.join(out, "source", "as-printed"), found, [], {})
    write(os.path.join(out, "source"), found, PATCHES, MISSING)
    write(os.path.join(out, "source-forms"), found, PATCHES + FORMS, MISSING)
    for label, patches in (("changed", PATCHES), ("changed in rfc-decode-forms", FORMS)):
        for n, old, new, why in patches:
            print(f"{label}: line {n}: {old!r} -> {new!r}: {why}")
    for name in MISSING:
        print(f"added: {name}: included and not printed")
    build(out, "rfc-decode", "source", [])
    build(out, "rfc-decode-checked", "source", ["-fsanitize=address,undefined", "-fno-sanitize-recover=undefined"])
    build(out, "rfc-decode-forms", "source-forms", [])


if __name__ == "__main__":
    main()
