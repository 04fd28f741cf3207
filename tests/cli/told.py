#!/usr/bin/env python3
"""What `info` and `fits` say as JSON and in words: told.py info|fits RECORD.json TEXT.txt builds the text out of the JSON and finds the same."""
import json
import sys

LUMA, CHROMA = ("DC", "TM", "V", "H", "small"), ("DC", "TM", "V", "H")


def joined(numbers):
    return " ".join(map(str, numbers))


def counted(names, counts):
    return ", ".join(f"{name} {count}" for name, count in zip(names, counts))


def answer(told):
    if told["answer"] is None:
        return told["words"]
    text = f"{told['answer']}, {told['words']}"
    if told["outcome"] == "refused":
        return text
    k = told["finished"]
    if told["outcome"] == "whole":
        return f"{text} ({k})"
    columns = told["coded_width"] // 16
    return f"{text} in macroblock {k} (column {k % columns}, row {k // columns}), {k} of {told['macroblocks']} finished"


def header(f):
    yield (f"  size        {f['width']} x {f['height']}, coded as {f['coded_width']} x {f['coded_height']}"
           f", macroblocks {f['coded_width'] // 16} x {f['coded_height'] // 16}")
    yield f"  partitions  the first of {f['first_partition']} bytes; {len(f['token_partitions'])} of tokens: {joined(f['token_partitions'])}"
    yield f"  quantizer   {f['quantizer']}; added for Y DC, Y2 DC, Y2 AC, UV DC, UV AC: {joined(f['quantizer_deltas'])}"
    s = f["segments"]
    yield "  segments    " + ("none" if s is None else f"quantizers {joined(s['quantizers'])}, levels {joined(s['levels'])}, "
                              f"{'absolute' if s['absolute'] else 'added to the frame' + chr(39) + 's'}; {'with a' if s['map'] else 'without a'} map")
    t = f["filter"]
    deltas = f"deltas: intra {t['intra_delta']}, small {t['small_delta']}" if "intra_delta" in t else "no deltas"
    nothing = "" if t["level"] else " (nothing is filtered)"
    yield f"  filter      {t['kind']}, level {t['level']}{nothing}, sharpness {t['sharpness']}; {deltas}"
    yield "  skipping    " + ("macroblocks may be skipped" if f["skipping"] else "no macroblock is skipped")


def counts(f):
    (first, tokens), (first_most, tokens_most) = f["symbols"], f["symbols_most"]
    yield f"  symbols     {first} of at most {first_most} from the first partition, {tokens} of at most {tokens_most} of tokens"
    yield f"  luma        {counted(LUMA, f['luma'])}"
    yield f"  chroma      {counted(CHROMA, f['chroma'])}"
    yield f"  by segment  {', '.join(map(str, f['by_segment']))}; skipped {f['skipped']}"


def info(file):
    yield f"{file['file']}: {file['kind']}, {file['bytes']} bytes"
    for f in file["frames"]:
        picture = f["outcome"] != "refused"
        yield f"  frame       {f['bytes']} bytes" + (f", version {f['version']}" if picture else "")
        yield from header(f) if picture else ()
        yield "  answer      " + answer(f)
        yield from counts(f) if picture else ()
    if "answer" in file:
        yield "  answer      " + answer(file)


def fits(file):
    for i, f in enumerate(file["frames"]):
        frame = f"frame {i}: " if file["kind"] == "IVF file" else ""
        if "fits" in f:
            assert f["fits"] == (f["rule"] == 0) and ("macroblock" in f) == (f["rule"] == 6), "a rule at odds with itself"
            yield f"{file['file']}: {frame}" + (f"rule {f['rule']} fails: " if f["rule"] else "") + f["words"]


def main():
    command, told = {"info": info, "fits": fits}[sys.argv[1]], json.load(open(sys.argv[2]))
    lines = [line for file in told["files"] if "error" not in file for line in command(file)]
    with open(sys.argv[3]) as f:
        said = f.read().splitlines()
    if command is info:  # behind it stands the summary
        said = said[:len(lines)]
    assert said == lines, "\n".join(f"{a!r} and not {b!r}" for a, b in zip(said, lines) if a != b) or f"{len(said)} lines and not {len(lines)}"
    frames = [f for file in told["files"] for f in file.get("frames", [])]
    if command is info:
        assert told["whole"] == sum(f["outcome"] == "whole" for f in frames) and told["cut"] == sum(f["outcome"] == "cut" for f in frames), "totals"
    else:
        assert told["fit"] == sum(f.get("fits") is True for f in frames) and told["fail"] == sum(f.get("fits") is False for f in frames), "totals"
    refused = sum("answer" in file for file in told["files"]) + sum(f.get("outcome") == "refused" for f in frames)
    assert told["refused"] == refused and told["unread"] == sum("error" in file for file in told["files"]), "totals of what is not told of"


main()
