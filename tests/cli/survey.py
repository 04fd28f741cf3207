#!/usr/bin/env python3
"""What `survey` told, in its three forms: survey.py RECORD.json [TABLE.txt] [PAGE.html] finds the same counts in each, the totals that a
survey has, and a page that is well-formed, needs no network and has its numbers as text beside every bar. survey.py --bar COMMAND.. runs a
survey on a terminal of its own and finds its progress bar."""
import json
import os
import re
import subprocess
import sys
import xml.etree.ElementTree as XML

ROWS = {"answers": 8, "segments": 4, "luma": 5, "chroma": 4, "skip": 2, "inside": 2, "subblocks": 10, "symbols": 2}


def record(path):
    with open(path) as f:
        told = json.load(f)
    assert told["hookbarley_survey"] == 1 and {k: len(told[k]) for k in ROWS} == ROWS, "not the tables of a survey"
    finished = sum(told["segments"])
    assert all(sum(told[k]) == finished for k in ("luma", "chroma", "skip", "inside")), "tables that do not sum to the macroblocks finished"
    assert sum(told["subblocks"]) == 16 * told["luma"][4], "not sixteen sub-blocks a small macroblock"
    return told


def share(count, total):
    part = 100 * count / total if total else 0
    return "<0.1 %" if count and part < 0.05 else ">99.9 %" if count < total and part >= 99.95 else f"{part:.1f} %"


def headline(told):
    apart = sum(told["apart"].values()) + told["unread"] + told["lost"]
    files, pictures = told["files"], sum(told["answers"])
    text = f"{files} file{'s' * (files != 1)}: {pictures} picture{'s' * (pictures != 1)}, {told['answers'][0]} of them whole"
    return text + (f"; {apart} apart" if apart else "")


def check_table(told, text):
    assert text.startswith(headline(told) + "\n"), "another first line"
    rows = re.findall(r"^  (\S.*?) +(\d+) +([<>]?[\d.]+ %)(?:  (#+))?$", text, re.M)
    want = [(n, sum(told[k])) for k in ROWS for n in told[k]]
    assert [(int(count), s) for _, count, s, _ in rows] == [(n, share(n, total)) for n, total in want], "other rows"
    for (_, count, _, bar), (_, total) in zip(rows, want):
        length = int(22 * int(count) / total + 0.5) if total else 0
        assert len(bar) == max(length, int(count) > 0), f"a bar of {len(bar)} for {count} of {total}"


def check_row(tr, count, total):
    name, number, part, bar = list(tr)
    assert name.tag == "th" and name.get("scope") == "row" and name.text.strip(), "a row without a heading"
    assert (number.text, part.text) == (f"{count:,}", share(count, total)), f"{number.text}, {part.text} and not {count} of {total}"
    svg, = list(bar)
    assert svg.get("aria-hidden") == "true", "a bar that is read out"
    width = float(svg.findall("rect")[1].get("width"))
    assert abs(width - (max(100 * count / total, 0.5) if count else 0)) < 0.006, f"a bar of {width} for {count} of {total}"


def check_page(told, path):
    with open(path, encoding="utf-8") as f:
        text = f.read()
    page = XML.fromstring(text)
    assert text.startswith("<!DOCTYPE html>\n") and page.get("lang") == "en", "not a page"
    assert not re.search(r"(?i)https?:|url\(|@import|<script|<img|<link|\bsrc=|\bhref=", text), "it asks for something from outside"
    assert 'name="viewport"' in text and headline(told) in page.find(".//p").text, "another first line"
    for key, rows in ROWS.items():
        section = page.find(f".//section[@aria-labelledby='{key}']")
        found = section.findall(".//tbody/tr")
        assert len(found) == rows and section.find("h2").get("id") == key, f"table {key}"
        for tr, count in zip(found, told[key]):
            check_row(tr, count, sum(told[key]))


def check_bar(command):
    """Standard error is a terminal: a bar is drawn over and over, and wiped."""
    leader, follower = os.openpty()
    done = subprocess.run(command, stdout=subprocess.DEVNULL, stderr=follower)
    os.close(follower)
    drawn = b""
    try:
        while part := os.read(leader, 65536):
            drawn += part
    except OSError:  # nobody has the other end any more
        pass
    bars = re.findall(rb"\[(#*)(\.*)\] (\d+) of (\d+), \d+ a second", drawn)
    assert done.returncode == 0 and bars and all(len(a + b) == 30 for a, b, _, _ in bars), f"no bar: {drawn[-300:]}"
    assert bars[-1][0] == b"#" * 30 and bars[-1][2] == bars[-1][3] and drawn.endswith(b"\033[K"), f"no end: {drawn[-300:]}"


def main():
    if sys.argv[1] == "--bar":
        check_bar(sys.argv[2:])
        return
    told = record(sys.argv[1])
    for path in sys.argv[2:]:
        if path.endswith(".html"):
            check_page(told, path)
        else:
            with open(path) as f:
                check_table(told, f.read())


main()
