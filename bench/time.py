#!/usr/bin/env python3
"""The least processor time of runs in turn, ns a luma sample: time.py RUNS OTHER.., for bench/time.sh. Programs stand in target/bench."""
import os
import sys
from pathlib import Path

OUT = Path("target/bench")
TILES = ("q50", "q75", "q90")


def seconds(program, file, times, kind):
    child = os.fork()
    if child == 0:
        os.dup2(os.open(os.devnull, os.O_WRONLY), 1)
        os.execv(OUT / program, [program, str(file), str(times), *kind])
    _, status, used = os.wait4(child, 0)
    if status:
        sys.exit(f"{program} {file}: status {status}")
    return used.ru_utime + used.ru_stime


def least(runs, jobs, kind):
    """ns a decode of each (program, file, decodes): the least of the runs with them less the least with one."""
    best = {}
    for _ in range(runs):
        for job in jobs:
            program, file, decodes = job
            for times in (1, decodes + 1):
                used = seconds(program, file, times, kind)
                best[job, times] = min(best.get((job, times), used), used)
    return {job: (best[job, job[2] + 1] - best[job, 1]) / job[2] * 1e9 for job in jobs}


def given(program, tile, kind):
    if program == "hookbarley":
        return Path(f"bench/tile-{tile}.case")
    return OUT / f"level-0-{tile}.webp" if program == "libvpx" and not kind else Path(f"bench/tile-{tile}.webp")


def beside(runs, programs, heading, kind):
    jobs = {(p, t): (p, given(p, t, kind), 100) for p in programs for t in TILES}
    time = least(runs, list(jobs.values()), kind)
    print(f"ns a luma sample, {heading}, and the ratio of ours to it:\n")
    print("| | " + " | ".join(TILES) + " |\n|---|---|---|---|")
    for p in programs:
        cells = [(time[jobs[p, t]] / 65536, time[jobs["hookbarley", t]] / time[jobs[p, t]]) for t in TILES]
        print(f"| {p} | " + " | ".join(f"{ns:.1f} ({ratio:.2f})" for ns, ratio in cells) + " |")
    print()


def samples(file):
    head = file.read_bytes()[5:9]
    return int.from_bytes(head[:2], "big") * int.from_bytes(head[2:], "big")


def alone(runs):
    files = sorted(OUT.glob("timed/*.case"), key=lambda f: (samples(f), f.name))
    jobs = {f: ("hookbarley", f, max(2, 6553600 // samples(f))) for f in files}
    time = least(runs, list(jobs.values()), ["deblock"])
    print("A call and its deblocking on other tiles:\n")
    print("| tile | microseconds | ns a luma sample |\n|---|---|---|")
    for f in files:
        ns = time[jobs[f]]
        print(f"| {f.stem} | {ns / 1000:.1f} | {ns / samples(f):.1f} |")


def main():
    runs, others = int(sys.argv[1]), sys.argv[2:]
    beside(runs, ["hookbarley", *others], "before the loop filter", [])
    beside(runs, ["hookbarley", "show", *others], "with it (show: header, picture and deblocking by one call)", ["deblock"])
    alone(min(runs, 5))


main()
