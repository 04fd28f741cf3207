#!/usr/bin/env python3
"""For bench/delivery.sh: delivery.py FOLDER TILES. Tiles a second and the most memory of a process, for a tenth of the delivery and for all of
it: the decode that writes nothing, the survey in one process and in two. The best of three runs counts, by processor time (of all processes
together, since the machine may be busy) and by the clock."""
import glob
import subprocess
import sys

folder, tiles = sys.argv[1], int(sys.argv[2])
qualities = sorted(glob.glob(f"{folder}/tiles/*"), key=lambda path: int(path.split("/")[-1]))
assert tiles % 100 == 0 and tiles // 100 <= len(qualities), "there are a hundred tiles of each quality"


def measured(command):
    """Processor and clock seconds, the most memory of one process in KiB, and what was printed. By GNU time, since a process that is started from
    here would be taken for as large as this one."""
    done = subprocess.run(["/usr/bin/time", "-f", "%U %S %e %M", *command], stdout=subprocess.PIPE, stderr=subprocess.PIPE, check=True)
    user, system, clock, most = done.stderr.decode().splitlines()[-1].split()
    return float(user) + float(system), float(clock), int(most), done.stdout


def line(name, command, count):
    runs = [measured(command) for _ in range(3)]
    processor, clock = (max(min(run[i] for run in runs), 0.01) for i in (0, 1))
    print(f"| {name} | {count} | {count / processor:.0f} | {count / clock:.0f} | {max(run[2] for run in runs)} |")
    return runs[0][3]


print("| | tiles | a second of processor time | a second by the clock | most memory, KiB |\n|---|---|---|---|---|")
for count in (tiles // 1000 * 100 or 100, tiles):
    parts = qualities[:count // 100]
    line("decode, writing nothing", [f"{folder}/undrawn", *sorted(path for part in parts for path in glob.glob(f"{part}/*.webp"))], count)
    told = [line(f"survey -j {jobs}", [f"{folder}/hookbarley", "survey", "--json", "-j", str(jobs), *parts], count) for jobs in (1, 2)]
    assert told[0] == told[1], "two processes count otherwise"
    assert b'"answers": [%d, 0,' % count in told[0], "not every tile is whole"
