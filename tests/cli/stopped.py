#!/usr/bin/env python3
"""A long command that a signal stops: stopped.py SIGNAL OUT WHOLE FILES COMMAND.. starts COMMAND, which writes into the folder OUT, and
sends it SIGNAL as soon as FILES files are there. It must end by that signal, say so as its last line, and leave nothing but whole files:
each as the one of the same name in the folder WHOLE. Prints how many there are."""
import os
import signal
import subprocess
import sys
import time

number, out, whole, files, command = getattr(signal, sys.argv[1]), sys.argv[2], sys.argv[3], int(sys.argv[4]), sys.argv[5:]


def written():
    return [os.path.join(at, name)[len(out) + 1:] for at, _, names in os.walk(out) for name in names]


def read(folder, name):
    with open(os.path.join(folder, name), "rb") as f:
        return f.read()


signal.signal(number, signal.SIG_DFL)  # a gate in the background may ignore it, and what is ignored stays so
running = subprocess.Popen(command, stdout=subprocess.PIPE, stderr=subprocess.PIPE)
until = time.monotonic() + 20
while len(written()) < files and running.poll() is None and time.monotonic() < until:
    time.sleep(0.001)
running.send_signal(number)
running.send_signal(number)  # one request, as timeout(1) makes it
try:
    said, told = running.communicate(timeout=20)
except subprocess.TimeoutExpired:
    running.kill()
    sys.exit("does not stop")
names = written()
assert running.returncode == -number, f"status {running.returncode}, not ended by {number}: {told.decode()}"
assert f"stopped by signal {int(number)} after ".encode() in told.splitlines()[-1], f"does not say that it was stopped: {told.decode()}"
assert not [name for name in names if name.endswith(".part")], f"a part of a file is left: {names}"
assert all(read(out, name) == read(whole, name) for name in names), "a file is not whole"
print(len(names), said.decode().split("\n")[0])
