#!/usr/bin/env python3
"""For bench/module.sh: module.py CRATE, the words with which `rt lib` has rattle build the static library in this folder, one a line."""
import importlib.machinery
import importlib.util
import os
import subprocess
import sys


def main():
    kit = os.path.dirname(subprocess.run(["rt", "doc"], capture_output=True, text=True, check=True).stdout.strip())
    loader = importlib.machinery.SourceFileLoader("rtlib", f"{kit}/bin/rtlib.py")
    rtlib = importlib.util.module_from_spec(importlib.util.spec_from_loader("rtlib", loader))
    sys.dont_write_bytecode = True
    loader.exec_module(rtlib)
    crate = rtlib.Crate(os.getcwd(), os.path.realpath("../.."), {})
    print("\n".join([f"{kit}/bin/rattle", "build", *crate.words(["--jobs", "1"]), "--incremental", "out/incremental"]))


main()
