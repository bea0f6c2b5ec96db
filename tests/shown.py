#!/usr/bin/env python3
"""Runs the commands that a document shows after `$ ` in its shell parts, and compares what each prints with the lines shown below it. Prints how many
there are, and stops at the first that prints something else.
Usage: shown.py DOCUMENT
"""
import pathlib
import re
import subprocess
import sys

count = 0
for part in re.findall(r"^```sh\n(.*?)^```$", pathlib.Path(sys.argv[1]).read_text(), re.M | re.S):
    for command, expected in re.findall(r"^\$ (.*)\n((?:(?!\$ ).*\n)*)", part, re.M):
        out = subprocess.run(["sh", "-c", command], capture_output=True, text=True, timeout=60, check=False).stdout
        if out != expected:
            sys.exit(f"{command}: prints {out!r}, and {expected!r} is shown")
        count += 1
print(count)
