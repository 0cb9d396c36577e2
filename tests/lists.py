#!/usr/bin/env python3
"""Runs the list program, whose path is the argument, on every degree and on inputs that it refuses, and holds every byte that it prints
to tests/list_reference.py."""
import subprocess
import sys

from list_reference import answer

DEGREES = [f"{n}\n" for n in range(1, 11)] + ["02\n", "03\n"]
REFUSED = ["", "\n", "0\n", "00\n", "11\n", "99\n", "003\n", "3", "10", "3\n\n", "10\n\n", "10\nx", "3\r\n", "+3\n", "-3\n", " 3\n", "3 \n", "x\n"]

lines = 0
for text in DEGREES + REFUSED:
    printed = subprocess.run([sys.argv[1]], input=text.encode(), stdout=subprocess.PIPE, check=True).stdout
    wanted = "".join(answer(text)).encode()
    if printed != wanted:
        sys.exit(f"list program, input {text!r}: differs")
    if text in REFUSED and wanted != b"refused 1\n":
        sys.exit(f"list reference, input {text!r}: not refused")
    lines += wanted.count(b"\n")
print(f"list program: {len(DEGREES)} lists in full and {len(REFUSED)} refusals, {lines} lines, as tests/list_reference.py has them")
