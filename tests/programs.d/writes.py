#!/usr/bin/env python3
"""Runs a program, and prints how often it writes to standard output and to standard error: writes.py PROGRAM [ARGUMENTS]."""
import os
import subprocess
import sys

# In a pipe of packets each write is one, and a read takes one.
pipes = [os.pipe2(os.O_DIRECT) for _ in ("output", "errors")]
run = subprocess.run(sys.argv[1:], stdin=subprocess.DEVNULL, stdout=pipes[0][1], stderr=pipes[1][1], timeout=60)
counts = []
for reader, writer in pipes:
    os.close(writer)
    counts.append(sum(1 for _ in iter(lambda: os.read(reader, 65536), b"")))
print(*counts)
sys.exit(run.returncode)
