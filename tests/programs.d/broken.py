#!/usr/bin/env python3
"""Runs a program on the octets of a file as standard input, behind which a read fails: broken.py FILE PROGRAM [ARGUMENTS]."""
import os
import pty
import subprocess
import sys
import tty

# What reads a terminal from the side of its master gets what the other side wrote, and a fault once that side is closed.
master, slave = pty.openpty()
tty.setraw(slave)
with open(sys.argv[1], "rb") as f:
    os.write(slave, f.read())
os.close(slave)
sys.exit(subprocess.run(sys.argv[2:], stdin=master).returncode)
