#!/usr/bin/env python3
"""Writes the sender's and the office's example to a folder: current.plan, previous.plan and text, what the sender sends for
them, what a board that wants 0032 hears of it, and what the office says.

The octets of the schedule message, and every line, are written here by hand from document 01, so that they owe nothing to
the code that they are held against.
"""
import pathlib
import sys

from octets import blocks, entry, packed, page, plan

OPTIONAL = bytes(6)
ADVISED = bytes([1, 0, 0, 0, 0, 0])
FERRY = entry(0x0010, 0x8001, 0x11)
CRANE = entry(0x1234, 0x0032, 0x12)
TIDES = entry(0x0020, 0x0ABC, 0x11)
GATES = entry(0x0031, 0x0100, 0x11)

CURRENT = [FERRY, CRANE, OPTIONAL, FERRY, ADVISED, TIDES, CRANE, TIDES, OPTIONAL, FERRY, GATES]
PREVIOUS = [CRANE, TIDES]
TEXT = "Ferry at 10, crane 2 stopped, use gate 7"

# Begin 2, End 11. New are the slots of FERRY (1, 4 and 10) and GATES (11), which the previous plan lacks, and the
# advised slot 5.
SCHEDULE = bytes([
    2, 11,
    # slots 1, 4 and 5 in the first octet of new bits, slots 10 and 11 in the second
    0b10011000, 0b01100000, 0, 0, 0, 0,
    # the new ones in slot order: 1 a first transmission of 8001, of which 15 bits are sent, 4 a repeat of slot 1,
    # 5 advised, 10 a repeat of slot 1, 11 a first transmission of 0100
    0x80, 0x01, 0x01, 0x41, 0x01, 0x81, 0x00,
    # the others: 2 first of 0032, 3 optional, 6 first of 0ABC, 7 a repeat of slot 2, 8 a repeat of slot 6, 9 optional
    0x80, 0x32, 0x40, 0x8A, 0xBC, 0x02, 0x06, 0x40,
])

# The board has the schedule at its second block and sleeps to the end of that slot; slot 2 follows, which it wants.
HEARD = [
    "schedule from 2 to 11: new 0001 0032 optional new again 1 new advised 0ABC again 2 again 6 optional new again 1 new 0100",
    "slot 2: read",
    "page 1234 0032 1/2 " + TEXT,
    "held: 2",
]

# In the false copy slot 11, the first transmission of the highest slot, is told as a repeat of slot 1. It is the lowest slot
# with its page, so that isn't true; nothing else is told in another way.
OFFICE = [
    "current plan: 11 slots",
    "previous plan: 2 slots",
    "schedule: 23 octets used, true to the plans",
    "slot 11 as a repeat of slot 1: refused by 40, slot 11",
]


def main():
    folder = pathlib.Path(sys.argv[1])
    schedule = SCHEDULE.ljust(88, b"\x2B")
    # the page of slot 2, CRANE
    text = page(0x1234, 0x0032, 0x12, packed(TEXT))
    # the schedule uses 23 octets and the page 6 + 35, so the mark is on the second block of each and on those after it
    sent = blocks(schedule, [0x28, 0x31, 0x32, 0x33]) + blocks(text, [0x20, 0x31, 0x32, 0x33])
    (folder / "current.plan").write_bytes(plan(CURRENT))
    (folder / "previous.plan").write_bytes(plan(PREVIOUS))
    (folder / "text").write_text(TEXT)
    (folder / "sender.out").write_bytes(b"".join(sent))
    (folder / "heard.out").write_text("".join(line + "\n" for line in HEARD))
    (folder / "office.out").write_text("".join(line + "\n" for line in OFFICE))


main()
