#!/usr/bin/env python3
"""Writes board.in and board.out to a folder: the pieces of each slot below stand beside the lines that documents 01 and 02
give for them.

The lines are written here by hand and nothing is taken in or decided by a program, so that board.out owes nothing to the
code that it is held against. The board wants 0032 and 8ABC.
"""
import pathlib
import sys

from octets import blocks, packed, page

CLOSED = "Track 7 is closed from 06:00 to 09:30. Wagons for ramp 3 leave by yard B, fee £5 @ gate_2"
CLOSED_PAGE = page(0x4A31, 0x0032, 0x11, packed(CLOSED))
CLOSED_LINES = ["page 4A31 0032 1/1 " + CLOSED.replace("£", "<00A3>"),
                "message 4A31 0032, 1 page: " + CLOSED.replace("£", "<00A3>")]
TIDES_PAGE = page(0x4A32, 0x8ABC, 0x12, packed("High water 10:42"))
TIDES_LINE = "page 4A32 8ABC 1/2 High water 10:42"
# a later page of 0032, in two blocks
OPEN_PAGE = page(0x4A33, 0x0032, 0x11, packed("Track 7 is open from 06:00 on"))
# another alphabet, in one block
FOREIGN_PAGE = page(0x4B01, 0xF0E1, 0xFF, bytes([0x00, 0x4B, 0x00, 0xE1, 0x01, 0x51]), scheme=0x48)
FOREIGN_LINE = "page 4B01 F0E1 15/15 004B00E10151" + 10 * "2B"

# a message of three pages: its first page needs three blocks, the others fewer; the first two end in spaces, which count
CRANE = ["Crane 11 is out of service until noon. Lorries with steel go to ", "crane 6, ", "all others wait at gate 2."]
CRANE_PAGES = [page(0x4C01, 0x0032, 0x10 * (i + 1) + 3, packed(text)) for i, text in enumerate(CRANE)]
CRANE_LINES = [f"page 4C01 0032 {i + 1}/3 {text}" for i, text in enumerate(CRANE)]
# one of two pages, the second of them in another alphabet
FERRY_PAGES = [page(0x4C02, 0x8ABC, 0x12, packed("Ferry 10:15:")),
               page(0x4C02, 0x8ABC, 0x22, bytes([0x00, 0x6B, 0x00, 0xE9]), scheme=0x48)]
FERRY_HEX = "006B00E9" + 12 * "2B"
# a page whose parameter is 00, and one that is page 3 of 2
SIREN_PAGE = page(0x4C03, 0x0032, 0x00, packed("Siren test"))
BEYOND_PAGE = page(0x4C02, 0x8ABC, 0x32, packed("Ferry 11:15"))

# Slots 1, 2 and 4 are new: a first transmission of 0032, a repeat of it, reading advised. The others: first transmissions of
# 7777 in slot 3 and, in 15 bits, of 8ABC in slot 5, and two repeats of that.
TOLD = bytes([0xD0, 0, 0, 0, 0, 0, 0x80, 0x32, 0x01, 0x41, 0xF7, 0x77, 0x8A, 0xBC, 0x05, 0x05])
TOLD_LINE = "new 0032 new again 1 7777 new advised 0ABC again 5 again 5"

# Nothing new: reading slot 1 advised, and first transmissions of 7777 in slot 2 and of 0032 in slot 3.
THREE = bytes([0, 0, 0, 0, 0, 0, 0x41, 0xF7, 0x77, 0x80, 0x32])
THREE_LINE = "advised 7777 0032"


def schedule(begin, end, told=TOLD):
    return (bytes([begin, end]) + told).ljust(88, b"\x2B")


def null(number=1):
    return number * blocks(bytes(22), [0x2F])


NOTHING = bytes(88)

# The four pieces of each slot, and what the board says; P is the number of the slot's first piece.
SLOTS = [
    # no schedule is known, so everything is read: a page of four blocks
    (blocks(CLOSED_PAGE, [0x20, 0x21, 0x22, 0x33]), CLOSED_LINES),
    # a page of one block, and the three after it are slept through
    (blocks(TIDES_PAGE, [0x30, 0x31, 0x32, 0x33]), [TIDES_LINE]),
    # a null block drops the page, so its second and third blocks come too late
    (blocks(CLOSED_PAGE, [0x20]) + null() + blocks(CLOSED_PAGE, [0, 0x21, 0x32])[1:],
     ["piece P+1 refused by 5", "piece P+2 refused by 6", "piece P+3 refused by 6"]),
    # so do another discriminator and a reserved code; the discriminator is looked at before the code
    (blocks(NOTHING, [0x20, 0x01, 0x24, 0x6F]),
     ["piece P+1 refused by 3", "piece P+2 refused by 4", "piece P+3 refused by 3"]),
    # a block ahead of the next one, which then has nothing to follow
    (blocks(CLOSED_PAGE, [0x20, 0x22, 0x21, 0x33]),
     ["piece P+1 refused by 6", "piece P+2 refused by 6", "piece P+3 refused by 6"]),
    # a first block drops what was begun
    (blocks(NOTHING, [0x28, 0x21]) + blocks(FOREIGN_PAGE, [0x30, 0x31]), [FOREIGN_LINE]),
    # bit 8 is ignored, and the fourth block needs no mark
    (blocks(CLOSED_PAGE, [0xA0, 0xA1, 0xA2, 0xA3]), CLOSED_LINES),
    # schedules that aren't read: of type 01, and with Begin over End
    (blocks(schedule(0x41, 7), [0x38, 0x31, 0x32, 0x33]), ["schedule refused by 20"]),
    (blocks(schedule(8, 7), [0x38, 0x31, 0x32, 0x33]), ["schedule refused by 21"]),
    # one that is, in two blocks
    (blocks(schedule(1, 7), [0x28, 0x31, 0x32, 0x33]), ["schedule from 1 to 7: " + TOLD_LINE]),
    # slot 1 is wanted
    (blocks(CLOSED_PAGE, [0x20, 0x21, 0x22, 0x33]), ["slot 1: read"] + CLOSED_LINES + ["held: 1"]),
    # slot 2 repeats what is held, and slot 3 isn't wanted
    (blocks(CLOSED_PAGE, [0x20, 0x21, 0x22, 0x33]), ["slot 2: skip"]),
    (blocks(FOREIGN_PAGE, [0x30, 0x31, 0x32, 0x33]), ["slot 3: skip"]),
    # reading slot 4 is advised: it is the schedule again, for who missed it, and the same period goes on
    (blocks(schedule(5, 7), [0x38, 0x31, 0x32, 0x33]), ["slot 4: read", "schedule from 5 to 7: " + TOLD_LINE]),
    # slot 5 is wanted, by 15 bits of its identifier, but is lost
    (null(4), ["slot 5: read"] + [f"piece P+{i} refused by 5" for i in range(4)]),
    # so its repeat in slot 6 is read and entered under slot 5, and that in slot 7 is skipped
    (blocks(TIDES_PAGE, [0x20, 0x31, 0x32, 0x33]), ["slot 6: read", TIDES_LINE, "held: 1 5"]),
    (blocks(TIDES_PAGE, [0x20, 0x31, 0x32, 0x33]), ["slot 7: skip"]),
    # after End no schedule is known
    (blocks(FOREIGN_PAGE, [0x30, 0x31, 0x32, 0x33]), [FOREIGN_LINE]),
    # another period
    (blocks(schedule(1, 3, THREE), [0x38, 0x31, 0x32, 0x33]), ["schedule from 1 to 3: " + THREE_LINE]),
    # slot 1 ends with the first block of a page, and slot 2 isn't wanted
    (null(3) + blocks(CLOSED_PAGE, [0x20]), ["slot 1: read"] + [f"piece P+{i} refused by 5" for i in range(3)]),
    (blocks(FOREIGN_PAGE, [0x30, 0x31, 0x32, 0x33]), ["slot 2: skip"]),
    # so the second block of another page, with which slot 3 begins, doesn't go on with the first of slot 1
    (blocks(OPEN_PAGE, [0, 0x31, 0x32, 0x33])[1:] + null(),
     ["slot 3: read"] + [f"piece P+{i} refused by 6" for i in range(3)] + ["piece P+3 refused by 5"]),
    # the pages of a message in another order, page 1 again as its first block alone, which is passed over
    (blocks(CRANE_PAGES[2], [0x20, 0x31, 0x32, 0x33]), [CRANE_LINES[2]]),
    (blocks(CRANE_PAGES[0], [0x20, 0x21, 0x32, 0x33]), [CRANE_LINES[0]]),
    (blocks(CRANE_PAGES[0], [0x30, 0x31, 0x32, 0x33]), ["page 4C01 0032 1/3 " + CRANE[0][:18]]),
    (blocks(CRANE_PAGES[1], [0x30, 0x31, 0x32, 0x33]),
     [CRANE_LINES[1], "message 4C01 0032, 3 pages: " + "".join(CRANE)]),
    # page 2 of a message is dropped by a page of another, which by its 00 is page 1 of 1
    (blocks(FERRY_PAGES[1], [0x30, 0x31, 0x32, 0x33]), ["page 4C02 8ABC 2/2 " + FERRY_HEX]),
    (blocks(SIREN_PAGE, [0x30, 0x31, 0x32, 0x33]),
     ["page 4C03 0032 0/0 Siren test", "message 4C03 0032, 1 page: Siren test"]),
    # so page 1 waits for page 2 again; a page over its total is refused and drops nothing
    (blocks(FERRY_PAGES[0], [0x30, 0x31, 0x32, 0x33]), ["page 4C02 8ABC 1/2 Ferry 10:15:"]),
    (blocks(BEYOND_PAGE, [0x30, 0x31, 0x32, 0x33]), ["page 4C02 8ABC 3/2 Ferry 11:15", "page refused by 50"]),
    (blocks(FERRY_PAGES[1], [0x30, 0x31, 0x32, 0x33]),
     ["page 4C02 8ABC 2/2 " + FERRY_HEX, "message 4C02 8ABC, 2 pages: Ferry 10:15:" + FERRY_HEX]),
    # a short tail, whatever it says
    (blocks(NOTHING, [0x20]) + [bytes([0x31, 0, 0])], ["piece P+1 refused by 2"]),
]


def main():
    log = b""
    lines = []
    for i, (pieces, said) in enumerate(SLOTS):
        log += b"".join(pieces)
        for line in said:
            for j in range(4):
                line = line.replace(f"P+{j} ", f"{4 * i + 1 + j} ")
            lines.append(line + "\n")
    folder = pathlib.Path(sys.argv[1])
    (folder / "board.in").write_bytes(log)
    (folder / "board.out").write_text("".join(lines))


main()
