#!/usr/bin/env python3
"""Makes the plan files and logs that tests/programs runs on, from documents 01 and 02 and by no code of the crates: make.py FOLDER."""
import os
import sys

from printed import ALPHABET, ESCAPE, EXTENSION, listed, shown, taken_in

OPTIONAL, ADVISED = (0, 0, 0, 0), (1, 0, 0, 0)


def page(serial, identifier, parameter=0x11):
    return (2, serial, identifier, parameter)


def plan_file(slots, mark=b"CBP", version=1, count=None):
    octets = mark + version.to_bytes(2, "big") + bytes([len(slots) if count is None else count])
    for kind, serial, identifier, parameter in slots:
        octets += bytes([kind]) + serial.to_bytes(2, "big") + identifier.to_bytes(2, "big") + bytes([parameter])
    return octets


def with_entries(slots, entries):
    """A plan file in which some entries, by their numbers from 1, stand in the place of the plan's own."""
    return plan_file([entries.get(i + 1, slot) for i, slot in enumerate(slots)])


def told(current, previous):
    """The new bit and the description's octets of each slot, as planned."""
    slots = []
    for i, slot in enumerate(current):
        kind, _, identifier, _ = slot
        if kind == 0:
            slots.append((0, b"\x40"))
        elif kind == 1:
            slots.append((1, b"\x41"))
        else:
            lowest = current.index(slot)
            new = 0 if slot in previous else 1
            low = identifier % 0x8000
            slots.append((new, bytes([0x80 + low // 256, low % 256]) if lowest == i else bytes([lowest + 1])))
    return slots


def message(begin, slots, end=None):
    """The 88 octets of a schedule message, and how many of them are used."""
    bits = 0
    for i, (new, _) in enumerate(slots):
        bits |= new << (47 - i)
    octets = bytes([begin, len(slots) if end is None else end]) + bits.to_bytes(6, "big")
    for group in (1, 0):
        octets += b"".join(description for new, description in slots if new == group)
    return octets + b"\x2b" * (88 - len(octets)), len(octets)


def blocks(octets, used, first=8):
    """Four blocks; those after the last used one are sent too."""
    last = (used + 21) // 22
    codes = [first, 1, 2, 3]
    return b"".join(
        bytes([0x20 + (0x10 if i + 1 >= last else 0) + codes[i]]) + octets[22 * i:22 * i + 22] for i in range(4))


TWO = [page(0x0010, 0x8001), page(0x0010, 0x8001)]
FIVE = [page(0x0010, 0x1111), ADVISED, page(0x0020, 0x2222), page(0x0010, 0x1111), OPTIONAL]
TEN = FIVE + FIVE
BEFORE = [page(0x0020, 0x2222)]
LONG = [page(i, 0x4000 + i) for i in range(33)] + [page(0, 0x4000)] * 15
FULL = [page(i, 0x4000 + i) for i in range(32)] + [page(0, 0x4000)] * 16


def log():
    """Schedule messages for FIVE after BEFORE, with other blocks between them."""
    good = told(FIVE, BEFORE)
    parts = [blocks(*message(1, good))]
    parts.append(blocks(b"\x00" * 88, 88, first=0))
    # slot 4 is told as a repeat of slot 3
    parts.append(blocks(*message(1, good[:3] + [(1, b"\x03")] + good[4:])))
    # End is 4
    parts.append(blocks(*message(1, good[:4])))
    # slot 3 has its new bit set
    parts.append(blocks(*message(1, good[:2] + [(1, good[2][1])] + good[3:])))
    # slot 4 is told as a repeat of slot 2, which is advised
    parts.append(blocks(*message(1, good[:3] + [(1, b"\x02")] + good[4:])))
    # type 01
    octets, used = message(1, good)
    parts.append(blocks(b"\x41" + octets[1:], used))
    # Begin 0
    parts.append(blocks(*message(0, good)))
    # a new bit past End
    parts.append(blocks(octets[:2] + bytes([octets[2] | 0x01]) + octets[3:], used))
    # descriptions of which only 22 octets are received
    octets, used = message(1, told(FULL, []))
    parts.append(blocks(octets, 22))
    # a null block loses the message begun before it
    octets, used = message(1, told(FULL, []))
    parts.append(blocks(octets, used)[:46] + b"\x2f" + b"\x00" * 22 + blocks(octets, used)[46:])
    parts.append(blocks(octets, used))
    parts.append(b"\x28" + octets[:10])
    return b"".join(parts)


PAIRS = {character: septet for septet, character in EXTENSION.items()}


def septets_of(text):
    """The septets of a text: one for each character, or 1B and one more."""
    septets = []
    for character in text:
        if character in PAIRS:
            septets += [ESCAPE, PAIRS[character]]
        else:
            # a space is 20, not 1B
            septets.append(ALPHABET.index(character, 0x20 if character == " " else 0))
    return septets


def packed(septets):
    """A page's content: 93 septets, those of the text and then CRs."""
    bits = 0
    for i, septet in enumerate(septets + [0x0D] * (93 - len(septets))):
        bits |= septet << 7 * i
    return bits.to_bytes(82, "little")


NULL = b"\x2f" + b"\x00" * 22
RESERVED = b"\x2c" + b"\xff" * 22
# null, reserved, another discriminator, and a second block with no first
OTHERS = NULL + RESERVED + b"\x48" + b"\x00" * 22 + b"\x21" + b"\x00" * 22
SENTENCES = [
    "Track {} is closed",
    "Ramp {}: wagons leave by yard B, fee £5 @ gate_2",
    "Ça va? ¡Mañana!\nΩ-gate {}\r\nover there, ΔΦ ß",
    "Kapu {}: " + "ÄÖÜ " * 20,
    "",
    "Bay [{}] \\ yard ~3|4^: 12€ {{net}}\fover]",
]
# septets that no writer of ours sends: 1B twice, before a septet that is not listed, before CR, and as the last one
ODD = [0x1B, 0x1B, 0x3C, 0x1B, 0x41, 0x0D, 0x1B, 0x0D]


def sent(i, septets, used):
    """The four blocks of page i."""
    scheme = 0x11 if i % 7 == 1 else i % 16
    octets = (0x4000 + i).to_bytes(2, "big") + (0xF000 ^ 31 * i).to_bytes(2, "big") + bytes([scheme, 0x11 + i % 3]) + packed(septets)
    return blocks(octets, used, first=0)


def pages_log():
    """Pages in fours of blocks behind two pieces, so that one lies across each border of a chunk of 1,024; then a tail."""
    parts = [NULL, RESERVED]
    for i in range(537):
        septets = septets_of(SENTENCES[i % len(SENTENCES)].format(i))
        # now and then septets as no writer of ours sends them
        if i % 11 == 10:
            septets = septets[:9] + ODD[i // 11 % 4:] + [0x1B] * (i % 2)
        # the two pages that lie across a border use all four blocks
        used = 88 if i in (255, 511) else 6 + (7 * len(septets) + 7) // 8
        parts.append(OTHERS if i % 20 == 19 and i not in (255, 511) else sent(i, septets, used))
    parts.append(b"\x20" + b"\x00" * 8)
    return b"".join(parts)


def zero_log():
    """A page with parameter 00, in one block."""
    return blocks(bytes([0x00, 0x10, 0x80, 0x01, 0x00, 0x00]) + packed(septets_of("Gate 3")), 12, first=0)


def chunk_log():
    """A whole chunk of 1,024 pieces and nothing behind it: its last piece ends a schedule message for FULL."""
    return OTHERS * 255 + blocks(*message(48, told(FULL, [])))


def chunks_log():
    """Two whole chunks and nothing behind them: a page starts at the border, and the last piece ends another."""
    return chunk_log() + sent(3, septets_of("Gate 1025"), 88) + OTHERS * 254 + sent(4, septets_of("Gate 2048"), 88)


def true_in(log):
    """What cbcheck prints for a log of true schedule messages."""
    return "".join(f"{number} 0 0 true\n" for number, answer, _, _ in taken_in(log) if answer == 7).encode()


def schedules():
    """The messages of a log for FULL with no plan before it, each with what refuses it, the slot, and the words."""
    good = told(FULL, [])
    octets, used = message(48, good)
    true = (blocks(octets, used), 0, 0, "true")
    kinds = [
        true,
        # slot 40 is told as a repeat of slot 2
        (blocks(*message(1, good[:39] + [(1, b"\x02")] + good[40:])), 40, 40, "slot 40: no repeat of its first slot, nor advised or optional"),
        # the new bit of slot 33 is 0: its description, a repeat of slot 1, stands last
        (blocks(*message(1, good[:32] + [(0, good[32][1])] + good[33:])), 40, 33, "slot 33: its new bit is wrong"),
        # a message of 47 slots
        (blocks(*message(7, good[:47])), 40, 0, "End is not the plan's number of slots"),
        # type 01
        (blocks(b"\x41" + octets[1:], used), 20, 0, "the message's type is not 00"),
        # slot 48 is told as a repeat of itself
        (blocks(*message(1, good[:47] + [(1, b"\x30")])), 24, 0, "a repeat names no first transmission before it"),
    ]
    # one of the messages across a border is true, the other not
    return [true if i == 255 else kinds[1] if i == 511 else kinds[i % 6] for i in range(537)]


def schedules_log():
    return NULL + RESERVED + b"".join(OTHERS if i in (100, 300) else octets for i, (octets, _, _, _) in enumerate(schedules())) + b"\x28"


def checked():
    """What cbcheck prints for it: the messages are known, and the intake tells the blocks that complete them."""
    known = [words for i, (_, *words) in enumerate(schedules()) if i not in (100, 300)]
    complete = [number for number, answer, _, _ in taken_in(schedules_log()) if answer == 7]
    assert len(known) == len(complete)
    return "".join(f"{number} {why} {slot} {words}\n" for number, (why, slot, words) in zip(complete, known)).encode()


FILES = {
    "two.plan": plan_file(TWO),
    "five.plan": plan_file(FIVE),
    "before.plan": plan_file(BEFORE),
    "none.plan": plan_file([]),
    "full.plan": plan_file(FULL),
    "needs81.plan": plan_file(LONG),
    "short.plan": b"CBP\x00\x01",
    "mark.plan": plan_file(TWO, mark=b"CBQ"),
    "version.plan": plan_file(TWO, version=2),
    "count49.plan": plan_file([OPTIONAL] * 49),
    "long.plan": plan_file([OPTIONAL] * 48) + b"\x00",
    "longer.plan": plan_file([OPTIONAL] * 48) + b"\x00" * 5000,
    "kind3.plan": plan_file([(3, 0, 0, 0)]),
    "set.plan": plan_file([(1, 0, 0, 1)]),
    # document 02, No. 1: an unknown kind, with and without octets of a page, and octets of a page in slots that have none
    "kind9.plan": with_entries(TEN, {7: (9, 0x0010, 0x1111, 0x11)}),
    "kind255.plan": with_entries(FULL, {48: (255, 0, 0, 0)}),
    "set-optional.plan": with_entries(TEN, {7: (0, 0x0010, 0x1111, 0x11)}),
    "set-advised.plan": with_entries(TEN, {7: (1, 0x0100, 0, 0)}),
    "set48.plan": with_entries(FULL, {48: (0, 0, 0, 0x80)}),
    # two such entries, of which the lower is named
    "kind-set.plan": with_entries(TEN, {4: (4, 0, 0, 0), 7: (0, 0, 0x0001, 0)}),
    "set-kind.plan": with_entries(TEN, {4: (1, 0, 0x0100, 0), 7: (4, 0, 0, 0)}),
    # and what comes before such an entry
    "kind9-long.plan": with_entries(TEN, {7: (9, 0, 0, 0)}) + b"\x00",
    # document 02, No. 2: a zero in the page parameter is page 1 of 1, so the plan is that of two.plan
    "zero.plan": plan_file([page(0x0010, 0x8001, 0x00), page(0x0010, 0x8001, 0x11)]),
    # and a page 2 of 1, which is another
    "other.plan": plan_file([page(0x0010, 0x8001, 0x21)]),
    # a page with the zero, which is shown as it was sent
    "zero.log": zero_log(),
    "log": log(),
    "log.list": listed(log()),
    # the log's whole pieces: what is listed where a read fails behind its last octet
    "log.broken": listed(log()[:len(log()) // 23 * 23]),
    "empty": b"",
    "two.blocks": blocks(*message(1, told(TWO, []))),
    "two-again.blocks": blocks(*message(2, told(TWO, TWO))),
    "five.blocks": blocks(*message(3, told(FIVE, BEFORE))),
    "full.blocks": blocks(*message(48, told(FULL, []))),
    "pages.log": pages_log(),
    "pages.list": listed(pages_log()),
    "pages.text": shown(pages_log()),
    "schedules.log": schedules_log(),
    "schedules.list": listed(schedules_log()),
    "schedules.check": checked(),
    "chunk.log": chunk_log(),
    "chunk.list": listed(chunk_log()),
    "chunk.check": true_in(chunk_log()),
    "chunks.log": chunks_log(),
    "chunks.text": shown(chunks_log()),
}

if __name__ == "__main__":
    for name, octets in FILES.items():
        with open(os.path.join(sys.argv[1], name), "wb") as f:
            f.write(octets)
