"""What cblist and cbtext print for a log, from documents 01 and 02 and by no code of the crates."""

START = (0, 0, b"")

# 03.38, sixteen to a line; 1B reads as a space, and the eleventh and fourteenth are LF and CR.
ALPHABET = (
    "@£$¥èéùìòÇ\nØø\rÅå"
    "Δ_ΦΓΛΩΠΨΣΘΞ ÆæßÉ"
    " !\"#¤%&'()*+,-./"
    "0123456789:;<=>?"
    "¡ABCDEFGHIJKLMNO"
    "PQRSTUVWXYZÄÖÑÜ§"
    "¿abcdefghijklmno"
    "pqrstuvwxyzäöñüà")

# 02 No. 5: the septets after 1B that the extension table lists
ESCAPE = 0x1B
EXTENSION = {
    0x0A: "\f", 0x14: "^", 0x28: "{", 0x29: "}", 0x2F: "\\", 0x3C: "[", 0x3D: "~", 0x3E: "]", 0x40: "|", 0x65: "€"}

# how a character that would break a line, or be taken for such a mark, stands in one
MARKS = {"\n": "\\n", "\f": "\\f", "\r": "\\r", "\\": "\\\\"}


def step(state, piece):
    """The answer to a piece, the octets received, the message where one is complete, and the state behind it."""
    kind, taken, content = state
    if len(piece) != 23:
        return 2, 0, b"", START
    first = piece[0]
    if first >> 5 & 3 != 1:
        return 3, 0, b"", START
    code = first & 15
    if code == 15:
        return 5, 0, b"", START
    if 4 <= code <= 7 or 9 <= code <= 14:
        return 4, 0, b"", START
    if code in (0, 8):
        kind, taken, content = (2 if code == 8 else 1), 1, piece[1:]
    elif kind != 0 and code == taken:
        taken, content = taken + 1, content + piece[1:]
    else:
        return 6, 0, b"", START
    if first >> 4 & 1 or taken == 4:
        return (7 if kind == 2 else 0), 22 * taken, content, START
    return 1, 0, b"", (kind, taken, content)


def taken_in(log):
    """The answers to the pieces of a log, each with its number."""
    state, answers = START, []
    for i in range(0, len(log), 23):
        answer, received, content, state = step(state, log[i:i + 23])
        answers.append((len(answers) + 1, answer, received, content))
    return answers


def listed(log):
    """What cblist prints."""
    lines = [f"{number} {answer} {received}\n" for number, answer, received, _ in taken_in(log)]
    return "".join(["block answer octets\n"] + lines).encode()


def septets(octets):
    """The whole septets in packed octets."""
    bits = int.from_bytes(octets, "little")
    return [bits >> 7 * i & 0x7F for i in range(8 * len(octets) // 7)]


def text_of(received):
    """The text of some septets: 1B and the septet after it are one character, and unescaped CRs at the end are dropped."""
    characters, rest = [], list(received)
    while rest:
        septet = rest.pop(0)
        if septet != ESCAPE:
            characters.append((ALPHABET[septet], False))
        elif rest:
            after = rest.pop(0)
            characters.append((EXTENSION.get(after, ALPHABET[after]), True))
        else:
            characters.append((" ", False))
    while characters and characters[-1] == ("\r", False):
        characters.pop()
    return "".join(character for character, _ in characters)


def shown(log):
    """What cbtext prints."""
    lines = []
    for number, answer, _, page in taken_in(log):
        if answer == 0:
            body = "hex " + page[6:].hex().upper()
            if page[4] <= 0x0F:
                body = "text " + "".join(MARKS.get(character, character) for character in text_of(septets(page[6:])))
            lines.append(f"{number} {page[:2].hex().upper()} {page[2:4].hex().upper()} {page[5] >> 4}/{page[5] & 15} {body}\n")
    return "".join(lines).encode()
