"""Pages, blocks and plan files as document 01 lays them out, for the scripts that write the examples' files."""

# The characters of the examples whose septets aren't their ASCII codes.
SEPTETS = {"@": 0x00, "£": 0x01, "_": 0x11}


def packed(text):
    """93 septets, low bits first, with CR after the text."""
    septets = [SEPTETS.get(character, ord(character)) for character in text]
    bits = 0
    for i, septet in enumerate(septets + [0x0D] * (93 - len(septets))):
        bits |= septet << 7 * i
    return bits.to_bytes(82, "little")


def two(number):
    return bytes([number >> 8, number & 0xFF])


def page(serial, identifier, parameter, content, scheme=0x00):
    """88 octets: header and content, filled with 2B."""
    return (two(serial) + two(identifier) + bytes([scheme, parameter]) + content).ljust(88, b"\x2B")


def blocks(message, types):
    """The blocks of a message under their type octets, one after the other from its first octet on."""
    return [bytes([t]) + message[22 * i:22 * i + 22] for i, t in enumerate(types)]


def plan(entries):
    return b"CBP" + two(1) + bytes([len(entries)]) + b"".join(entries)


def entry(serial, identifier, parameter):
    """A plan's slot that is a page."""
    return bytes([2]) + two(serial) + two(identifier) + bytes([parameter])
