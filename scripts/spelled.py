"""Spells numbers, declarations and units, little-endian and of 32-bit DWARF (sections 7.5 and 7.6 of the DWARF 5
standard)."""


def uleb(value):
    out = bytearray()
    while True:
        out.append(value & 0x7F | (0x80 if value > 0x7F else 0))
        value >>= 7
        if not value:
            return bytes(out)


def declaration(code, tag, children, pairs):
    spelled = b"".join(uleb(name) + uleb(form) for name, form in pairs)
    return uleb(code) + uleb(tag) + bytes([children]) + spelled + b"\0\0"


def four(number):
    return number.to_bytes(4, "little")


def unit(body, table=0, head=b"\x01\x08"):
    """A unit whose unit type and address size are told, behind its version."""
    rest = b"\x05\0" + head + four(table) + body
    return four(len(rest)) + rest
