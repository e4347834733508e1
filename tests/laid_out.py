"""Mach-O files laid out field by field (mach-o/loader.h, nlist.h, stab.h, reloc.h), for limits.py and rows.py."""

import struct

CPU = 0x0100000C
UUID = bytes.fromhex("00112233445566778899aabbccddeeff")
TEXT = ("__text", "__TEXT", 0x100003F50, 0x2A, b"", b"", 0x80000400)
N_GSYM, N_FUN, N_STSYM, N_OSO = 0x20, 0x24, 0x26, 0x66


def name16(text):
    return text.encode().ljust(16, b"\0")


def symbols(rows):
    """Symbols and their strings; a row is name, type, section, description, value."""
    table, strings = b"", b"\0"
    for name, kind, section, description, value in rows:
        place = 0
        if name:
            place, strings = len(strings), strings + name + b"\0"
        table += struct.pack("<IBBHQ", place, kind, section, description, value)
    return table, strings


def mach_o(filetype, segment, sections, rows, uuid=None):
    """A file of one segment. A section is its name, its segment, its address, its size, its bytes, relocations, flags."""
    table, strings = symbols(rows)
    commands = 1 + 1 + (uuid is not None)
    size = (24 if uuid else 0) + 72 + 80 * len(sections) + 24
    place = 32 + size
    bodies, records, tables = b"", b"", []
    for name, own, address, length, body, relocations, flags in sections:
        align = 4 if own == "__TEXT" and segment else 0
        records += name16(name) + name16(own) + struct.pack("<QQII", address, length, place + len(bodies) if body else 0, align)
        tables.append((len(records), relocations))
        records += struct.pack("<IIIIII", 0, len(relocations) // 8, flags, 0, 0, 0)
        bodies += body
    filled = len(bodies)
    behind = place + filled
    for at, relocations in tables:
        if relocations:
            records = records[:at] + struct.pack("<I", behind) + records[at + 4 :]
            bodies, behind = bodies + relocations, behind + len(relocations)
    out = struct.pack("<IIIIIIII", 0xFEEDFACF, CPU, 0, filetype, commands, size, 0, 0)
    if uuid:
        out += struct.pack("<II", 0x1B, 24) + uuid
    out += struct.pack("<II", 0x19, 72 + 80 * len(sections)) + name16(segment)
    out += struct.pack("<QQQQ", *((0x100000000, 0x4000, 0, 0) if segment else (0, 0x10000000, place, filled)))
    out += struct.pack("<IIII", 5, 5, len(sections), 0) + records
    out += struct.pack("<IIIIII", 2, 24, behind, len(rows), behind + len(table), len(strings))
    return out + bodies + table + strings


def program_file(rows):
    """A linked program with these symbols, stabs among them."""
    return mach_o(2, "__TEXT", [TEXT], rows, UUID)


def object_file(code, debug, functions):
    """An object with so many bytes of code, debug sections (a name, bytes, relocations) and symbols (a name, a place)."""
    sections = [("__text", "__TEXT", 0, code, bytes(code), b"", 0x80000400)]
    address = 0x1000
    for name, body, relocations in debug:
        sections.append((name, "__DWARF", address, len(body), body, relocations, 0x02000000))
        address += 0x1000000
    return mach_o(1, "", sections, [(name, 0x0F, 1, 0, at) for name, at in functions])


def relocation(place):
    """Eight bytes at a place, of section 1."""
    return struct.pack("<II", place, 1 | 3 << 25)
