#!/usr/bin/env python3
"""Links programs whose answers were worked out by hand: see rows.sh, which calls this.

    rows.py PROGRAM
"""

import os
import shutil
import struct
import subprocess
import sys
import tempfile

from laid_out import CPU, N_FUN, N_OSO, N_STSYM, TEXT, UUID, name16, object_file, program_file, relocation, symbols

LINKED = TEXT[2]


def u16(n):
    return struct.pack("<H", n)


def u32(n):
    return struct.pack("<I", n)


def u64(n):
    return struct.pack("<Q", n)


def sized(body):
    """What follows a length of four bytes, with it."""
    return u32(len(body)) + body


# Entries


class Label:
    """The place where the next entry begins."""

    def __init__(self, name):
        self.name = name


class Led:
    """A reference of four bytes to a label: in its unit, or in the section."""

    def __init__(self, name, section=False):
        self.name, self.section = name, section


class Moves:
    """An address of eight bytes with a relocation."""

    def __init__(self, value):
        self.value = value


def info(units):
    """__debug_info, and its relocations. A unit is its version, its abbreviations' place and its parts, one after the other."""
    out, labels, led, relocations = b"", {}, [], b""
    for version, abbreviations, parts in units:
        start = len(out)
        out += bytes(4) + u16(version)
        out += u32(abbreviations) + b"\x08" if version == 4 else b"\x01\x08" + u32(abbreviations)
        for part in parts:
            if isinstance(part, Label):
                labels[part.name] = len(out)
            elif isinstance(part, Led):
                led.append((len(out), part.name, 0 if part.section else start))
                out += bytes(4)
            elif isinstance(part, Moves):
                relocations += relocation(len(out))
                out += u64(part.value)
            else:
                out += part
        out = out[:start] + u32(len(out) - start - 4) + out[start + 4 :]
    for at, name, base in led:
        out = out[:at] + u32(labels[name] - base) + out[at + 4 :]
    return out, relocations


def abbreviations(*rows):
    """One table: a row is a tag, whether there are children, and attributes with their forms, in hexadecimal."""
    out = b""
    for code, row in enumerate(rows):
        tag, children, pairs = row
        out += bytes([code + 1]) + bytes.fromhex(tag) + bytes([children]) + bytes.fromhex(pairs) + bytes(2)
    return out + b"\0"


def texts(*rows):
    """__debug_str of these texts, and the place of each."""
    out, places = b"", {}
    for text in rows:
        places[text] = u32(len(out))
        out += text.encode() + b"\0"
    return out, places


# What is written


def image(rows, sections):
    """The image of a bundle of a program with these symbols, which aren't stabs, and these sections."""
    table, strings = symbols(rows)
    sections = [(name, body) for name, body in sections if body]
    text = name16("__text") + name16("__TEXT") + struct.pack("<QQIIIIIIII", TEXT[2], TEXT[3], 0, 4, 0, 0, TEXT[6], 0, 0, 0)
    size = 24 + 24 + 152 + 72 + 80 * len(sections)
    start = (32 + size + len(table) + len(strings) + 0xFFF) // 0x1000 * 0x1000
    place, records = start, b""
    for name, body in sections:
        at = 0x100004000 + place - start
        records += name16(name) + name16("__DWARF") + struct.pack("<QQIIIIIIII", at, len(body), place, 0, 0, 0, 0x02000000, 0, 0, 0)
        place += len(body)
    filled = place - start
    out = struct.pack("<IIIIIIII", 0xFEEDFACF, CPU, 0, 10, 4, size, 0, 0)
    out += struct.pack("<II", 0x1B, 24) + UUID
    out += struct.pack("<IIIIII", 2, 24, 32 + size, len(rows), 32 + size + len(table), len(strings))
    out += struct.pack("<II", 0x19, 152) + name16("__TEXT") + struct.pack("<QQQQIIII", 0x100000000, 0x4000, 0, 0, 5, 5, 1, 0) + text
    out += struct.pack("<II", 0x19, 72 + 80 * len(sections)) + name16("__DWARF")
    out += struct.pack("<QQQQIIII", 0x100004000, (filled + 0xFFF) // 0x1000 * 0x1000, start, filled, 7, 3, len(sections), 0)
    out += records + table + strings
    return out.ljust(start, b"\0") + b"".join(body for _, body in sections)


def ranges_of(spans):
    """Ranges of version 4."""
    return b"".join(u64(low) + u64(high) for low, high in spans) + bytes(16)


def aranges(unit, spans):
    """The addresses of a unit at a place."""
    return sized(u16(2) + u32(unit) + b"\x08\0" + bytes(4) + b"".join(u64(low) + u64(high - low) for low, high in spans) + bytes(16))


def rnglists(spans):
    """The range list of one unit of version 5, and the table's header before it."""
    items = b"".join(b"\x06" + u64(low) + u64(high) for low, high in spans)
    return sized(u16(5) + b"\x08\0" + bytes(4) + items + b"\0")


COUNTS = bytes([0, 1, 1, 1, 1, 0, 0, 0, 1, 0, 0, 1])


def lines(dirs, files):
    """A line table of version 4 without sequences. A file is a name and a directory."""
    names = b"".join(text.encode() + b"\0" for text in dirs) + b"\0"
    names += b"".join(text.encode() + bytes([0, folder, 0, 0]) for text, folder in files) + b"\0"
    return sized(u16(4) + sized(b"\x01\x01\x01\xfb\x0e\x0d" + COUNTS + names))


# Programs


def program(objects, symbols=()):
    """Each object has a path and functions, of a name and a size, which are linked one behind the other from LINKED on."""
    rows, address, names = [], LINKED, []
    for path, functions in objects:
        rows.append((path, N_OSO, 0, 1, 0))
        for name, size in functions:
            rows += [(name, N_FUN, 1, 0, address), (b"", N_FUN, 0, 0, size)]
            names.append((name, 0x0F, 1, 0, address))
            address += size
    return program_file(rows + names + list(symbols)), names + list(symbols)


def cpp_object(name, table, parts, line=b"", functions=((b"_f", 0),)):
    """An object with a unit of version 4, and texts in its entries."""
    body, relocations = info([(4, 0, parts)])
    debug = [("__debug_abbrev", table, b""), ("__debug_info", body, relocations)]
    if line:
        debug.append(("__debug_line", line, b""))
    return object_file(0x100, debug, list(functions))


# A unit of C++ with a name; a function with low_pc, high_pc, name and type; a type with name and size; and others
UNIT = ("11", 1, "03 08 13 05")
LINES_UNIT = ("11", 1, "03 08 13 05 10 17")
FUNCTION = ("2e", 0, "11 01 12 06 03 08 49 13")
STRUCTURE = ("13", 0, "03 08 0b 0b")
DECLARED = ("13", 0, "03 08 3c 19")
FILED = ("13", 0, "03 08 0b 0b 3a 0b")
POINTER = ("0f", 0, "49 13")
INT = ("24", 0, "03 08 0b 0b 3e 0b")
# what is written of them
UNIT_OUT = ("11", 1, "03 0e 13 05 11 01 55 17")
LINES_UNIT_OUT = ("11", 1, "03 0e 13 05 10 17 11 01 55 17")
FUNCTION_OUT = ("2e", 0, "11 01 12 06 03 0e 49 13")
POOLED_FUNCTION_OUT = ("2e", 0, "11 01 12 06 03 0e 49 10")
STRUCTURE_OUT = ("13", 0, "03 0e 0b 0b")
POOL = "__artificial_type_unit"
POOL_UNIT = ("11", 1, "03 0e 13 05 10 17")
CPP, C = u16(4), u16(12)


def unit_of(name, language=CPP):
    """The root of an object's unit."""
    return b"\x01" + name + b"\0" + language


def function_of(name, size, kind="f", code=2, place=0):
    """A function at a place of the object, whose type is the entry at a label."""
    return [bytes([code]), Moves(place), u32(size) + name + b"\0", Led(kind)]


def sections_of(names, tables, units, spans, line=b""):
    """The sections of these units, each of a table of abbreviations and of what gives its version and parts, with its spans.

    A unit's parts are given by where texts stand, the place of its ranges, and that of its line table.
    """
    out, at = texts(*names)
    laid, place, ranges = [], 0, 0
    for table, unit, own in zip(tables, units, spans):
        laid.append((4, place, unit(at, u32(ranges))))
        place += len(table)
        ranges += len(ranges_of(own)) if own else 0
    body, _ = info(laid)
    starts, start = [], 0
    while start < len(body):
        starts.append(start)
        start += 4 + struct.unpack_from("<I", body, start)[0]
    return [
        ("__debug_abbrev", b"".join(tables)),
        ("__debug_info", body),
        ("__debug_str", out),
        ("__debug_line", line),
        ("__debug_ranges", b"".join(ranges_of(own) for own in spans if own)),
        ("__debug_aranges", b"".join(aranges(unit, own) for unit, own in zip(starts, spans) if own)),
    ]


def pool_unit(*parts):
    """The unit of merged entries: its root has the first line table."""
    return lambda at, ranges: [b"\x01" + at[POOL] + CPP + u32(0)] + [part(at) if callable(part) else part for part in parts] + [b"\0"]


def root(name, at, ranges, language=CPP, table=b""):
    """The root of an output unit, with its line table if it has one."""
    return b"\x01" + at[name] + language + table + bytes(8) + ranges


def linked_function(name, k, size, at, kind, merged=True, code=2):
    """The function that is linked behind k of 16 bytes each, with its type."""
    return [bytes([code]) + u64(LINKED + 16 * k) + u32(size) + at[name], Led(kind, merged)]


def span(k):
    return LINKED + 16 * k, LINKED + 16 * k + 16


PLIST = """<?xml version="1.0" encoding="UTF-8"?>
<!DOCTYPE plist PUBLIC "-//Apple Computer//DTD PLIST 1.0//EN" "http://www.apple.com/DTDs/PropertyList-1.0.dtd">
<plist version="1.0">
\t<dict>
\t\t<key>CFBundleDevelopmentRegion</key>
\t\t<string>English</string>
\t\t<key>CFBundleIdentifier</key>
\t\t<string>com.apple.xcode.dsym.%s</string>
\t\t<key>CFBundleInfoDictionaryVersion</key>
\t\t<string>6.0</string>
\t\t<key>CFBundlePackageType</key>
\t\t<string>dSYM</string>
\t\t<key>CFBundleSignature</key>
\t\t<string>????</string>
\t\t<key>CFBundleShortVersionString</key>
\t\t<string>1.0</string>
\t\t<key>CFBundleVersion</key>
\t\t<string>1</string>
\t</dict>
</plist>
"""


# What is tried


def tells(name, files, words, status, message):
    """A case that writes no file."""
    return name, files, words, status, message, {}


def links(name, files, words, rows, sections, message=b"", exe="a.out", plist="a.out"):
    """A case that writes a bundle, whose image has these symbols and sections."""
    out = "%s.dSYM/Contents/" % exe
    written = {out + "Info.plist": (PLIST % plist).encode(), out + "Resources/DWARF/" + exe: image(rows, sections)}
    return name, files, words + [exe], 0, message, written


def one_function(k):
    """An object with an int and a function of that type, and its path and function in a program."""
    parts = [unit_of(b"%d.cc" % k)] + function_of(b"f%d" % k, 16) + [Label("f"), b"\x03int\0\x04\x05", b"\0"]
    return cpp_object("%d.o" % k, abbreviations(UNIT, FUNCTION, INT), parts, functions=[(b"_f%d" % k, 0)])


def objects(count):
    """A program of so many objects, each with a function of 16 bytes."""
    return program([(b"%d.o" % k, [(b"_f%d" % k, 16)]) for k in range(1, count + 1)])


def plain_cases():
    rows = [(b"_main", 0x0F, 1, 0, LINKED)]
    yield links("a program without stabs", {"a.out": program_file(rows)}, [], rows, [])
    outside = [(b"_main", N_FUN, 1, 0, LINKED), (b"", N_FUN, 0, 0, 42)]
    yield links("stabs outside of an object", {"a.out": program_file(outside + rows)}, [], rows, [])
    yield links("a name that isn't plain in XML", {"a&b": program_file(rows)}, [], rows, [], exe="a&b", plist="a&amp;b")
    whole = program_file(rows)
    cut = b"dsymlink: faulty: a.out: Truncated in header at 0\n"
    yield tells("a program of 31 bytes", {"a.out": whole[:31]}, ["a.out"], 4, cut)
    yield tells("an empty program", {"a.out": b""}, ["a.out"], 4, cut)
    two = {"a.out": objects(2)[0], "1.o": one_function(1)[:31]}
    first = b"dsymlink: faulty: 1.o: Truncated in header at 0\n"
    yield tells("the second object is missing, the first is damaged", two, ["a.out"], 2, b"dsymlink: missing: 2.o\n")
    let_go = b"dsymlink: warning: missing: 2.o\n" + first
    yield tells("the same with missing files let go", two, ["--keep-going", "a.out"], 4, let_go)
    five = {"a.out": objects(5)[0]}
    for k in range(1, 6):
        five["%d.o" % k] = one_function(k)[: 31 if k in (2, 4) else None]
    for _ in range(10):
        second = b"dsymlink: faulty: 2.o: Truncated in header at 0\n"
        yield tells("the second and the fourth of five are damaged", five, ["-j", "8", "a.out"], 4, second)
    for threads in ("1", "2", "16"):
        counts = b"objects 400\nentries 721200\nlive 541200\npooled 420400\nnames 14001\nnodes 134802\nbytes %d\n" % generated(400)
        yield tells("the generated program of 400 objects", {}, ["-j", threads, "--generate", "400", "g"], 0, counts)


def generated(count):
    """How long the image of the generated program is: its structures, of which there are 1,000 from 400 objects on."""
    kinds = {(37 * i + 11 * j) % 1000 for i in range(1, count + 1) for j in range(100) if j % 4 != 3}
    live = [(i, j) for i in range(1, count + 1) for j in range(100) if j % 4 != 3]
    names = [POOL, "gen", "f", "g", "int", "a", "b", "c"] + ["m%d" % k for k in range(8)]
    names += ["S%d" % t for t in kinds] + ["_ZN3gen1gE%d" % t for t in kinds]
    names += ["%d.cc" % i for i in range(1, count + 1)] + ["f%d_%d" % one for one in live]
    # root; namespace; structure; member; f; its parameter; g; pointer
    pool = [("11", 1, "03 0e 13 05 10 17"), ("39", 1, "03 0e"), ("13", 1, "03 0e 0b 0b"), ("0d", 0, "03 0e 49 10 38 0b")]
    pool += [("2e", 1, "03 0e 3c 19"), ("05", 0, "49 13 34 19"), ("2e", 1, "03 0e 6e 0e 3c 19"), ("0f", 0, "49 13")]
    unit = [UNIT_OUT, ("24", 0, "03 0e 0b 0b 3e 0b"), ("2e", 1, "03 0e 11 01 12 06"), ("34", 0, "03 0e 49 10 02 18")]
    structure = 1 + 4 + 1 + 8 * (1 + 4 + 4 + 1) + (1 + 4) + (1 + 4) + 1 + (1 + 4 + 4) + (1 + 4) + 1 + 1
    entries = 11 + (1 + 4 + 2 + 4) + (1 + 4) + len(kinds) * structure + 1 + len(kinds) * (1 + 4) + 1
    function = 1 + 4 + 8 + 4 + 3 * (1 + 4 + 4 + 1 + 2) + 1
    each = 11 + (1 + 4 + 2 + 8 + 4) + (1 + 4 + 1 + 1) + 75 * function + 1
    size = len(abbreviations(*pool)) + count * len(abbreviations(*unit)) + entries + count * each
    size += sum(len(name) + 1 for name in names) + len(lines([], []))
    size += count * (len(ranges_of([(0, 0)] * 75)) + len(aranges(0, [(0, 0)] * 75)))
    return 0x1000 + size


def merged_cases():
    rows = objects(3)
    table = abbreviations(UNIT, FUNCTION, STRUCTURE, INT)
    dead = [unit_of(b"1.cc")] + function_of(b"f1", 16) + [b"\x03A\0\x04", Label("f"), b"\x04int\0\x04\x05", b"\0"]
    files = {"a.out": rows[0], "1.o": cpp_object("1.o", table, dead, functions=[(b"_f1", 0)])}
    for k in (2, 3):
        parts = [unit_of(b"%d.cc" % k)] + function_of(b"f%d" % k, 16) + [Label("f"), b"\x03A\0" + bytes([4 << k - 1]), b"\0"]
        files["%d.o" % k] = cpp_object("%d.o" % k, table, parts, functions=[(b"_f%d" % k, 0)])
    tables = [abbreviations(POOL_UNIT, STRUCTURE_OUT), abbreviations(UNIT_OUT, FUNCTION_OUT, ("24", 0, "03 0e 0b 0b 3e 0b"))]
    tables += [abbreviations(UNIT_OUT, POOLED_FUNCTION_OUT)] * 2
    units = [pool_unit(Label("A"), lambda at: b"\x02" + at["A"] + b"\x08")]
    units.append(
        lambda at, ranges: [root("1.cc", at, ranges)]
        + linked_function("f1", 0, 16, at, "int", False)
        + [Label("int"), b"\x03" + at["int"] + b"\x04\x05", b"\0"]
    )
    for k in (2, 3):
        units.append(lambda at, ranges, k=k: [root("%d.cc" % k, at, ranges)] + linked_function("f%d" % k, k - 1, 16, at, "A") + [b"\0"])
    names = [POOL, "A", "1.cc", "f1", "int", "2.cc", "f2", "3.cc", "f3"]
    spans = [[], [span(0)], [span(1)], [span(2)]]
    sections = sections_of(names, tables, units, spans, lines([], []))
    yield links("a type that is dead in the first of three objects", files, [], rows[1], sections)

    rows = objects(2)
    declared = [unit_of(b"1.cc")] + function_of(b"f1", 16) + [Label("f"), b"\x03A\0", b"\0"]
    parts = [unit_of(b"2.cc")] + function_of(b"f2", 16) + [Label("f"), b"\x03A\0\x08", b"\0"]
    files = {
        "a.out": rows[0],
        "1.o": cpp_object("1.o", abbreviations(UNIT, FUNCTION, DECLARED), declared, functions=[(b"_f1", 0)]),
        "2.o": cpp_object("2.o", table, parts, functions=[(b"_f2", 0)]),
    }
    tables = [abbreviations(POOL_UNIT, STRUCTURE_OUT)] + [abbreviations(UNIT_OUT, POOLED_FUNCTION_OUT)] * 2
    units = [pool_unit(Label("A"), lambda at: b"\x02" + at["A"] + b"\x08")]
    for k in (1, 2):
        units.append(lambda at, ranges, k=k: [root("%d.cc" % k, at, ranges)] + linked_function("f%d" % k, k - 1, 16, at, "A") + [b"\0"])
    names = [POOL, "A", "1.cc", "f1", "2.cc", "f2"]
    sections = sections_of(names, tables, units, [[], [span(0)], [span(1)]], lines([], []))
    yield links("a type that is declared first and then defined", files, [], rows[1], sections)
    yield links("the same by one thread", files, ["-j", "1"], rows[1], sections)


def filed_cases():
    """Types of source files that have other numbers in each object."""
    rows = program([(b"1.o", [(b"_f1", 16), (b"_g1", 16)]), (b"2.o", [(b"_f2", 16)])])
    table = abbreviations(LINES_UNIT, FUNCTION, FILED)
    first = [unit_of(b"1.cc") + u32(0)] + function_of(b"f1", 16, "A") + function_of(b"g1", 16, "B", place=16)
    first += [Label("A"), b"\x03A\0\x04\x03", Label("B"), b"\x03B\0\x08\x05", b"\0"]
    second = [unit_of(b"2.cc") + u32(0)] + function_of(b"f2", 16, "A") + [Label("A"), b"\x03A\0\x04\x02", b"\0"]
    one = lines(["/s"], [("x.h", 1), ("y.h", 1), ("a.h", 1), ("z.h", 1), ("b.h", 1)])
    two = lines(["/r", "/s"], [("x.h", 1), ("a.h", 2)])
    files = {
        "a.out": rows[0],
        "1.o": cpp_object("1.o", table, first, one, [(b"_f1", 0), (b"_g1", 16)]),
        "2.o": cpp_object("2.o", table, second, two, [(b"_f2", 0)]),
    }
    pool = lines(["/s"], [("a.h", 1), ("b.h", 1)])
    filed = ("13", 0, "03 0e 0b 0b 3a 0f")
    tables = [abbreviations(POOL_UNIT, filed)] + [abbreviations(LINES_UNIT_OUT, POOLED_FUNCTION_OUT)] * 2
    types = [Label("A"), lambda at: b"\x02" + at["A"] + b"\x04\x01", Label("B"), lambda at: b"\x02" + at["B"] + b"\x08\x02"]
    units = [
        pool_unit(*types),
        lambda at, ranges: [root("1.cc", at, ranges, table=u32(len(pool)))]
        + linked_function("f1", 0, 16, at, "A")
        + linked_function("g1", 1, 16, at, "B")
        + [b"\0"],
        lambda at, ranges: [root("2.cc", at, ranges, table=u32(len(pool + one)))] + linked_function("f2", 2, 16, at, "A") + [b"\0"],
    ]
    names = [POOL, "A", "B", "1.cc", "f1", "g1", "2.cc", "f2"]
    sections = sections_of(names, tables, units, [[], [span(0), span(1)], [span(2)]], pool + one + two)
    yield links("files of merged types are counted anew", files, [], rows[1], sections)


def pointer_cases():
    rows = objects(2)
    table = abbreviations(UNIT, FUNCTION, POINTER, INT)
    files = {"a.out": rows[0]}
    for k in (1, 2):
        parts = [unit_of(b"%d.cc" % k)] + function_of(b"f%d" % k, 16, "p")
        parts += [Label("p"), b"\x03", Led("int"), Label("int"), b"\x04int\0\x04\x05", b"\0"]
        files["%d.o" % k] = cpp_object("%d.o" % k, table, parts, functions=[(b"_f%d" % k, 0)])
    tables = [abbreviations(POOL_UNIT, ("0f", 0, "49 10"))]
    tables += [abbreviations(UNIT_OUT, POOLED_FUNCTION_OUT, ("24", 0, "03 0e 0b 0b 3e 0b"))] * 2
    units = [pool_unit(Label("p"), b"\x02", Led("int1", True))]
    for k in (1, 2):
        units.append(
            lambda at, ranges, k=k: [root("%d.cc" % k, at, ranges)]
            + linked_function("f%d" % k, k - 1, 16, at, "p")
            + [Label("int%d" % k), b"\x03" + at["int"] + b"\x04\x05", b"\0"]
        )
    names = [POOL, "1.cc", "f1", "int", "2.cc", "f2"]
    sections = sections_of(names, tables, units, [[], [span(0)], [span(1)]], lines([], []))
    yield links("pointers to int in two objects are one", files, [], rows[1], sections)

    table = abbreviations(UNIT, ("2e", 1, "11 01 12 06 03 08 49 13"), STRUCTURE, POINTER)
    files = {"a.out": rows[0]}
    for k in (1, 2):
        parts = [unit_of(b"%d.cc" % k)] + function_of(b"f%d" % k, 16, "p")
        parts += [Label("s"), b"\x03S\0\x04\0", Label("p"), b"\x04", Led("s"), b"\0"]
        files["%d.o" % k] = cpp_object("%d.o" % k, table, parts, functions=[(b"_f%d" % k, 0)])
    tables = [abbreviations(UNIT_OUT, ("2e", 1, "11 01 12 06 03 0e 49 13"), STRUCTURE_OUT, POINTER)] * 2
    units = []
    for k in (1, 2):
        units.append(
            lambda at, ranges, k=k: [root("%d.cc" % k, at, ranges)]
            + linked_function("f%d" % k, k - 1, 16, at, "p%d" % k, False)
            + [Label("s%d" % k), b"\x03" + at["S"] + b"\x04\0", Label("p%d" % k), b"\x04", Led("s%d" % k), b"\0"]
        )
    sections = sections_of(["1.cc", "f1", "S", "2.cc", "f2"], tables, units, [[span(0)], [span(1)]])
    yield links("pointers to structures of functions are two", files, [], rows[1], sections)


def addresses(*values):
    """__debug_addr of addresses that are relocated, and the relocations."""
    table = sized(u16(5) + b"\x08\0" + b"".join(u64(value) for value in values))
    return table, b"".join(relocation(8 + 8 * k) for k in range(len(values)))


def offsets(*places):
    """__debug_str_offs."""
    return sized(u16(5) + bytes(2) + b"".join(places))


def version_5_cases():
    rows = program([(b"m.o", [(b"_main", 42)])])
    spans = [(LINKED, LINKED + 42)]
    at = texts("m.c", "main")
    # name strx1, language, str_offsets_base, addr_base; low_pc addrx, high_pc, name strx1
    table = abbreviations(("11", 1, "03 25 13 05 72 17 73 17"), ("2e", 0, "11 1b 12 06 03 25"))
    unit = b"\x01\0" + C + u32(8) + u32(8) + b"\x02\0" + u32(42) + b"\x01\0"
    debug = [
        ("__debug_abbrev", table, b""),
        ("__debug_info", info([(5, 0, [unit])])[0], b""),
        ("__debug_str", at[0], b""),
        ("__debug_str_offs", offsets(u32(0), u32(4)), b""),
        ("__debug_addr", *addresses(0)),
    ]
    written = [root("m.c", at[1], u32(12), C), b"\x02" + u64(LINKED) + u32(42) + at[1]["main"] + b"\0"]
    body = info([(5, 0, written)])[0]
    lists = rnglists(spans)
    assert len(body) == 49 and body[:12] == bytes.fromhex("2d 00 00 00 05 00 01 08 00 00 00 00")
    assert lists == bytes.fromhex("1a 00 00 00 05 00 08 00 00 00 00 00 06 50 3f 00 00 01 00 00 00 7a 3f 00 00 01 00 00 00 00")
    sections = [
        ("__debug_abbrev", abbreviations(UNIT_OUT, ("2e", 0, "11 01 12 06 03 0e"))),
        ("__debug_info", body),
        ("__debug_str", at[0]),
        ("__debug_rnglists", lists),
        ("__debug_aranges", aranges(0, spans)),
    ]
    files = {"a.out": rows[0], "m.o": object_file(42, debug, [(b"_main", 0)])}
    yield links("texts and an address by their index", files, [], rows[1], sections)

    # a variable whose location is the address of index 0
    table = abbreviations(("11", 1, "03 08 13 05 73 17"), ("34", 0, "03 08 02 18"))
    unit = b"\x01m.c\0" + C + u32(8) + b"\x02v\0\x02\xa1\0\0"
    debug = [("__debug_abbrev", table, b""), ("__debug_info", info([(5, 0, [unit])])[0], b""), ("__debug_addr", *addresses(0x30))]
    stabs = [(b"m.o", N_OSO, 0, 1, 0), (b"_v", N_STSYM, 1, 0, 0x100008010)]
    at = texts("m.c", "v")
    unit = b"\x01" + at[1]["m.c"] + C + b"\x02" + at[1]["v"] + b"\x09\x03" + u64(0x100008010) + b"\0"
    sections = [
        ("__debug_abbrev", abbreviations(("11", 1, "03 0e 13 05"), ("34", 0, "03 0e 02 18"))),
        ("__debug_info", info([(5, 0, [unit])])[0]),
        ("__debug_str", at[0]),
    ]
    files = {"a.out": program_file(stabs), "m.o": object_file(0x40, debug, [(b"_v", 0x30)])}
    yield links("an address in an expression by its index", files, [], [], sections)


LINE_FORMS = bytes.fromhex("01 01 1f 01 00 00 00 00 04 01 1f 02 0f 03 0f 04 0f 02 05 00 00 00 00 00 00 05 00 00 00 00 00 00")


def lines_5(address):
    """A line table of version 5 with the directory /src, files 0 and 1 both a.c in it, and a row of line 10 of 42 bytes."""
    header = b"\x01\x01\x01\xfb\x0e\x0d" + COUNTS + LINE_FORMS
    table = u16(5) + b"\x08\0" + sized(header)
    place = 4 + len(table) + 3
    table += b"\0\x09\x02" + u64(address) + b"\x03\x09\x01\x02\x2a\0\x01\x01"
    return sized(table), relocation(place)


def clang_cases():
    """A unit as clang writes it in version 5, with its attributes in clang's order."""
    rows = program([(b"m.o", [(b"_main", 42)])])
    spans = [(LINKED, LINKED + 42)]
    words = ["clang", "a.c", "/sdk", "MacOSX.sdk", "/src", "main"]
    at = texts(*words)
    # producer, language, name, LLVM_sysroot, str_offsets_base, APPLE_sdk, stmt_list, comp_dir, low_pc, high_pc, addr_base
    clang = ("11", 1, "25 25 13 05 03 25 82 7c 25 72 17 ef 7f 25 10 17 1b 25 11 1b 12 06 73 17")
    unit = b"\x01\0" + C + b"\x01\x02" + u32(8) + b"\x03" + u32(0) + b"\x04\0" + u32(42) + u32(8)
    unit += b"\x02\0" + u32(42) + b"\x05\0"
    debug = [
        ("__debug_abbrev", abbreviations(clang, ("2e", 0, "11 1b 12 06 03 25")), b""),
        ("__debug_info", info([(5, 0, [unit])])[0], b""),
        ("__debug_str", at[0], b""),
        ("__debug_str_offs", offsets(*at[1].values()), b""),
        ("__debug_addr", *addresses(0)),
        ("__debug_line", *lines_5(0)),
        ("__debug_line_str", b"/src\0a.c\0", b""),
    ]
    unit = b"\x01" + at[1]["clang"] + C + at[1]["a.c"] + at[1]["/sdk"] + at[1]["MacOSX.sdk"] + u32(0) + at[1]["/src"] + bytes(8) + u32(12)
    unit += b"\x02" + u64(LINKED) + u32(42) + at[1]["main"] + b"\0"
    seven = ("11", 1, "25 0e 13 05 03 0e 82 7c 0e ef 7f 0e 10 17 1b 0e 11 01 55 17")
    sections = [
        ("__debug_abbrev", abbreviations(seven, ("2e", 0, "11 01 12 06 03 0e"))),
        ("__debug_info", info([(5, 0, [unit])])[0]),
        ("__debug_str", at[0]),
        ("__debug_line", lines_5(LINKED)[0]),
        ("__debug_line_str", b"/src\0a.c\0"),
        ("__debug_rnglists", rnglists(spans)),
        ("__debug_aranges", aranges(0, spans)),
    ]
    files = {"a.out": rows[0], "m.o": object_file(42, debug, [(b"_main", 0)])}
    yield links("a unit of version 5 as clang writes it", files, [], rows[1], sections)


def cases():
    """What is tried: a name, the files, the words, and then the status, the message, and the files that are written."""
    for some in (plain_cases, merged_cases, filed_cases, pointer_cases, version_5_cases, clang_cases):
        yield from some()


def wrong(tool, folder, case):
    _, files, words, status, message, written = case
    for name, data in files.items():
        with open(os.path.join(folder, name), "wb") as file:
            file.write(data)
    ran = subprocess.run([tool, *words], cwd=folder, stdin=subprocess.DEVNULL, capture_output=True, timeout=60)
    if (ran.returncode, ran.stdout, ran.stderr) != (status, message, b""):
        return "status %d, told %r %r" % (ran.returncode, ran.stdout[-300:], ran.stderr[-300:])
    wanted = {**files, **written}
    for where, _, names in os.walk(folder):
        for name in names:
            path = os.path.relpath(os.path.join(where, name), folder)
            data = open(os.path.join(where, name), "rb").read()
            if path not in wanted:
                return "%s is new" % path
            if data != wanted.pop(path):
                return "%s has other bytes" % path
    return "%s is missing" % ", ".join(wanted) if wanted else None


def main():
    tool = os.path.abspath(sys.argv[1])
    passed = failed = 0
    for case in cases():
        folder = tempfile.mkdtemp()
        try:
            why = wrong(tool, folder, case)
        finally:
            shutil.rmtree(folder)
        if why:
            failed += 1
            print("%s: %s" % (case[0], why))
        else:
            passed += 1
    print("%d passed, %d failed" % (passed, failed))
    sys.exit(1 if failed or not passed else 0)


if __name__ == "__main__":
    main()
