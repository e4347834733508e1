#!/usr/bin/env python3
"""Links programs at the limits of what is read: see limits.sh, which calls this.

    limits.py PROGRAM BUNDLES
"""

import os
import shutil
import struct
import subprocess
import sys
import tempfile

from laid_out import N_FUN, N_OSO, TEXT, object_file as file_of_object, program_file, relocation

ADDRESS, SIZE = TEXT[2], TEXT[3]
MANY = [b"/no/such/%d.o" % n for n in range(65536)]
INPUT = 1 << 29
SECTIONS_AT = 4096


def program(paths, functions):
    """A program of objects, each with functions of a name, an address and a size."""
    rows = []
    for path in paths:
        rows.append((path, N_OSO, 0, 1, 0))
        for name, address, size in functions:
            rows += [(name, N_FUN, 1, 0, address), (b"", N_FUN, 0, 0, size)]
    for name, address, _ in functions:
        rows.append((name, 0x0F, 1, 0, address))
    return program_file(rows)


def object_file(abbreviations, info, strings, relocations, functions):
    debug = [("__debug_abbrev", abbreviations, b""), ("__debug_info", info, relocations), ("__debug_str", strings, b"")]
    return file_of_object(16 * len(functions) + SIZE, debug, functions)


STRINGS = b"m.c\0main\0"
# 1: compile unit with name and language; 2: subprogram with low_pc, high_pc, name
TABLE = bytes.fromhex("01 11 01 03 0e 13 05 00 00 02 2e 00 11 01 12 06 03 0e 00 00")
ROOT = bytes.fromhex("01 00 00 00 00 0c 00")
MAIN = b"\x02" + bytes(8) + struct.pack("<II", SIZE, 4)


def unit(entries, length=None, version=4):
    body = struct.pack("<HIB", version, 0, 8) + entries
    return struct.pack("<I", len(body) if length is None else length) + body


def small_object(entries=ROOT + MAIN + b"\0", more=b"", relocations=relocation(0x13), length=None, version=4):
    return object_file(TABLE + more + b"\0", unit(entries, length, version), STRINGS, relocations, [(b"_main", 0)])


def nested(count):
    """A unit with its function, and so many open lists of siblings, that of the root among them: namespaces inside each other."""
    return small_object(ROOT + MAIN + b"\x03" * (count - 1) + b"\0" * count, bytes.fromhex("03 39 01 00 00"))


def wide(count):
    """A further abbreviation with so many pairs of attribute and form."""
    return small_object(more=bytes.fromhex("03 34 00") + b"\x3f\x0c" * count + b"\0\0")


def circular():
    """Two functions whose specifications lead to each other, and a structure whose member is of the structure."""
    more = bytes.fromhex("03 2e 00 11 01 12 06 47 13 00 00" "04 13 01 03 08 00 00" "05 0d 00 49 13 00 00" "06 34 00 49 13 02 18 00 00")
    one = 11 + len(ROOT)
    each = 1 + 8 + 4 + 4
    structure = one + 2 * each
    first = b"\x03" + bytes(8) + struct.pack("<II", 16, one + each)
    second = b"\x03" + struct.pack("<Q", 16) + struct.pack("<II", SIZE - 16, one)
    types = b"\x04S\0" + b"\x05" + struct.pack("<I", structure) + b"\0"
    variable = b"\x06" + struct.pack("<I", structure) + b"\x09\x03" + bytes(8)
    place = structure + len(types) + 1 + 4 + 2
    relocations = relocation(one + 1) + relocation(one + each + 1) + relocation(place)
    entries = ROOT + first + second + types + variable + b"\0"
    return object_file(TABLE + more + b"\0", unit(entries), STRINGS, relocations, [(b"_main", 0), (b"_more", 16)])


def worked_circles():
    """The same with one function that has code, a second without, and a structure; and the sections of the image."""
    table = "01 11 01 03 0e 13 05 00 00" "02 2e 00 11 01 12 06 47 13 49 13 00 00" "03 2e 00 47 13 00 00" "04 13 01 03 08 00 00" "05 0d 00 49 13 00 00" "00"
    main = b"\x02" + bytes(8) + struct.pack("<III", SIZE, 0x27, 0x2C)
    other = b"\x03" + struct.pack("<I", 0x12)
    structure = b"\x04S\0" + b"\x05" + struct.pack("<I", 0x2C) + b"\0"
    given = object_file(bytes.fromhex(table), unit(ROOT + main + other + structure + b"\0"), STRINGS, relocation(0x13), [(b"_main", 0)])
    table = "01 11 01 03 0e 13 05 11 01 55 17 00 00" "02 2e 00 11 01 12 06 47 13 49 13 00 00" "03 2e 00 47 13 00 00" "04 13 01 03 0e 00 00" "05 0d 00 49 13 00 00" "00"
    root = ROOT + bytes(12)
    main = b"\x02" + struct.pack("<QIII", ADDRESS, SIZE, 0x33, 0x38)
    other = b"\x03" + struct.pack("<I", 0x1E)
    structure = b"\x04" + struct.pack("<I", 4) + b"\x05" + struct.pack("<I", 0x38) + b"\0"
    ranges = struct.pack("<QQ", ADDRESS, ADDRESS + SIZE) + bytes(16)
    addresses = struct.pack("<IHIBB", 44, 2, 0, 8, 0) + bytes(4) + struct.pack("<QQ", ADDRESS, SIZE) + bytes(16)
    return given, bytes.fromhex(table) + unit(root + main + other + structure + b"\0") + b"m.c\0S\0" + ranges + addresses


ONE = program([b"m.o"], [(b"_main", ADDRESS, SIZE)])
TWO = program([b"m.o"], [(b"_main", ADDRESS, 16), (b"_more", ADDRESS + 16, SIZE - 16)])
# where a further abbreviation stands, and the opening entry behind so many namespaces
MORE = len(TABLE)
NEST = 11 + len(ROOT) + len(MAIN)


def cases(stored):
    """What is tried: a name, the program, its object, options, the status, the message, and whether the image is the stored one.

    A file is its bytes, or its first bytes and its size, where zeros follow. Where the image is neither the stored one nor
    any, its sections are given in place of the last.
    """
    yield "the object laid out here links as the stored one", ONE, small_object(), [], 0, b"", True
    yield "a thousand open lists", ONE, nested(1000), [], 0, b"", True
    yield "one more", ONE, nested(1001), [], 4, b"m.o: LimitDepth in __debug_info at %d" % (NEST + 999), False
    yield "256 attributes", ONE, wide(256), [], 0, b"", True
    yield "257 attributes", ONE, wide(257), [], 4, b"m.o: LimitAttributes in __debug_abbrev at %d" % MORE, False
    yield "a unit as long as can be", ONE, small_object(length=0xFFFFFFFF), [], 4, b"m.o: BadUnit in __debug_info at 0", False
    yield "a unit of version 6", ONE, small_object(version=6), [], 4, b"m.o: UnsupportedVersion in __debug_info at 4", False
    overlap = relocation(0x17) + relocation(0x13)
    yield "relocations that overlap", ONE, small_object(relocations=overlap), [], 4, b"m.o: RelocOverlap in __debug_info at 23", False
    counts = b"objects 1\nentries 6\nlive 6\npooled 0\nnames 0\nnodes 6\n"
    yield "specifications and a member in circles", TWO, circular(), ["--no-odr", "--statistics"], 0, counts, False
    given, sections = worked_circles()
    counts = b"objects 1\nentries 5\nlive 5\npooled 0\nnames 0\nnodes 5\nbytes 4298\n"
    yield "circles, byte for byte", ONE, given, ["--statistics"], 0, counts, sections
    warnings = b"".join(b"dsymlink: warning: missing: %s\n" % path for path in MANY[:65535])
    yield "65,535 objects that are missing", program(MANY[:65535], []), b"", ["--keep-going"], 0, warnings, False
    yield "one more object", program(MANY, []), b"", ["--keep-going"], 5, b"Objects 65536", False
    full = INPUT - len(ONE)
    yield "files of 2^29 bytes", ONE, (small_object(), full), [], 0, b"", True
    yield "one more", ONE, (small_object(), full + 1), [], 5, b"Input 536870912", False
    yield "a program of one more", (ONE, INPUT + 1), b"", [], 5, b"Input 536870912", False
    whole = open(os.path.join(stored, "before", "m.o"), "rb").read()
    commands = 32 + struct.unpack_from("<I", whole, 20)[0]
    for size in range(len(whole)):
        fault = b"Truncated in header at 0" if size < 32 else b"Truncated in commands at 32" if size < commands else b"BadSymbols in symbols at 0"
        yield "the object's first %d bytes" % size, ONE, whole[:size], [], 4, b"m.o: " + fault, False


def told(status, message):
    if status == 4:
        return b"dsymlink: faulty: " + message + b"\n"
    return b"dsymlink: limit: " + message + b"\n" if status == 5 else message


def wrong(tool, folder, stored, case):
    _, executable, content, options, status, message, same = case
    for name, data in (("a.out", executable), ("m.o", content)):
        data, size = data if isinstance(data, tuple) else (data, len(data))
        with open(os.path.join(folder, name), "wb") as file:
            file.write(data)
            file.truncate(size)
    ran = subprocess.run([tool, *options, "-o", "bundle", "a.out"], cwd=folder, stdin=subprocess.DEVNULL, capture_output=True, timeout=60)
    if ran.returncode != status or ran.stderr:
        return "status %d, not %d: %r %r" % (ran.returncode, status, ran.stdout[-300:], ran.stderr[-300:])
    if options[-1:] == ["--statistics"] and ran.stdout.startswith(message):
        ran.stdout = message
    if ran.stdout != told(status, message):
        return "another message: %r" % ran.stdout[:300]
    made = os.path.join(folder, "bundle")
    if status != 0:
        return "a bundle was written" if os.path.exists(made) else None
    image = open(os.path.join(made, "Contents/Resources/DWARF/a.out"), "rb").read()
    if isinstance(same, bytes):
        return None if image[SECTIONS_AT:] == same else "other sections"
    wanted = open(os.path.join(stored, "after/bundle/Contents/Resources/DWARF/a.out"), "rb").read()
    return "another image" if same and image != wanted else None


def main():
    tool, stored = os.path.abspath(sys.argv[1]), os.path.join(sys.argv[2], "smallest-link")
    passed = failed = 0
    for case in cases(stored):
        folder = tempfile.mkdtemp()
        try:
            why = wrong(tool, folder, stored, case)
        finally:
            shutil.rmtree(folder)
        if why:
            failed += 1
            print("%s: %s" % (case[0], why))
        else:
            passed += 1
    print("%d passed, %d failed" % (passed, failed))
    sys.exit(1 if failed or not passed else 0)


main()
