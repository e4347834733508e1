#!/usr/bin/env python3
"""Links programs that are laid out to use up time or memory, and harmless ones of the same size, and prints what each takes.

    bench/hostile.py PROGRAM [WORD]

A link is run by one thread, three times, and the least processor time counts. Where a WORD is there, only cases whose names
begin with it are run. The last column is how many times as long as the harmless input the other takes.
"""

import os
import random
import shutil
import struct
import sys
import tempfile
import time

sys.dont_write_bytecode = True
sys.path.insert(0, os.path.join(os.path.dirname(os.path.abspath(__file__)), "..", "tests"))

from laid_out import N_FUN, N_OSO, TEXT, object_file, program_file, relocation

C, CPP = 12, 4
SIZE = TEXT[3]
FACTOR = 0x9E3779B97F4A7C15


def uleb(n):
    out = b""
    while n >= 128:
        out, n = out + bytes([n % 128 + 128]), n // 128
    return out + bytes([n])


# 1: compile unit with name, language and statements; 2: subprogram with low_pc, high_pc, name and children; 3: namespace
# 4: structure with name and size, and children; 5: member with a name; 6: subprogram with name, linkage name and children
# 7: parameter with a name; 8: pointer; 9: variable with name and offset; 10: structure with name and size
TABLE = bytes.fromhex(
    "01 11 01 03 08 13 05 10 17 00 00"
    "02 2e 01 11 01 12 06 03 08 00 00"
    "03 39 01 03 08 00 00"
    "04 13 01 03 08 0b 0b 00 00"
    "05 0d 00 03 08 00 00"
    "06 2e 01 03 08 6e 08 3c 19 00 00"
    "07 05 00 03 08 00 00"
    "08 0f 00 49 13 00 00"
    "09 34 00 03 08 49 13 00 00"
    "0a 13 00 03 08 0b 0b 00 00"
)
LINES = bytes.fromhex("01 01 01 fb 0e 0d 00 01 01 01 01 00 00 00 01 00 00 01 00") + b"a.c\0\0\0\0" + b"\0"


def line_table(program):
    body = struct.pack("<HI", 4, len(LINES)) + LINES + program
    return struct.pack("<I", len(body)) + body


def sequence(rows):
    """A line table whose one sequence begins at the function, and the relocation of its address."""
    table = line_table(b"\0\x09\x02" + bytes(8) + rows + b"\x02\x01\0\x01\x01")
    return table, relocation(4 + 6 + len(LINES) + 3)


def one_object(entries, language=C, inside=b"", table=TABLE + b"\0", lines=None, more=(), relocations=b"", size=SIZE):
    """An object whose unit has a function with what is inside of it, and then these entries."""
    head = b"\x01m.c\0" + struct.pack("<HI", language, 0)
    function = b"\x02" + bytes(8) + struct.pack("<I", size) + b"f\0" + inside + b"\0"
    body = struct.pack("<HIB", 4, 0, 8) + head + function + entries + b"\0"
    info = struct.pack("<I", len(body)) + body
    debug = [
        ("__debug_abbrev", table, b""),
        ("__debug_info", info, relocation(11 + len(head) + 1) + relocations),
        ("__debug_line", *(lines or sequence(b"\x01"))),
        *more,
    ]
    return object_file(size, debug, [(b"_f", 0)])


def one_program(paths=(b"m.o",)):
    rows = []
    for path in paths:
        rows += [(path, N_OSO, 0, 1, 0), (b"_f", N_FUN, 1, 0, TEXT[2]), (b"", N_FUN, 0, 0, SIZE)]
    return program_file(rows)


def behind(inside=0):
    """The place of the first entry behind the function, or inside it, from the unit's start."""
    return 11 + 11 + 1 + 12 + 2 + inside


def variables(size):
    """Ordinary entries of so many bytes: variables of a structure, which stands behind the function, and its place."""
    count = size // 12
    place = behind() + 12 * count + 1
    led = struct.pack("<I", place)
    return b"".join(b"\x09v%05d" % (k % 100000) + b"\0" + led for k in range(count)), b"\x0aS\0\x04"


def ordinary(size):
    inside, entries = variables(size)
    return {"a.out": one_program(), "m.o": one_object(entries, inside=inside)}


def abbreviations():
    """2^20 abbreviations, each of a code of its own."""
    more = b"".join(uleb(code) + b"\x34\0\x03\x08\0\0" for code in range(11, 11 + (1 << 20)))
    inside, entries = variables(1200)
    yield {"a.out": one_program(), "m.o": one_object(entries, inside=inside, table=TABLE + more + b"\0")}
    yield ordinary(len(more))


def objects():
    """65,535 objects, each in a file of its own."""
    paths = [b"o/%d" % k for k in range(65535)]
    inside, entries = variables(120)
    one = one_object(entries, inside=inside)
    files = {path.decode(): one for path in paths}
    yield {"a.out": one_program(paths), **files}
    yield ordinary(65535 * (len(one) + 40))


def text():
    """A text of 500 MiB that isn't ended, and one that is."""
    size = 500 << 20
    table = TABLE.replace(bytes.fromhex("0a 13 00 03 08"), bytes.fromhex("0a 13 00 03 0e")) + b"\0"
    inside = b"\x09v00000\0" + struct.pack("<I", behind() + 12 + 1)
    for last in (b"x", b"\0"):
        strings = ("__debug_str", b"x" * (size - 1) + last, b"")
        yield {"a.out": one_program(), "m.o": one_object(b"\x0a" + bytes(4) + b"\x04", inside=inside, table=table, more=[strings])}


def relocations():
    """10^6 relocations at falling places, and at rising ones."""
    count = 10**6
    body = struct.pack("<HIB", 4, 0, 8)
    table = bytes.fromhex("01 11 01 03 08 13 05 00 00 02 2e 00 11 01 03 08 00 00 00")
    head = b"\x01m.c\0" + struct.pack("<H", C)
    entries = b"".join(b"\x02" + struct.pack("<Q", k % SIZE) + b"f\0" for k in range(count))
    body += head + entries + b"\0"
    info = struct.pack("<I", len(body)) + body
    first = 4 + 7 + len(head) + 1
    places = [relocation(first + 11 * k) for k in range(count)]
    for order in (places[::-1], places):
        debug = [("__debug_abbrev", table, b""), ("__debug_info", info, b"".join(order))]
        yield {"a.out": one_program(), "m.o": object_file(SIZE, debug, [(b"_f", 0)])}


def rows():
    """A line table of 60 MB that has a row in each byte; and ordinary entries."""
    count = 60 * 10**6
    inside, entries = variables(120)
    yield {"a.out": one_program(), "m.o": one_object(entries, inside=inside, lines=sequence(b"\x13" * count))}
    yield ordinary(count)


def uses(count, first, step):
    """Variables inside the function of as many types, which stand one behind the other, each of so many bytes."""
    place = behind() + 12 * count + 1 + first
    return b"".join(b"\x09v00000\0" + struct.pack("<I", place + step * k) for k in range(count))


def namespaces():
    """10^5 types inside 995 namespaces inside each other, all live; and inside one."""
    count, depth = 10**5, 995
    types = b"".join(b"\x0aS%05d\0\x04" % k for k in range(count))
    for nested in (depth, 1):
        open_ = b"\x03n\0" * nested
        entries = open_ + types + b"\0" * nested
        yield {"a.out": one_program(), "m.o": one_object(entries, CPP, uses(count, len(open_), 9))}


def deeper():
    """4,095 namespaces inside each other, which is deeper than can be; and beside each other."""
    for entries in (b"\x03n\0" * 4095 + b"\0" * 4095, b"\x03n\0\0" * 4095):
        yield {"a.out": one_program(), "m.o": one_object(entries, CPP)}


def short_vector(size):
    """Differences of so many bytes that leave the hash of a name as it is: a short vector of a lattice, by Lenstra, Lenstra, Lovász."""
    weights = [pow(FACTOR, size - k, 1 << 64) for k in range(size)]
    basis = [[int(i == j) for j in range(size)] + [weights[i] << 20] for i in range(size)]
    basis.append([0] * size + [1 << 84])
    n = len(basis)

    def dot(a, b):
        return sum(x * y for x, y in zip(a, b))

    from fractions import Fraction

    def gram():
        star, mu, norms = [], [[Fraction(0)] * n for _ in range(n)], []
        for i in range(n):
            row = [Fraction(x) for x in basis[i]]
            for j in range(i):
                mu[i][j] = dot(basis[i], star[j]) / norms[j] if norms[j] else Fraction(0)
                row = [x - mu[i][j] * y for x, y in zip(row, star[j])]
            star.append(row)
            norms.append(dot(row, row))
        return mu, norms

    mu, norms = gram()
    k = 1
    while k < n:
        for j in range(k - 1, -1, -1):
            q = round(mu[k][j])
            if q:
                basis[k] = [x - q * y for x, y in zip(basis[k], basis[j])]
                for i in range(j):
                    mu[k][i] -= q * mu[j][i]
                mu[k][j] -= q
        if norms[k] >= (Fraction(3, 4) - mu[k][k - 1] ** 2) * norms[k - 1]:
            k += 1
            continue
        m, b = mu[k][k - 1], norms[k] + mu[k][k - 1] ** 2 * norms[k - 1]
        mu[k][k - 1] = m * norms[k - 1] / b
        norms[k], norms[k - 1] = norms[k - 1] * norms[k] / b, b
        basis[k], basis[k - 1] = basis[k - 1], basis[k]
        for j in range(k - 1):
            mu[k][j], mu[k - 1][j] = mu[k - 1][j], mu[k][j]
        for i in range(k + 1, n):
            t = mu[i][k]
            mu[i][k] = mu[i][k - 1] - m * t
            mu[i][k - 1] = t + mu[k][k - 1] * mu[i][k]
        k = max(k - 1, 1)
    found = [row[:size] for row in basis if row[size] == 0 and any(row)]
    best = min(found, key=lambda row: max(abs(x) for x in row))
    assert sum(x * w for x, w in zip(best, weights)) % (1 << 64) == 0
    return best


def hash_of(name):
    h = 0
    for byte in name:
        h = (h + byte) * FACTOR % (1 << 64)
    return h


def alike(count):
    """So many names of one hash: in each block of bytes either of two spellings."""
    vector = short_vector(16)
    low = bytes(96 - min(0, x) for x in vector)
    high = bytes(96 - min(0, x) + x for x in vector)
    assert all(x < 127 for x in low + high)
    names = [b"".join((low, high)[k >> bit & 1] for bit in range(17)) for k in range(count)]
    assert len({hash_of(name) for name in names[:9] + names[-9:]}) == 1
    return names


def hashes(count=10**5):
    """10^5 types whose names have one hash, and as many whose names differ at random."""
    names = alike(count)
    rng = random.Random(1)
    other = [bytes(rng.choice(b"abcdefghijklmnop") for _ in name) for name in names]
    for some in (names, other):
        step = len(some[0]) + 3
        entries = b"".join(b"\x0a" + name + b"\0\x04" for name in some)
        yield {"a.out": one_program(), "m.o": one_object(entries, CPP, uses(count, 0, step))}


def fewer_hashes():
    """The same of a tenth as many types."""
    return hashes(10**4)


def frames():
    """10^5 frames that share one CIE, and that have a hundred."""
    count = 10**5
    inside, entries = variables(120)
    for cies in (1, 100):
        first = [struct.pack("<II", 12, 0xFFFFFFFF) + bytes([4, 0, 8, 0, 1, 0x78, 30, k % cies]) for k in range(100)]
        each = [struct.pack("<IIQQ", 20, 16 * (k % cies), k % SIZE, 1) for k in range(count)]
        relocated = b"".join(relocation(1600 + 24 * k + 8) for k in range(count))
        more = [("__debug_frame", b"".join(first + each), relocated)]
        yield {"a.out": one_program(), "m.o": one_object(entries, inside=inside, more=more)}


def parameters():
    """10^6 parameters of one name below a function of a merged type, and of as many names."""
    count = 10**6
    inside = uses(1, 0, 0)
    for names in (1, count):
        listed = b"".join(b"\x07p%06d\0" % (k % names) for k in range(count))
        entries = b"\x04S\0\x04" + b"\x06m\0_m\0" + listed + b"\0\0"
        yield {"a.out": one_program(), "m.o": one_object(entries, CPP, inside)}


def members():
    """10^6 members of one name of a merged type, and of as many names."""
    count = 10**6
    inside = uses(1, 0, 0)
    for names in (1, count):
        listed = b"".join(b"\x05m%06d\0" % (k % names) for k in range(count))
        yield {"a.out": one_program(), "m.o": one_object(b"\x04S\0\x04" + listed + b"\0", CPP, inside)}


CASES = [
    ("abbreviations, 2^20 of a code each", abbreviations),
    ("objects, 65,535", objects),
    ("text of 500 MiB that isn't ended", text),
    ("relocations, 10^6 at falling places", relocations),
    ("rows, one in each of 60 MB", rows),
    ("namespaces, 995 around 10^5 types", namespaces),
    ("deeper, 4,095 namespaces", deeper),
    ("fewer names of one hash, 10^4", fewer_hashes),
    ("hashes, 10^5 names of one", hashes),
    ("frames, 10^5 of one CIE", frames),
    ("parameters, 10^6 of one name", parameters),
    ("members, 10^6 of one name", members),
]


def took(tool, folder):
    """Status, processor seconds and MiB of a link."""
    begun = time.time()
    child = os.fork()
    if child == 0:
        try:
            os.chdir(folder)
            quiet = os.open(os.devnull, os.O_RDWR)
            for number in (0, 1, 2):
                os.dup2(quiet, number)
            os.execv(tool, [tool, "-j", "1", "-o", "out", "a.out"])
        finally:
            os._exit(127)
    _, status, used = os.wait4(child, 0)
    return os.waitstatus_to_exitcode(status), used.ru_utime + used.ru_stime, used.ru_maxrss / 1024, time.time() - begun


def measured(tool, files):
    """The status, the bytes, the least processor time and the memory of a link of these files."""
    folder = tempfile.mkdtemp()
    try:
        for name, data in files.items():
            path = os.path.join(folder, name)
            os.makedirs(os.path.dirname(path), exist_ok=True)
            with open(path, "wb") as file:
                file.write(data)
        size = sum(len(data) for data in files.values())
        runs = [took(tool, folder)]
        while len(runs) < 3 and runs[0][1] < 60:
            runs.append(took(tool, folder))
    finally:
        shutil.rmtree(folder)
    best = min(runs, key=lambda run: run[1])
    return best[0], size, best[1], best[2]


def main():
    tool, word = os.path.abspath(sys.argv[1]), sys.argv[2] if len(sys.argv) > 2 else ""
    print("| input | status | MB | seconds | MiB | harmless: status | MB | seconds | MiB | times |")
    print("|---|---|---|---|---|---|---|---|---|---|")
    for name, make in CASES:
        if not name.startswith(word):
            continue
        seen = []
        for files in make():
            seen.append(measured(tool, files))
            del files
        cells = "".join(" %d | %.1f | %.2f | %.0f |" % (status, size / 1e6, seconds, memory) for status, size, seconds, memory in seen)
        print("| %s |%s %.1f |" % (name, cells, seen[0][2] / seen[1][2]), flush=True)


main()
