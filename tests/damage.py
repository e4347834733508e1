#!/usr/bin/env python3
"""Damages stored programs and links them: see damage.sh, which calls this.

    damage.py PROGRAM BUNDLES COUNT SEED
"""

import filecmp
import os
import random
import re
import resource
import shutil
import struct
import subprocess
import sys
import tempfile

# Stored programs: C and C++ for both CPUs, an archive, merged types, and two with DWARF 5.
CASES = [
    "smallest-link",
    "c-arm64",
    "c-archive",
    "c-dead-code",
    "cpp-arm64",
    "cpp-x86_64-optimised",
    "objcpp-arm64",
    "merged-files",
    "dwarf5-lists-and-frames",
    "dwarf5-merged-objects",
]
PROGRAM = "a.out"
SECONDS = 20
MEMORY = 2 << 30
WORDS = {0: None, 2: "missing", 3: "read fault", 4: "faulty", 5: "limit"}
FAULT = re.compile(rb"dsymlink: faulty: (.+): ([A-Z][A-Za-z0-9]+) in ([a-z_]+) at (\d+)\n\Z", re.S)
BYTES = [0, 1, 0x7F, 0x80, 0xFF]


def stretches(data, base=0):
    """The stretches of a Mach-O file, or of the members of an archive, that are worth damage, with their weights."""
    if data[:8] == b"!<arch>\n":
        found, at = [(base, 8, 1)], 8
        while at + 60 <= len(data):
            found.append((base + at, 60, 2))
            try:
                size = int(data[at + 48 : at + 58])
            except ValueError:
                break
            if size < 0:
                break
            body, name = at + 60, data[at : at + 16]
            if name[:3] == b"#1/":
                body += int(name[3:])
            found += stretches(data[body : at + 60 + size], base + body)
            at += 60 + size + size % 2
        return found
    if len(data) < 32 or data[:4] != b"\xcf\xfa\xed\xfe":
        return []
    count, size = struct.unpack_from("<II", data, 16)
    found, at = [(base, 32, 2), (base + 32, size, 6)], 32
    for _ in range(count):
        command, length = struct.unpack_from("<II", data, at)
        if length < 8:
            break
        if command == 2:
            symbols, many, strings, bytes_ = struct.unpack_from("<IIII", data, at + 8)
            found += [(base + symbols, 16 * many, 6), (base + strings, bytes_, 2)]
        if command == 0x19:
            sections = struct.unpack_from("<I", data, at + 64)[0]
            for k in range(sections):
                record = at + 72 + 80 * k
                name = data[record : record + 16].rstrip(b"\0")
                length_, place = struct.unpack_from("<Q", data, record + 40)[0], struct.unpack_from("<I", data, record + 48)[0]
                table, relocations = struct.unpack_from("<II", data, record + 56)
                if name.startswith(b"__debug"):
                    found.append((base + place, length_, 4 if name == b"__debug_abbrev" else 2))
                    found.append((base + table, 8 * relocations, 2))
                if name == b"__debug_info":
                    found.append((base + place, min(length_, 64), 6))
        at += length
    return [one for one in found if one[1] > 0]


def damaged(data, rng):
    """The file with one change: a byte, a cut, two stretches swapped, a stretch repeated or zeroed."""
    try:
        areas = stretches(data)
    except (struct.error, ValueError):
        areas = []  # an earlier change took its structure
    areas = areas or [(0, len(data), 1)]
    start, size, _ = rng.choices(areas, [weight for _, _, weight in areas])[0]
    at = min(start + rng.randrange(size), len(data) - 1)
    more = min(rng.choice([1, 2, 4, 8, 16, 40, 80]), len(data) - at)
    kind = rng.choices(["byte", "word", "cut", "swap", "repeat", "zero"], [8, 3, 1, 1, 1, 1])[0]
    if kind == "byte":
        new = rng.choice(BYTES + [data[at] ^ (1 << rng.randrange(8)), (data[at] + 1) % 256, rng.randrange(256)])
        return data[:at] + bytes([new]) + data[at + 1 :]
    if kind == "word":
        new = rng.choice([0, 1, 0x7FFFFFFF, 0x80000000, 0xFFFFFFF0, 0xFFFFFFFF, rng.getrandbits(32)])
        return data[:at] + struct.pack("<I", new)[: len(data) - at] + data[at + 4 :]
    if kind == "cut":
        return data[:at]
    if kind == "swap":
        other = rng.randrange(at, len(data))
        more = min(more, (len(data) - at) // 2, len(data) - other, other - at)
        return data[:at] + data[other : other + more] + data[at + more : other] + data[at : at + more] + data[other + more :]
    if kind == "repeat":
        return data[: at + more] + data[at:]
    return data[:at] + bytes(more) + data[at + more :]


def names_a_file(message, program, name):
    """Whether the message of a fault names the program or a path in it, a kind and a part."""
    told = FAULT.match(message)
    if not told:
        return False
    path = told.group(1)
    return path == name.encode() or path in open(program, "rb").read()


def limited():
    resource.setrlimit(resource.RLIMIT_AS, (MEMORY, MEMORY))
    resource.setrlimit(resource.RLIMIT_CORE, (0, 0))


def words_of(case):
    """The words of a stored case, without a number of threads."""
    words = open(os.path.join(case, "words")).read().split("\n")[:-1]
    while "-j" in words:
        at = words.index("-j")
        del words[at : at + 2]
    return words


def files_of(folder):
    return sorted(os.path.relpath(os.path.join(where, name), folder) for where, _, names in os.walk(folder) for name in names)


def link(program, folder, words, threads):
    """The status and the message of a link in a folder."""
    ran = subprocess.run(
        [program, "-j", str(threads)] + words, cwd=folder, stdin=subprocess.DEVNULL, capture_output=True, timeout=SECONDS, preexec_fn=limited
    )
    return ran.returncode, ran.stdout, ran.stderr


def wrong(program, case, folder, rng):
    """What is wrong with the link of a damaged copy of a case, or None; and its status."""
    words = words_of(case)
    before, one, four = (os.path.join(folder, name) for name in ("before", "one", "four"))
    shutil.copytree(os.path.join(case, "before"), before)
    inputs = [name for name in files_of(before) if "Contents" not in name]
    for _ in range(rng.choice([1, 1, 1, 2, 3])):
        path = os.path.join(before, rng.choice(inputs))
        data = open(path, "rb").read()
        if data:
            open(path, "wb").write(damaged(data, rng))
    for copy in (one, four):
        shutil.copytree(before, copy)
    try:
        status, message, errors = link(program, one, words, 1)
        again = link(program, four, words, 4)
    except subprocess.TimeoutExpired:
        return "no answer within %d seconds" % SECONDS, None
    if status not in WORDS:
        return "status %d: %r" % (status, errors[-200:]), status
    if errors:
        return "standard error: %r" % errors[:200], status
    if again != (status, message, errors):
        return "with four threads status %d, %r; with one status %d, %r" % (again[0], again[1], status, message), status
    names = files_of(one)
    if names != files_of(four) or filecmp.cmpfiles(one, four, names, shallow=False)[1:] != ([], []):
        return "other files with four threads", status
    if status != 0:
        if names != files_of(before) or filecmp.cmpfiles(one, before, names, shallow=False)[1:] != ([], []):
            return "files changed by a refusal", status
        if not message.startswith(("dsymlink: %s: " % WORDS[status]).encode()):
            return "status %d tells %r" % (status, message), status
        if status == 4 and not names_a_file(message, os.path.join(one, PROGRAM), PROGRAM):
            return "a fault tells %r" % message, status
    return None, status


def main():
    program, bundles = os.path.abspath(sys.argv[1]), sys.argv[2]
    count, seed = int(sys.argv[3]), sys.argv[4]
    failed, statuses = 0, {}
    for number in range(count):
        rng = random.Random("%s/%d" % (seed, number))
        name = rng.choice(CASES)
        folder = tempfile.mkdtemp()
        try:
            why, status = wrong(program, os.path.join(bundles, name), folder, rng)
        finally:
            if not (len(sys.argv) > 5 and why):
                shutil.rmtree(folder)
        statuses[status] = statuses.get(status, 0) + 1
        if why:
            failed += 1
            print("damage %s/%d of %s: %s" % (seed, number, name, why), flush=True)
    told = ", ".join("%s: %d" % (status, statuses[status]) for status in sorted(statuses, key=str))
    print("damaged programs by status: %s" % told)
    print("%d passed, %d failed" % (count - failed, failed))
    sys.exit(1 if failed or not count else 0)


main()
