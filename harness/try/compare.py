#!/usr/bin/env python3
"""compare.py DUMP PROGRAM COUNT SEED long|short [PACKS]: a program's answers against the Rust's.

DUMP is the harness's `dump`, PROGRAM a captured program that reads its records."""
import os
import struct
import subprocess
import sys
import tempfile


def answers(data):
    at, out = 0, []
    while at + 6 <= len(data):
        number, value, kept = data[at], struct.unpack_from("<I", data, at + 1)[0], data[at + 5]
        length = value if number in (0, 6) else 0
        out.append((number, value, kept, data[at + 6 : at + 6 + length]))
        at += 6 + length
    return out


def main():
    if len(sys.argv) < 6:
        sys.exit(__doc__)
    dump, program, count, seed, mode = sys.argv[1:6]
    with tempfile.TemporaryDirectory() as tmp:
        packs, wanted, got = (os.path.join(tmp, n) for n in ("packs", "wanted", "got"))
        subprocess.run([dump, count, seed, mode, packs, wanted] + sys.argv[6:], check=True)
        with open(packs, "rb") as i, open(got, "wb") as o:
            status = subprocess.run([program], stdin=i, stdout=o).returncode
        want = answers(open(wanted, "rb").read())
        have = answers(open(got, "rb").read())
    different = [i for i, w in enumerate(want) if i >= len(have) or have[i] != w]
    print(f"{len(want)} compared, {len(different)} different; the program ended with {status}; first: {different[:5]}")
    sys.exit(1 if different or status else 0)


main()
