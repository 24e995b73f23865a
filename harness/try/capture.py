#!/usr/bin/env python3
"""capture.py CRATE FOLDER: runs `rt try` in the crate's folder CRATE, with its own standard input, and keeps the programs that
it makes on the way.

`rt try` runs a program that is not proved and throws its executables away; here they are linked into FOLDER as they
appear, so that they can be run on many packs."""
import os
import stat
import subprocess
import sys
import tempfile
import time


def watch(tmp, folder, seen):
    for where, _, files in os.walk(tmp):
        for name in files:
            path = os.path.join(where, name)
            try:
                found = os.stat(path)
                if found.st_mode & stat.S_IXUSR and found.st_size > 1000 and path not in seen:
                    kept = os.path.join(folder, os.path.relpath(path, tmp).replace("/", "_"))
                    os.link(path, kept)
                    seen.add(path)
            except OSError:
                pass


def main():
    if len(sys.argv) != 3:
        sys.exit(__doc__)
    crate, folder = sys.argv[1:]
    os.makedirs(folder, exist_ok=True)
    seen = set()
    with tempfile.TemporaryDirectory(dir=os.path.dirname(os.path.abspath(folder))) as tmp:
        run = subprocess.Popen(["rt", "try"], cwd=crate, env=dict(os.environ, TMPDIR=tmp))
        while run.poll() is None:
            watch(tmp, folder, seen)
            time.sleep(0.001)
    for name in sorted(os.listdir(folder)):
        print(name, os.path.getsize(os.path.join(folder, name)))


main()
