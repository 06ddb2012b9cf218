#!/usr/bin/env python3
"""Pairs of write and sync on this device, by fdatasync and by fsync: python3 bench/sync.py [FOLDER [PAIRS]]

Each pair writes 64 bytes at the next place and syncs. A file that grows with each write is the worse case for
fdatasync, since the length is metadata that it must sync too; a file whose bytes are there already is the better one.
"""
import os
import sys
import tempfile
import time

folder = sys.argv[1] if len(sys.argv) > 1 else tempfile.gettempdir()
pairs = int(sys.argv[2]) if len(sys.argv) > 2 else 500


def rate(sync, grows):
    handle, path = tempfile.mkstemp(dir=folder)
    try:
        if not grows:
            os.pwrite(handle, bytes(64 * pairs), 0)
            os.fsync(handle)
        start = time.monotonic()
        for k in range(pairs):
            os.pwrite(handle, b"x" * 64, 64 * k)
            sync(handle)
        return pairs / (time.monotonic() - start)
    finally:
        os.close(handle)
        os.unlink(path)


print(f"{pairs} pairs in {folder}")
for grows in (True, False):
    for name, sync in (("fdatasync", os.fdatasync), ("fsync", os.fsync)):
        kind = "grows" if grows else "is there"
        print(f"{name:9} the file {kind:8} {rate(sync, grows):10.0f} pairs a second")
