#!/usr/bin/env python3
"""Plays the run file that is named on the command line, or the one on standard input, and prints the report.

The bench is called through a shared library, which QUEUE_BENCH_LIBRARY names (target/hosts/libqueue_bench.so if it is not set).
"""

import ctypes
import os
import sys

# Long enough for the text of every file.
AREA_LENGTH = 65_536


def load(path):
    """The library with the call's types set."""
    library = ctypes.CDLL(path)
    library.queue_bench_play.argtypes = [ctypes.c_char_p, ctypes.c_size_t, ctypes.c_char_p, ctypes.c_size_t]
    library.queue_bench_play.restype = ctypes.c_int64
    return library


def report(library, file, area_length=AREA_LENGTH):
    """The text of a run file's bytes: the report, or the line of the refusal; None where the area has no room for either."""
    area = ctypes.create_string_buffer(area_length)
    length = library.queue_bench_play(file, len(file), area, area_length)
    return None if length < 0 else area.raw[:length]


def main():
    library = load(os.environ.get("QUEUE_BENCH_LIBRARY", "target/hosts/libqueue_bench.so"))
    if len(sys.argv) > 1:
        with open(sys.argv[1], "rb") as source:
            file = source.read()
    else:
        file = sys.stdin.buffer.read()
    text = report(library, file)
    if text is None:
        sys.exit("no room for the report")
    sys.stdout.buffer.write(text)


if __name__ == "__main__":
    main()
