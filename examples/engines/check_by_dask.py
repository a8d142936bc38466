#!/usr/bin/env python3
"""Checks an archive by the workers of a dask.distributed cluster, each of which has jri_check and sees the files.

    find /archive -name '*.jpg' -print0 | sort -z | check_by_dask.py tcp://one:8786 > report.txt

Names come on standard input, each ended by a NUL byte, and lines go to standard output, in the order of the names: those of
each chunk end with its counts. Names are read as chunks are done, so that a list of any length takes little memory. A chunk
whose worker is lost goes to another, and a chunk is reported only when it is whole. A damaged file, or one that cannot be read,
is an answer; want of memory is tried again.
"""

import collections
import itertools
import subprocess
import sys

from distributed import Client

# How many names a chunk has, and how many chunks are handed out for each thread of a worker.
CHUNK, AHEAD = 250, 3
COMMAND = ["jri_check", "--workers", "1", "--counts", "--files0-from", "-"]
ANSWERS = (0, 1, 3, 5)


def check(names):
    """The lines of jri_check for some names; runs in a worker."""
    listed = b"".join(name + b"\0" for name in names)
    done = subprocess.run(COMMAND, input=listed, stdout=subprocess.PIPE, stderr=subprocess.PIPE)
    if done.returncode not in ANSWERS:
        raise RuntimeError(f"jri_check ended with {done.returncode}: {done.stderr.decode(errors='replace')}")
    return done.stdout


def names(stream):
    """The names of a stream, each ended by a NUL byte."""
    rest = b""
    while block := stream.read(1 << 16):
        *whole, rest = (rest + block).split(b"\0")
        yield from whole


def main(scheduler):
    due, some = collections.deque(), names(sys.stdin.buffer)
    with Client(scheduler) as client:
        while chunk := list(itertools.islice(some, CHUNK)):
            due.append(client.submit(check, chunk, retries=3, pure=False))
            if len(due) > AHEAD * sum(client.nthreads().values()):
                sys.stdout.buffer.write(due.popleft().result())
        for future in due:
            sys.stdout.buffer.write(future.result())


if __name__ == "__main__":
    if len(sys.argv) != 2:
        sys.exit("usage: check_by_dask.py SCHEDULER < NAMES")
    main(sys.argv[1])
