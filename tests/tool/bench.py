"""Times of the tool and of the program beside those of their calls alone, as Markdown tables."""
import os
import resource
import subprocess
import sys
import tempfile
import time

from common import ENTRY, ROOT, TOOL, days

BATCH = 1024
PROGRAM = os.path.join(ROOT, "crates", "desk", "out", "desk")


def compiled(folder, name, *words):
    """A program or library of the tests, by its path."""
    path = os.path.join(folder, name)
    subprocess.run([os.environ.get("CC", "cc"), "-std=c11", "-O2", *words, "-o", path], check=True,
                   cwd=ROOT)
    return path


def calls_program(folder):
    """The program that makes the calls alone."""
    return compiled(folder, "calls", "-Iinclude", "-Itools", "tests/tool/calls.c", "tools/kinds.c",
                    os.environ.get("LIBRARY", "build/libyordzepa.a"))


def crash_library(folder):
    return compiled(folder, "crash.so", "-shared", "-fPIC", "tests/tool/crash.c", "-ldl")


def written(folder, count):
    path = os.path.join(folder, "%d.rec" % count)
    with open(path, "wb") as file:
        file.write(b"".join(days(count)))
    return path


def timed(words, **more):
    """Seconds by the clock and of the processor that a program takes."""
    before = resource.getrusage(resource.RUSAGE_CHILDREN)
    begun = time.monotonic()
    subprocess.run(words, stdout=subprocess.DEVNULL, check=True, **more)
    clock = time.monotonic() - begun
    after = resource.getrusage(resource.RUSAGE_CHILDREN)
    return clock, after.ru_utime + after.ru_stime - before.ru_utime - before.ru_stime


def alone(calls, path):
    """Seconds that the calls alone take."""
    return float(subprocess.run([calls, path], capture_output=True, check=True).stdout)


def load(folder, path, **more):
    """Seconds of a load into a new book."""
    for name in ("book", "book.journal"):
        if os.path.exists(os.path.join(folder, name)):
            os.remove(os.path.join(folder, name))
    return timed([TOOL, "load", os.path.join(folder, "book"), path], **more)


def flushes_of(folder, path):
    """How often a load flushes a batch, and how often other files and folders."""
    log = os.path.join(folder, "log")
    load(folder, path, env=dict(os.environ, LD_PRELOAD=crash_library(folder), CRASH_LOG=log))
    with open(log) as file:
        letters = file.read()
    return letters.count("d"), letters.count("f")


def flushed_alone(folder, count):
    """Seconds of as many writes of a batch's bytes, each with its flush."""
    with open(os.path.join(folder, "flushed"), "wb", buffering=0) as file:
        begun = time.monotonic()
        for _ in range(count):
            file.write(bytes(BATCH * ENTRY))
            os.fdatasync(file)
        return time.monotonic() - begun


def table(title, note, rows):
    print("\n### %s\n\n%s\n" % (title, note))
    width = max(len(name) for name, _ in rows)
    print("| %-*s |   seconds |\n|-%s-|----------:|" % (width, "", "-" * width))
    for name, seconds in rows:
        print("| %-*s | %9.4f |" % (width, name, seconds))


def print_tool(folder, calls, rounds):
    path = written(folder, 10000)
    batches, others = flushes_of(folder, path)
    loads = [load(folder, path) for _ in range(rounds)]
    table("The tool", "`yordzepa load` of a day of 10,000 records into a new book on the repository's "
          "disk: %d batches of at most %d records with one flush each, and %d flushes for the "
          "journal's making and the book's file. The least of %d rounds." % (batches, BATCH, others, rounds),
          [("the calls alone, through the library", min(alone(calls, path) for _ in range(rounds))),
           ("load, of the processor", min(load[1] for load in loads)),
           ("%d writes of a batch's bytes, each flushed, alone" % batches,
            min(flushed_alone(folder, batches) for _ in range(rounds))),
           ("load, by the clock", min(load[0] for load in loads))])


def print_program(folder, calls, rounds):
    path = written(folder, 100000)

    def program():
        with open(path, "rb") as records:
            return timed([PROGRAM], stdin=records)
    runs = [program() for _ in range(rounds)]
    table("The program", "`crates/desk/out/desk` on 100,000 records from a file. The least of %d rounds."
          % rounds,
          [("the calls alone, through the library", min(alone(calls, path) for _ in range(rounds))),
           ("the program, of the processor", min(run[1] for run in runs)),
           ("the program, by the clock", min(run[0] for run in runs))])


def main():
    rounds = 5
    # Beside the build, so that flushes go to a disk and not to memory.
    with tempfile.TemporaryDirectory(dir=os.path.join(ROOT, "build")) as folder:
        calls = calls_program(folder)
        print_tool(folder, calls, rounds)
        print_program(folder, calls, rounds)


if __name__ == "__main__":
    sys.exit(main())
