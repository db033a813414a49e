#!/usr/bin/env python3
"""Prints the library's speed beside the plain Rust model's as a markdown table.

`measure.py [NAME..]`: only the rows whose names begin so; without a name all of them. A limit,
plain copying in Rust, has one figure, in the model's column.

Instructions are counted by callgrind: each operation is run a few times and a few more times, and
the difference is shared out. The C library's string instructions are turned off for that, since
callgrind counts them by the byte. Nanoseconds are the best of several batches.
"""
import os
import re
import subprocess
import sys

TESTS = os.path.dirname(os.path.dirname(os.path.abspath(__file__)))
BENCH = os.path.join(TESTS, "target", "release", "bench")
FEW, MORE = 3, 13
NO_STRING_INSTRUCTIONS = ("glibc.cpu.x86_rep_movsb_threshold=1000000000:"
                          "glibc.cpu.x86_rep_stosb_threshold=1000000000")


def main():
    build = ["cargo", "build", "--release", "--offline", "-j1", "-p", "bench"]
    subprocess.run(build, cwd=TESTS, check=True)
    names = rows(sys.argv[1:])
    print("| operation | library instructions | model instructions | ratio | library ns | model ns |")
    print("|---|---:|---:|---:|---:|---:|")
    for name in names:
        times = [float(time) for time in output([BENCH, "time", name]).split()]
        subjects = ["library", "model"] if len(times) == 2 else ["model"]
        counts = [instructions(name, subject) for subject in subjects]
        print(row(name, counts, times), flush=True)


def rows(wanted):
    """The names of the rows asked for, in the table's order."""
    names = output([BENCH, "list"]).splitlines()
    for start in wanted:
        if not any(name.startswith(start) for name in names):
            sys.exit(f"no row begins with '{start}'; there are: {'; '.join(names)}")
    return [name for name in names if not wanted or name.startswith(tuple(wanted))]


def row(name, counts, times):
    if len(times) == 1:
        return f"| {name} | | {counts[0]:,.0f} | | | {times[0]:,.0f} |"
    return (f"| {name} | {counts[0]:,.0f} | {counts[1]:,.0f} | {counts[0] / counts[1]:.2f} "
            f"| {times[0]:,.0f} | {times[1]:,.0f} |")


def instructions(name, subject):
    """Instructions each time."""
    few, more = (collected(name, subject, times) for times in (FEW, MORE))
    return (more - few) / (MORE - FEW)


def collected(name, subject, times):
    command = ["valgrind", "--tool=callgrind", "--callgrind-out-file=/dev/null",
               BENCH, "do", name, subject, str(times)]
    environment = os.environ | {"GLIBC_TUNABLES": NO_STRING_INSTRUCTIONS}
    run = subprocess.run(command, env=environment, capture_output=True, text=True, check=True)
    return int(re.search(r"Collected : (\d+)", run.stderr).group(1))


def output(command):
    return subprocess.run(command, capture_output=True, text=True, check=True).stdout


if __name__ == "__main__":
    main()
