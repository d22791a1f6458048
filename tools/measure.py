#!/usr/bin/env python3
"""Measures the bench, alone or against another program for the same scripts.

usage: tools/measure.py [PEER]

Run it from the repository's root after `rt run` in crates/bench and in crates/inspect. It prints how long building a full
heap, gradings and bad lines take, how the time of a grading grows with the heap,
and how a grading of a saved heap compares with that of a live one. With the path of a PEER program
that reads the same scripts from standard input it also prints the ratios, bench over peer.
Each time is the least of several runs. Nothing of this is part of the gate.
"""
import random
import struct
import subprocess
import sys
import tempfile
import time

BENCH = "crates/bench/out/bench"
INSPECT = "crates/inspect/out/inspect"
RUNS = 9
STRENGTHS = "sfwp"


def full_heap(cells, records, seed=7):
    """cells' sizes and records of a heap with that many of each, most of them links"""
    rnd = random.Random(seed)
    sizes = [rnd.randint(1, 4096) for _ in range(cells)]
    made = []
    for r in range(records):
        kind = rnd.random()
        pick = lambda: rnd.randrange(cells)
        if r % 512 == 0:
            made.append(("r", pick()))
        elif kind < 0.7:
            made.append(("l", pick(), pick(), rnd.choice("sssfwp")))
        else:
            made.append(("e", pick(), pick(), pick()))
    return sizes, made


def script_of(heap):
    sizes, records = heap
    lines = [f"c {n} {size}" for n, size in enumerate(sizes)]
    for r, (kind, *rest) in enumerate(records):
        lines.append(f"{kind} {r} " + " ".join(str(x) for x in rest))
    return lines


def file_of(heap):
    """the heap as a saved file, laid out as docs/SNAPSHOTS.md says"""
    sizes, records = heap
    parts = [b"".join(struct.pack("<HHI", n, 0, s) for n, s in enumerate(sizes)), b"", b"", b""]
    for r, (kind, *rest) in enumerate(records):
        if kind == "r":
            parts[1] += struct.pack("<HH", r, *rest)
        elif kind == "l":
            parts[2] += struct.pack("<HHHH", r, rest[0], rest[1], STRENGTHS.index(rest[2]))
        else:
            parts[3] += struct.pack("<HHHH", r, *rest)
    head, at = bytes([69, 72, 1, 4]), 36
    for part in parts:
        head += struct.pack("<II", at, len(part))
        at += len(part)
    return head + b"".join(parts)


def seconds(program, lines):
    """the least time of several runs of a program on a script"""
    text = ("\n".join(lines) + "\n").encode()
    best = None
    for _ in range(RUNS):
        with tempfile.TemporaryFile() as source:
            source.write(text)
            source.seek(0)
            begun = time.perf_counter()
            subprocess.run([program], stdin=source, stdout=subprocess.DEVNULL, check=True)
            took = time.perf_counter() - begun
        best = took if best is None else min(best, took)
    return best


def run_of(words, count=100):
    """the mean time of a program with arguments, over the best of several rounds"""
    best = None
    for _ in range(5):
        begun = time.perf_counter()
        for _ in range(count):
            subprocess.run(words, stdout=subprocess.DEVNULL, check=True)
        took = (time.perf_counter() - begun) / count
        best = took if best is None else min(best, took)
    return best


def ratio(name, ours, theirs):
    if theirs is None:
        print(f"{name}: {1000 * ours:.2f} ms")
    else:
        print(f"{name}: {1000 * ours:.2f} ms, peer {1000 * theirs:.2f} ms, ratio {ours / theirs:.2f}")


def main():
    peer = sys.argv[1] if len(sys.argv) > 1 else None
    programs = [BENCH] + ([peer] if peer else [])
    heap = full_heap(1024, 4096)
    built = script_of(heap)

    def both(lines, less=None):
        times = [seconds(p, lines) - (seconds(p, less) if less else 0) for p in programs]
        return times[0], times[1] if peer else None

    for scheme in "sbd":
        ratio(f"500 gradings by {scheme}", *both(built + [f"g {scheme}"] * 500, built))
    ratio("building a full heap", *both(built))
    bad = ["l 4096 2 3 q", "c 1024 1", "z", "r 1", "c 0 0", "x 4096", "e 1 2 3", "g q", "c 00 1", "w s 1024"]
    ratio("refusing 100,000 lines", *both(bad * 10000))

    print("a grading by bytes, live, as the heap grows:")
    for cells, records in ((128, 512), (256, 1024), (512, 2048), (1024, 4096)):
        lines = script_of(full_heap(cells, records))
        took = seconds(BENCH, lines + ["g b"] * 500) - seconds(BENCH, lines)
        print(f"  {cells} cells, {records} records: {1e6 * took / 500:.0f} us")

    print("a grading by bytes of a full heap, saved:")
    with tempfile.NamedTemporaryFile() as saved:
        saved.write(file_of(heap))
        saved.flush()
        took = run_of([INSPECT, saved.name, "b"]) - run_of([INSPECT, saved.name])
        print(f"  {1e6 * took:.0f} us")


main()
