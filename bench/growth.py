#!/usr/bin/env python3
"""Tells how the time and the memory of aqlx grow, and how long it takes to start.

usage: bench/growth.py corpus [PROGRAM ..]      the time on 2, 20 and 200 MB of mails
       bench/growth.py document [PROGRAM ..]    the time on 100 MB of one text, cut into documents of 10 KB to 10 MB
       bench/growth.py memory [PROGRAM ..]      peak memory on 20 and 200 MB of mails, of large documents of all sizes, and of
                                                large documents of one size
       bench/growth.py start                    the time on an empty corpus, of the demonstration and of a dictionary with
                                                10,000 entries, with that of /bin/true beside

  PROGRAM     a name that bench/run knows, or all of them but the joins
  AQLX        from the environment: the program (default: crates/aqlx/out/aqlx)
  BENCH_DATA  the folder with mail-M.jsonl and, for `memory`, large-M.jsonl (default: bench/data)
  ROUNDS      how often each is run (default: 3; 30 for `start`)
  TEXT        how many MB of text `document` cuts (default: 100)

All runs are with one worker; those of `memory` with as many as WORKERS says. Times are processor seconds, user and system, the best of all rounds, with the start in them; those
of `start` are by the clock. Behind them stand exponents: of the power of the size by which the time of a corpus, or that of one
document, grows from each size to the next, and last from the least size to the greatest. `!` marks one above 1.05 (corpus) or 1.1
(document), and a start of more than 5 ms (demonstration) or 30 ms (dictionary); ends with 1 where that is the last exponent of a
program, or a start. Memory for a document is taken once by a process and used again for the next, so with few documents (TEXT=20:
two of 10 MB) its taking shows in the exponents. Corpora stand in a folder of their own in TMPDIR while they are used, 500 MB at
most.
"""
import json
import math
import os
import pathlib
import statistics
import subprocess
import sys
import tempfile
import time

from common import AQLX, DATA, JOINS, NAMES, look_for_names, look_for_programs, machine, run, stop, text_of

ROUNDS = int(os.environ.get("ROUNDS") or 0)
WORKERS = os.environ.get("WORKERS") or "1"
MAILS = DATA / "mail-M.jsonl"
MEGABYTE = 1_000_000
CORPUS = [2 * MEGABYTE, 20 * MEGABYTE, 200 * MEGABYTE]
DOCUMENT = [10_000, 100_000, MEGABYTE, 10 * MEGABYTE]
TEXT = int(os.environ.get("TEXT") or 100) * MEGABYTE
MOST_OF_CORPUS, MOST_OF_DOCUMENT = 1.05, 1.1
STARTS = {"demo": 5, "dictionary-10000": 30}


# ---------------------------------------------------------------- corpora

def mails(size):
    """The first lines of the mails, so many bytes of them."""
    lines, read = [], 0
    with open(MAILS, "rb") as corpus:
        for line in corpus:
            if read + len(line) > size:
                break
            lines.append(line)
            read += len(line)
    return b"".join(lines)


def write_mails(size, file):
    """Writes a corpus of so many bytes: the same lines, 2 MB of them, as often as it takes."""
    lines = mails(CORPUS[0])
    with open(file, "wb") as corpus:
        for _ in range(size // CORPUS[0]):
            corpus.write(lines)


def write_one(size, file):
    """Writes a corpus of so many bytes: the large document of middle size, as often as it takes."""
    lines = sorted((DATA / "large-M.jsonl").read_bytes().splitlines(True), key=len)
    middle = lines[len(lines) // 2]
    file.write_bytes(middle * (size // len(middle)))


def one_text():
    """The texts of the mails one behind the other, over again where they aren't enough, with ASCII characters alone: whether
    a document has others decides its time too, and the larger it is the likelier it has."""
    texts, length = [], 0
    while length < TEXT:
        with open(MAILS, encoding="utf-8") as corpus:
            for line in corpus:
                if length >= TEXT:
                    break
                text = json.loads(line)["text"].encode("ascii", "ignore").decode()
                texts.append(text)
                length += len(text) + 1
    return "\n".join(texts)[:TEXT]


def write_documents(text, size, file):
    """Writes a text as documents of so many bytes each."""
    with open(file, "w", encoding="utf-8") as corpus:
        for begin in range(0, len(text), size):
            corpus.write(json.dumps({"text": text[begin : begin + size]}) + "\n")


# ---------------------------------------------------------------- times

def once(words, corpus):
    """The processor seconds of a command, and those by the clock."""
    with open(corpus, "rb") as given, open(os.devnull, "wb") as taken:
        began = time.perf_counter()
        process = subprocess.Popen(words, stdin=given, stdout=taken)
        _, status, used = os.wait4(process.pid, 0)
        seconds = time.perf_counter() - began
        process.returncode = os.waitstatus_to_exitcode(status)
    if process.returncode != 0:
        stop(f"{' '.join(map(str, words))} < {corpus} ended with status {process.returncode}")
    return used.ru_utime + used.ru_stime, seconds


def times_of(name, corpora, work):
    """The best processor seconds of a program on each corpus, the corpora in turn."""
    words = [AQLX, "run", str(text_of(name, MAILS, work)[0])]
    best = {}
    for _ in range(ROUNDS or 3):
        for corpus in corpora:
            seconds = max(once(words, corpus)[0], 1e-6)
            best[corpus] = min(best.get(corpus, seconds), seconds)
    return [best[corpus] for corpus in corpora]


def exponents(sizes, times):
    """From each size to the next, and last from the first to the last one, the power of the size by which the time grows."""
    steps = [*zip(sizes, sizes[1:], times, times[1:]), (sizes[0], sizes[-1], times[0], times[-1])]
    return [math.log(late / early) / math.log(large / small) for small, large, early, late in steps]


def print_times(names, sizes, corpora, most, whole, work):
    """Prints a line for each program: its times, and the exponents of the time of `whole` bytes, or of one document of each size."""
    print(f"{'program':<17}" + "".join(f" {named(size) + ' ms':>11}" for size in sizes) + "   exponents, from step to step and over all")
    fine = True
    for name in names:
        times = times_of(name, corpora, work)
        grown = exponents(sizes, times if whole is None else [seconds * size / whole for seconds, size in zip(times, sizes)])
        marked = "".join(f" {power:>7.3f}{'!' if power > most else ' '}" for power in grown)
        print(f"{name:<17}" + "".join(f" {seconds * 1000:>11.1f}" for seconds in times) + f"  {marked}", flush=True)
        fine = fine and grown[-1] <= most
    return fine


def named(size):
    """A number of bytes in words."""
    return f"{size // MEGABYTE} MB" if size >= MEGABYTE else f"{size // 1000} KB"


# ---------------------------------------------------------------- commands

def by_corpus(names, work):
    """Whether the time grows with the corpus no faster than is wanted."""
    corpora = [work / f"{size}.jsonl" for size in CORPUS]
    for size, corpus in zip(CORPUS, corpora):
        write_mails(size, corpus)
    return print_times(names, CORPUS, corpora, MOST_OF_CORPUS, None, work)


def by_document(names, work):
    """Whether the time of a document grows with it no faster than is wanted."""
    corpora = [work / f"{size}.jsonl" for size in DOCUMENT]
    text = one_text()
    for size, corpus in zip(DOCUMENT, corpora):
        write_documents(text, size, corpus)
    return print_times(names, DOCUMENT, corpora, MOST_OF_DOCUMENT, TEXT, work)


def memory(names, work):
    """Prints peak memory."""
    corpora = {}
    for size in CORPUS[1:]:
        corpora[f"mails {named(size)}"] = work / f"{size}.jsonl"
        write_mails(size, work / f"{size}.jsonl")
    for times in (1, 10):
        corpora[f"large x {times}"] = work / f"large-{times}.jsonl"
        (work / f"large-{times}.jsonl").write_bytes((DATA / "large-M.jsonl").read_bytes() * times)
    for size in CORPUS[1:]:
        corpora[f"one {named(size)}"] = work / f"one-{size}.jsonl"
        write_one(size, work / f"one-{size}.jsonl")
    print(f"{'program':<17}" + "".join(f" {what:>13}" for what in corpora) + "   peak memory in MB")
    for name in names:
        words = [AQLX, "run", str(text_of(name, MAILS, work)[0]), "--workers", WORKERS]
        peaks = [max(run(words, corpus, os.devnull, work)[1] for _ in range(ROUNDS or 3)) for corpus in corpora.values()]
        print(f"{name:<17}" + "".join(f" {peak:>13.1f}" for peak in peaks), flush=True)
    return True


def start(work):
    """Whether starts are as fast as is wanted."""
    commands = {"/bin/true": ["/bin/true"]} | {name: [AQLX, "run", str(text_of(name, MAILS, work)[0])] for name in STARTS}
    print(f"{'program':<17} {'best ms':>8} {'middle ms':>10} {'wanted ms':>10}")
    fine = True
    for name, words in commands.items():
        times = [once(words, os.devnull)[1] * 1000 for _ in range(ROUNDS or 30)]
        wanted = STARTS.get(name, math.inf)
        fine = fine and min(times) <= wanted
        mark = "!" if min(times) > wanted else ""
        print(f"{name:<17} {min(times):>8.2f} {statistics.median(times):>10.2f} {STARTS.get(name, '-'):>10}{mark}", flush=True)
    return fine


def main():
    commands = {"corpus": by_corpus, "document": by_document, "memory": memory}
    kind, names = sys.argv[1] if len(sys.argv) > 1 else "", sys.argv[2:]
    if kind not in commands and (kind, names) != ("start", []):
        sys.exit(__doc__)
    look_for_names(names, NAMES + JOINS)
    look_for_programs()
    if not MAILS.is_file():
        stop(f"no corpus {MAILS}: name a folder with it by BENCH_DATA=FOLDER")
    print(f"{machine()}, best of {ROUNDS or (30 if kind == 'start' else 3)} rounds")
    with tempfile.TemporaryDirectory() as folder:
        work = pathlib.Path(folder)
        fine = start(work) if kind == "start" else commands[kind](names or NAMES, work)
    sys.exit(0 if fine else 1)


main()
