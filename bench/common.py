"""What bench/run and bench/growth.py share: where things are, the text of a program, and how a command is timed.

From the environment:

  AQLX        the program (default: crates/aqlx/out/aqlx)
  BENCH_DATA  the folder with mail-M.jsonl, tiny-M.jsonl, large-M.jsonl and utf8-M.jsonl (default: bench/data)
"""
import json
import os
import pathlib
import random
import re
import subprocess
import sys
import time

HERE = pathlib.Path(__file__).resolve().parent
AQLX = os.environ.get("AQLX") or str(HERE.parent / "crates/aqlx/out/aqlx")
DATA = pathlib.Path(os.environ.get("BENCH_DATA") or HERE / "data")
TIME = "/usr/bin/time"
NAMES = [
    "digits", "numbers", "addresses", "patterns", "tokens", "dictionary-1000", "dictionary-10000", "logs", "names", "orders",
    "demo",
]
JOINS = ["follows", "contains", "overlaps"]
DEMO = HERE.parent / "examples/demo/program.aql"
SYLLABLES = ["ba", "cor", "dem", "fu", "gil", "ha", "jo", "kem", "lun", "mi", "nor", "pe", "qua", "ri", "sol", "tav", "vex", "zu"]


def stop(why):
    """Ends with one line that says what to do."""
    sys.exit(f"bench/{pathlib.Path(sys.argv[0]).name}: {why}")


def look_for_programs():
    """Ends where a program isn't there."""
    if not os.access(AQLX, os.X_OK):
        stop(f"{AQLX} isn't there: build it by scripts/build, or name another program by AQLX=PROGRAM")
    if not os.access(TIME, os.X_OK):
        stop(f"{TIME} isn't there: apt install time")


def look_for_names(names, known):
    """Ends where a name is none of the known ones."""
    if unknown := [name for name in names if name not in known]:
        stop(f"no program {unknown[0]}: there are {', '.join(known)}")


def processor():
    """What the system calls the processor."""
    for line in open("/proc/cpuinfo", encoding="utf-8"):
        if line.startswith("model name"):
            return line.split(":", 1)[1].strip()
    return "unnamed"


def machine():
    """The date, the processors and the load, for the head of a table."""
    return f"{time.strftime('%Y-%m-%d')}, {os.cpu_count()} processors ({processor()}), load {os.getloadavg()[0]:.2f}"


def entries(corpus, number):
    """So many entries of a dictionary, the same ones for the same corpus.

    Each twentieth is a word of the corpus and each twentieth two words that stand side by side there; the others are
    one to three words that no text has.
    """
    chosen = random.Random(number)
    words, read = [], 0
    with open(corpus, encoding="utf-8") as lines:
        for line in lines:
            text = json.loads(line)["text"]
            words += re.findall(r"[^\W\d_]{4,}", text)
            read += len(text)
            if read > 2_000_000:
                break
    if len(words) < 2:
        stop(f"{corpus} has no words for a dictionary")
    single = sorted(set(words))
    pairs = sorted(set(zip(words, words[1:])))
    made = lambda: "".join(chosen.choices(SYLLABLES, k=4))
    listed = [chosen.choice(single) for _ in range(number // 20)] + [" ".join(chosen.choice(pairs)) for _ in range(number // 20)]
    listed += [" ".join(made() for _ in range(chosen.randint(1, 3))) for _ in range(number - len(listed))]
    chosen.shuffle(listed)
    return listed


def text_of(name, corpus, work):
    """The file of a program, and that of its dictionary's entries, one a line; none where it has none of its own."""
    kind, _, number = name.partition("-")
    program = DEMO if kind == "demo" else HERE / f"programs/{kind}.aql"
    if not number.isdigit():
        return program, None
    listed = entries(corpus, int(number))
    written, words = work / "program.aql", work / "entries"
    quoted = ",\n  ".join(f"'{entry}'" for entry in listed)
    written.write_text(f"{program.read_text()}create dictionary Words as (\n  {quoted});\n", encoding="utf-8")
    words.write_text("".join(f"{entry}\n" for entry in listed), encoding="utf-8")
    return written, words


def run(words, corpus, output, work):
    """The seconds that a command takes from `corpus` to `output`, and its peak memory in MB."""
    memory = work / "memory"
    with open(corpus, "rb") as given, open(output, "wb") as taken:
        began = time.perf_counter()
        status = subprocess.run([TIME, "-f", "%M", "-o", memory, *words], stdin=given, stdout=taken).returncode
        seconds = time.perf_counter() - began
    if status != 0:
        stop(f"{' '.join(words)} < {corpus} ended with status {status}")
    return seconds, int(memory.read_text().split()[-1]) / 1024
