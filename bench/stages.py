#!/usr/bin/env python3
"""Compares and times the plans of a program at the stages of their making, by the program plan_stages.

usage: stages.py compare FOLDER [--jobs J]            whether the plans of all stages write the same bytes for each case of a folder
       stages.py time PROGRAM CORPUS [STAGE ..]       the best of ROUNDS (default 5) runs at each stage, taken in turn
       stages.py share NUMBER                         the best of ROUNDS times in which `share` makes one of equal nodes, of a plan of about so many
       stages.py write FOLDER CORPUS                  the programs to be timed, and the documents for some of them

  STAGE        lowered pushed shared normal, or all of them
  CORPUS       JSON lines; `write` takes the words of its dictionaries from one
  a case       a folder with program.aql and corpus.jsonl; where it has a file stdout too, that is what has to be written
  PLAN_STAGES  from the environment: the program (default: crates/plan_stages/out/plan_stages)

Times are user seconds of the process, with the time of the start and of the plan's making in them; `time` also runs each stage once
with its output in a file, and ends with 1 where outputs differ, as `compare` does.
"""
import concurrent.futures
import hashlib
import json
import os
import pathlib
import random
import re
import shutil
import subprocess
import sys
import tempfile

HERE = pathlib.Path(__file__).resolve().parent
PLAN_STAGES = os.environ.get("PLAN_STAGES") or str(HERE.parent / "crates/plan_stages/out/plan_stages")
ROUNDS = int(os.environ.get("ROUNDS") or 5)
STAGES = ["lowered", "pushed", "shared", "normal"]
PROGRAMS = HERE / "programs"
TIMED = ["rare", "follows", "contains", "overlaps"]
SYLLABLES = ["ba", "cor", "dem", "fu", "gil", "ha", "jo", "kem", "lun", "mi", "nor", "pe", "qua", "ri", "sol", "tav", "vex", "zu"]
DICTIONARIES = 10
ENTRIES = 1000
SECONDS_OF_A_CASE = 60


def stop(why):
    """Ends with one line that says what to do."""
    sys.exit(f"stages.py: {why}")


# ---------------------------------------------------------------- compare

def answer(stage, case):
    """What the plan of a stage writes for a case, and whether it came to an end as it should."""
    with open(case / "corpus.jsonl", "rb") as corpus:
        words = [PLAN_STAGES, stage, str(case / "program.aql")]
        ended = subprocess.run(words, stdin=corpus, capture_output=True, timeout=SECONDS_OF_A_CASE)
    return ended.stdout, ended.returncode, ended.stderr


def compared(case):
    """The stages that write other bytes for a case than the first, with what that one writes; `wanted` where that isn't what the case wants."""
    first = answer(STAGES[0], case)
    wanted = case / "stdout"
    apart = ["wanted"] if wanted.is_file() and wanted.read_bytes() != first[0] else []
    apart += [stage for stage in STAGES[1:] if answer(stage, case) != first]
    return apart, first


def compare(folder, jobs):
    """Prints each case on which stages differ, and how many agree."""
    cases = sorted(path.parent for path in folder.glob("*/program.aql"))
    wrong = refused = rows = 0
    with concurrent.futures.ThreadPoolExecutor(jobs) as pool:
        for case, (apart, (out, status, said)) in zip(cases, pool.map(compared, cases)):
            refused += status != 0 and not out
            rows += b"begin" in out
            if apart:
                wrong += 1
                print(f"{case}: {' '.join(apart)}", said.decode(errors="replace").strip(), flush=True)
    print(f"{len(cases)} cases, {wrong} with other bytes; {rows} with spans in what is written, {refused} refused with nothing written")
    return wrong == 0


# ---------------------------------------------------------------- time

def run(words, corpus, output):
    """The user seconds of a command from `corpus` to `output`."""
    with open(corpus, "rb") as given, open(output, "wb") as taken:
        process = subprocess.Popen(words, stdin=given, stdout=taken)
        _, status, used = os.wait4(process.pid, 0)
        process.returncode = os.waitstatus_to_exitcode(status)
    if process.returncode != 0:
        stop(f"{' '.join(words)} < {corpus} ended with status {process.returncode}")
    return used.ru_utime


def measure(program, corpus, stages):
    """Prints the line of each stage; whether all write the same."""
    sums, best = {}, {}
    with tempfile.TemporaryDirectory() as folder:
        output = pathlib.Path(folder) / "output"
        for stage in stages:
            run([PLAN_STAGES, stage, program], corpus, output)
            with open(output, "rb") as written:
                sums[stage] = hashlib.file_digest(written, "sha256").hexdigest()
    for _ in range(ROUNDS):
        for stage in stages:
            seconds = run([PLAN_STAGES, stage, program], corpus, os.devnull)
            best[stage] = min(best.get(stage, seconds), seconds)
    print(f"{program} over {corpus}, {os.path.getsize(corpus) / 1e6:.1f} MB; best of {ROUNDS}, load {os.getloadavg()[0]:.1f} on {os.cpu_count()} processors")
    print("stage | user s | MB/s | times the first | output")
    for stage in stages:
        seconds = max(best[stage], 0.001)
        speed = os.path.getsize(corpus) / 1e6 / seconds
        print(f"{stage} | {seconds:.3f} | {speed:.1f} | {best[stages[0]] / seconds:.2f} | {sums[stage][:12]}", flush=True)
    return len(set(sums.values())) == 1


def share(number):
    """Prints how long `share` takes on a plan of about so many nodes."""
    times = []
    for _ in range(ROUNDS):
        ended = subprocess.run([PLAN_STAGES, "nodes", number], capture_output=True, text=True)
        said = re.fullmatch(r"share: (\d+) us\n", ended.stderr)
        if ended.returncode != 0 or not said:
            stop(f"{PLAN_STAGES} nodes {number} ended with status {ended.returncode}: {ended.stderr.strip()}")
        times.append(int(said[1]) / 1000)
    print(f"{ended.stdout.strip()}; best of {ROUNDS} {min(times):.2f} ms, worst {max(times):.2f} ms")


# ---------------------------------------------------------------- write

def words_of(corpus):
    """Words of a corpus, each once."""
    words, read = set(), 0
    with open(corpus, encoding="utf-8") as lines:
        for line in lines:
            text = json.loads(line)["text"]
            words.update(re.findall(r"[^\W\d_]{4,}", text))
            read += len(text)
            if read > 2_000_000:
                break
    return sorted(words)


def dictionaries(corpus):
    """Ten dictionaries of 1,000 entries each on the document: a tenth of the entries are words of the corpus, and no text has the others."""
    chosen = random.Random(ENTRIES)
    words = words_of(corpus)
    if len(words) < ENTRIES // 10:
        stop(f"{corpus} has too few words for a dictionary")
    made = lambda: "".join(chosen.choices(SYLLABLES, k=4))
    text = "-- dictionaries of one column\n"
    for d in range(DICTIONARIES):
        listed = chosen.sample(words, ENTRIES // 10)
        listed += [" ".join(made() for _ in range(chosen.randint(1, 3))) for _ in range(ENTRIES - len(listed))]
        chosen.shuffle(listed)
        quoted = ",\n  ".join(f"'{entry}'" for entry in listed)
        text += f"create dictionary Words{d} as (\n  {quoted});\n"
        text += f"create view Found{d} as extract dictionary Words{d} on D.text as found from Document D;\noutput view Found{d};\n"
    return text


def sales(number):
    """One document of so many sales, about 40 characters each."""
    chosen = random.Random(number)
    names = ["Adams", "Brook", "Clark", "Davis", "Evans", "Frank", "Green", "Hills"]
    one = lambda: f"no {chosen.randint(1000, 9999)} {chosen.choice(names)} of {chosen.choice(['york', 'bath', 'hull'])} {chosen.choice(['paid', 'open', 'late'])} in full today; "
    return json.dumps({"text": "".join(one() for _ in range(number))}) + "\n"


def write(folder, corpus):
    """Writes the programs, and documents of 1,000 and of 5,000 sales."""
    folder.mkdir(parents=True, exist_ok=True)
    for program in (PROGRAMS / f"{name}.aql" for name in TIMED):
        shutil.copy(program, folder)
    (folder / "dictionaries.aql").write_text(dictionaries(corpus), encoding="utf-8")
    for number in (1000, 5000):
        (folder / f"sales-{number}.jsonl").write_text(sales(number))


def main():
    match sys.argv[1:]:
        case ["compare", folder, "--jobs", jobs]:
            sys.exit(0 if compare(pathlib.Path(folder), int(jobs)) else 1)
        case ["compare", folder]:
            sys.exit(0 if compare(pathlib.Path(folder), 1) else 1)
        case ["time", program, corpus, *stages]:
            sys.exit(0 if measure(program, corpus, stages or STAGES) else 1)
        case ["share", number]:
            share(number)
        case ["write", folder, corpus]:
            write(pathlib.Path(folder), corpus)
        case _:
            sys.exit(__doc__)


main()
