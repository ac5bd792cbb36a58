#!/usr/bin/env python3
"""Times a built program on dictionaries, token-bounded patterns and selections whose cost isn't linear, on texts made against them.

usage: hostile.py AQLX      prints the processor seconds of each run, over one document of so many tokens `a`

The views have `limit 1`, so that few rows are written.
"""
import json
import pathlib
import resource
import subprocess
import sys
import tempfile


def tokens(number):
    return " ".join(["a"] * number)


def dictionary(entries):
    listed = ", ".join(f"'{entry}'" for entry in entries)
    return f"create dictionary D as ({listed});\ncreate view V as extract dictionary D on X.text as m from Document X limit 1;\noutput view V;\n"


def token_runs(pattern, high):
    return f"create view V as extract regex /{pattern}/ on between 1 and {high} tokens in X.text as m from Document X limit 1;\noutput view V;\n"


def selection(where):
    """Of three views with a row for each token, the combinations on which some conditions hold."""
    found = "create view N as extract regex /a/ on X.text as n from Document X;\n"
    return f"{found}create view V as select A.n as a, B.n as b, C.n as c from N A, N B, N C where {where} limit 1;\noutput view V;\n"


def seconds(aqlx, program, number):
    """The processor time of one run over a document of so many tokens."""
    with tempfile.TemporaryDirectory() as folder:
        file = pathlib.Path(folder) / "program.aql"
        file.write_text(program)
        line = json.dumps({"text": tokens(number)}).encode() + b"\n"
        before = resource.getrusage(resource.RUSAGE_CHILDREN)
        done = subprocess.run([aqlx, "run", str(file)], input=line, stdout=subprocess.DEVNULL)
        after = resource.getrusage(resource.RUSAGE_CHILDREN)
        if done.returncode != 0:
            sys.exit(f"hostile: {aqlx} ended with {done.returncode}")
    return after.ru_utime - before.ru_utime + after.ru_stime - before.ru_stime


def main():
    if len(sys.argv) != 2:
        sys.exit(__doc__)
    aqlx = sys.argv[1]
    runs = [(f"one entry of {n} tokens", dictionary([tokens(n)]), m) for n, m in ((10, 20000), (100, 20000), (1000, 20000), (5000, 10000), (10000, 20000), (20000, 40000))]
    runs += [(f"entries of 1 to {n} tokens", dictionary([tokens(i) for i in range(1, n + 1)]), 10000) for n in (10, 100, 300)]
    runs += [(f"/{pattern}/ on between 1 and {high} tokens", token_runs(pattern, high), 10000) for pattern in ("a( a)*", "b", "(a )*b") for high in (10, 100, 1000)]
    beside = "Follows(A.n, B.n, 1, 1){0}Follows(B.n, C.n, 1, 1)"
    runs += [(f"three sources and {kind}", selection(where), 300) for kind, where in (("two conditions", beside.format(" and ")), ("an And of two", f"And({beside.format(', ')})"))]
    for name, program, number in runs:
        print(f"{name}, {number} tokens: {seconds(aqlx, program, number):.3f} s", flush=True)


main()
