#!/usr/bin/env python3
"""Writes large programs, or times how long a built program takes to check them.

usage: programs.py write FOLDER          writes each as FOLDER/NAME.aql
       programs.py time AQLX [ROUNDS]    prints the best time of ROUNDS (default 5) runs of each on an empty corpus

Each program stands there as it is, and once more with a fault in its last part, so that all before it is checked.
"""
import os
import pathlib
import subprocess
import sys
import tempfile
import time

VIEWS = 2000
STATEMENTS = 2000
ITEMS = 2000
NESTING = 64
BYTES = 1 << 20


def of_document(name, column):
    return f"create view {name} as extract regex /[0-9]+/ on D.text as {column} from Document D;\n"


def views(last):
    """As many views as a program has statements, each of the document alone."""
    return "".join(of_document(f"V{i}", "n") for i in range(VIEWS - 1)) + f"create view Last as select D.{last} from Document D;\n"


def items(last):
    """A view whose query has many items, each with a name of its own."""
    listed = ", ".join(f"GetLength(N.n) as c{i}" for i in range(ITEMS - 1))
    return of_document("N", "n") + f"create view Wide as select {listed}, N.{last} from N;\n"


def nested_calls(last):
    """Calls as deep as parentheses nest."""
    return f"create view Deep as select {'Not(' * (NESTING - 1)}Equals(D.{last}, D.text){')' * (NESTING - 1)} as b from Document D;\n"


def nested_queries(last):
    """Queries in queries as deep as parentheses nest."""
    query = f"select D.{last} as n from Document D"
    for _ in range(NESTING):
        query = f"select N.n from ({query}) N"
    return f"create view Deep as {query};\n"


def chain(last):
    """Each view over the one before it."""
    links = "".join(f"create view V{i} as select V{i - 1}.n from V{i - 1};\n" for i in range(1, VIEWS - 1))
    return of_document("V0", "n") + links + f"create view Last as select V{VIEWS - 2}.{last} from V{VIEWS - 2};\n"


def star(last):
    """Each view over one and the same, which stands behind them all."""
    rays = "".join(f"create view V{i} as select Base.n from Base;\n" for i in range(VIEWS - 2))
    return rays + f"create view Last as select Base.{last} from Base;\n" + of_document("Base", "n")


def wide_chain(last):
    """Views with many columns, each over the one before it."""
    columns = 200
    first = "create view Wide0 as select " + ", ".join(f"{i} as c{i}" for i in range(columns)) + " from Document D;\n"
    links = "".join(
        f"create view Wide{k} as select " + ", ".join(f"Wide{k - 1}.c{i}" for i in range(columns)) + f" from Wide{k - 1};\n"
        for k in range(1, 400)
    )
    return first + links + f"create view Last as select W399.{last} from Wide399;\n"


def wide_star(last):
    """Each view over one and the same, which has many columns, of which it reads the last."""
    columns = 1000
    base = "create view Base as select " + ", ".join(f"{i} as c{i}" for i in range(columns)) + " from Document D;\n"
    rays = "".join(f"create view V{i} as select Base.c{columns - 1} from Base;\n" for i in range(VIEWS - 2))
    return base + rays + f"create view Last as select Base.{last} from Base;\n"


def patterns(last):
    """A pattern of its own in each view."""
    found = "".join(f"create view P{i} as extract regex /{i}[a-z]/ on D.text as n from Document D;\n" for i in range(VIEWS - 1))
    return found + f"create view Last as select D.{last} from Document D;\n"


def megabyte(last):
    """Nearly as many bytes as a program may have: views with items, conditions and clauses."""
    parts = [of_document("N", "n")]
    end = f"create view Last as select N.{last} from N;\n"
    left = BYTES - len(parts[0]) - len(end)
    for count in range(STATEMENTS - 2):
        listed = ", ".join(f"CombineSpans(LeftContext(A.n, {i}), B.n) as c{i}" for i in range(8))
        conds = " and ".join(f"Not(Equals(GetLength(A.n), {count + i}))" for i in range(8))
        view = f"create view V{count} as select {listed} from N A, N B where Follows(A.n, B.n, 0, 9) and {conds} " \
            "consolidate on c1 using 'LeftToRight' order by c2, c3 limit 9;\n"
        left -= len(view)
        if left < 0:
            break
        parts.append(view)
    return "".join(parts) + end


# each with the column with which its last part has no fault
PROGRAMS = {
    "views": (views, "text"),
    "items": (items, "n"),
    "nested_calls": (nested_calls, "text"),
    "nested_queries": (nested_queries, "text"),
    "chain": (chain, "n"),
    "star": (star, "n"),
    "wide_chain": (wide_chain, "c199"),
    "wide_star": (wide_star, "c999"),
    "patterns": (patterns, "text"),
    "megabyte": (megabyte, "n"),
}


def write(folder):
    """Writes each program, and the one with a fault in its last part as NAME_faulty.aql."""
    folder.mkdir(parents=True, exist_ok=True)
    for name, (program, column) in PROGRAMS.items():
        (folder / f"{name}.aql").write_text(program(column))
        (folder / f"{name}_faulty.aql").write_text(program("none"))


def run(words):
    """The seconds that a command takes on no input, and what it says on standard error."""
    began = time.perf_counter()
    ended = subprocess.run(words, stdin=subprocess.DEVNULL, capture_output=True, text=True)
    return time.perf_counter() - began, ended.stderr.strip()


def measure(aqlx, rounds):
    """Prints the best of so many rounds for each program, with and without its fault."""
    print("program | bytes | ms | ms to its fault | the line of the fault")
    with tempfile.TemporaryDirectory() as folder:
        folder = pathlib.Path(folder)
        write(folder)
        for name in PROGRAMS:
            best = {}
            for kind in (name, f"{name}_faulty"):
                runs = [run([aqlx, "run", str(folder / f"{kind}.aql")]) for _ in range(rounds)]
                best[kind] = min(seconds for seconds, _ in runs), runs[0][1]
            (whole, said), (fault, line) = best.values()
            size = (folder / f"{name}.aql").stat().st_size
            print(f"{name} | {size} | {whole * 1000:.1f} | {fault * 1000:.1f} | {line}{' | ' + said if said else ''}")


def main():
    match sys.argv[1:]:
        case ["write", folder]:
            write(pathlib.Path(folder))
        case ["time", aqlx, *rounds]:
            measure(os.path.abspath(aqlx), int(rounds[0]) if rounds else 5)
        case _:
            sys.exit(__doc__)


main()
