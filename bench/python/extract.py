#!/usr/bin/env python3
"""What aqlx does with some programs of bench/programs, written by hand with Python's `json` and `re`: JSON lines from standard
input, for each document a JSON line with its views. For comparison only.

usage: extract.py PROGRAM      digits, numbers, addresses, patterns or logs
"""
import collections
import json
import re
import sys

quoted = json.JSONEncoder(ensure_ascii=False).encode
BLANK = b" \t\r\n"
# what isn't white space in Unicode: \S also leaves out four control characters
VISIBLE = r"[^\t-\r \x85\xa0\u1680\u2000-\u200a\u2028\u2029\u202f\u205f\u3000]"


def span(begin, end, text):
    """A span as it is written."""
    return f'{{"begin":{begin},"end":{end},"text":{quoted(text)}}}'


def found(pattern, text):
    """The list of rows with the successive matches of a pattern."""
    rows = [f'{{"found":{span(at.start(), at.end(), at.group())}}}' for at in pattern.finditer(text)]
    return f"[{','.join(rows)}]"


def of_patterns(**patterns):
    """The views of patterns that are put out as they are."""
    compiled = [(name, re.compile(pattern)) for name, pattern in sorted(patterns.items())]

    def views(text):
        return "{" + ",".join(f'"{name}":{found(pattern, text)}' for name, pattern in compiled) + "}"

    return views


def grouped(pattern, text, columns):
    """The matches of a pattern, and the list of their rows: columns, in the order of their names, with groups."""
    matches = list(pattern.finditer(text))
    row = lambda at: ",".join(f'"{name}":{span(*at.span(group), at.group(group))}' for name, group in columns)
    return matches, f"[{','.join(f'{{{row(at)}}}' for at in matches)}]"


def of_logs():
    """The views of the program `logs`."""
    record = re.compile(
        r"(?m)^([0-9]{4}-[0-9]{2}-[0-9]{2}|[A-Z][a-z]{2} [ 0-9][0-9]) ([0-9]{2}:[0-9]{2}:[0-9]{2}) (" + VISIBLE + r"+) ([^\n]*)"
    )
    change = re.compile(
        r"(?m)^ ?-- ([^<\n]+) <([^>\n]+)>  ([A-Z][a-z]{2}, [ 0-9]{2} [A-Z][a-z]{2} ([0-9]{4}) [0-9:]{8} [+-][0-9]{4})"
    )
    entry = re.compile(r"(?m)^(([0-9]{4})-[0-9]{2}-[0-9]{2})  ([^<\n]+)  <([^>\n]+)>")

    def views(text):
        records, record_rows = grouped(record, text, [("date", 1), ("message", 4), ("source", 3), ("time", 2)])
        changes, change_rows = grouped(change, text, [("date", 3), ("mail", 2), ("name", 1), ("year", 4)])
        signed, entry_rows = grouped(entry, text, [("date", 1), ("mail", 4), ("name", 3), ("year", 2)])
        sources = collections.Counter(at.group(3) for at in records)
        years = collections.defaultdict(list)
        for mail, year in [at.group(2, 4) for at in changes] + [at.group(4, 2) for at in signed]:
            years[mail].append(year)
        source_rows = ",".join(f'{{"records":{number},"source":{quoted(source)}}}' for source, number in sorted(sources.items()))
        author_rows = ",".join(
            f'{{"changes":{len(listed)},"first":"{min(listed)}","last":"{max(listed)}","mail":{quoted(mail)}}}'
            for mail, listed in sorted(years.items())
        )
        return (
            f'{{"Authors":[{author_rows}],"Change":{change_rows},"Entry":{entry_rows},'
            f'"Record":{record_rows},"Sources":[{source_rows}]}}'
        )

    return views


def of_program(name):
    """What gives the views of a text."""
    match name:
        case "digits":
            return of_patterns(Match="[0-9]+")
        case "numbers":
            return of_patterns(Match="[0-9]{3}-[0-9]{4}")
        case "addresses":
            return of_patterns(Match="[A-Za-z0-9.]+@[A-Za-z0-9.]+")
        case "patterns":
            return of_patterns(
                Address=r"[A-Za-z0-9._%+-]+@[A-Za-z0-9-]+(\.[A-Za-z0-9-]+)+",
                Phone=r"(\+[0-9]{1,3}[ -])?(\([0-9]{3}\) ?|[0-9]{3}-)?[0-9]{3}-[0-9]{4}",
                Amount=r"[$€£] ?[0-9]+([.,][0-9]+)*|[0-9]+([.,][0-9]+)* ?(EUR|USD|KB|MB|GB)",
                Date=r"[0-9]{4}-[0-9]{2}-[0-9]{2}|[0-9]{1,2} (Jan|Feb|Mar|Apr|May|Jun|Jul|Aug|Sep|Oct|Nov|Dec)[a-z]* [0-9]{4}",
            )
        case "logs":
            return of_logs()
        case _:
            sys.exit(__doc__)


def main():
    if len(sys.argv) != 2:
        sys.exit(__doc__)
    views = of_program(sys.argv[1])
    write = sys.stdout.buffer.write
    for line in sys.stdin.buffer:
        if not line.strip(BLANK):
            continue
        document = json.loads(line)
        label = document.get("label")
        labelled = f'"label":{quoted(label)},' if isinstance(label, str) else ""
        write(f'{{{labelled}"views":{views(document["text"])}}}\n'.encode())


main()
