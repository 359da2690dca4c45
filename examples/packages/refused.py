#!/usr/bin/env python3
"""Counts what burn refuses in assembler sources that GCC wrote.

usage: refused.py PV SOURCE.s ..

burn reports the first line that it refuses. This takes that line out, and burns again, until the source is taken. For each number
and instruction or directive it prints how many lines there are, and last how many of the functions have none.
"""
import collections
import re
import subprocess
import sys
import tempfile


def functions_of(lines):
    """Returns the function of each line, and the names of all: a function is from its label to its size."""
    names = {it[1] for line in lines if (it := re.match(r"\s+\.type\s+([\w.$]+), ?@function", line))}
    now, of_line = None, []
    for line in lines:
        label = re.match(r"([\w.$]+):", line)
        if label and label[1] in names:
            now = label[1]
        of_line.append(now)
        if re.match(r"\s+\.size\s", line):
            now = None
    return of_line, names


def refusals_of(pv, source, room):
    """Returns number, instruction and function of each line that is refused, and the number of functions."""
    with open(source, encoding="latin-1") as it:
        lines = it.read().split("\n")
    of_line, names = functions_of(lines)
    found = []
    while True:
        with open(f"{room}/it.s", "w", encoding="latin-1") as to:
            to.write("\n".join(lines))
        said = subprocess.run([pv, "burn", f"{room}/it.s", f"{room}/it.o"], stdout=subprocess.PIPE, text=True).stdout
        refused = re.match(r"refused (\d+) line (\d+)", said)
        if not refused:
            return found, names
        at = int(refused[2]) - 1
        if not lines[at].strip():
            sys.exit(f"{source}: {said.strip()}, where nothing is left")
        found.append((int(refused[1]), lines[at].split()[0], of_line[at]))
        lines[at] = ""


def main():
    pv, sources = sys.argv[1], sys.argv[2:]
    count, functions, refused = collections.Counter(), 0, 0
    with tempfile.TemporaryDirectory() as room:
        for source in sources:
            found, names = refusals_of(pv, source, room)
            count.update((number, word) for number, word, _ in found)
            functions += len(names)
            refused += len({function for _, _, function in found if function})
    for (number, word), lines in count.most_common():
        print(f"{lines} lines refused with {number}: {word}")
    print(f"{functions - refused} of {functions}")


if __name__ == "__main__":
    main()
