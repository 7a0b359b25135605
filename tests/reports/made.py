#!/usr/bin/env python3
"""Makes the report of a trace from its expectations.

    made.py FOLDER..

Each NAME.trace of the folders that has no report beside it, NAME.trace.stdout, gets the one that its expectations say: `LINE CPU REPLY` of
a step, the lines of a boot and a query as they are, and the last line. Of a step that may get several replies it is the first, so the
report of a race is that of the order of its lines. Status 1 where a step has no expectation.
"""

import glob
import os
import sys


class Silent(Exception):
    """A step that was made has no expectation."""


def read(path):
    with open(path, "rb") as file:
        return file.read()


def expected(trace):
    """Each line that is no expectation, as its number, its bytes, and the texts of its expectations."""
    rows = []
    lines = trace.split(b"\n")
    for number, line in enumerate(lines[:-1] if lines[-1] == b"" else lines, 1):
        if line.startswith(b"#= ") and rows:
            rows[-1][2].append(line[3:])
        else:
            rows.append((number, line, []))
    return rows


def first_of(replies):
    return replies.split(b" | ")[0]


def report_of(trace, numbers=None, reply=first_of):
    """The report that a trace's expectations say. `numbers`, where given, are those of the lines that are no expectations, and `reply` is
    what is told of a step's replies."""
    out, steps, disagreements, silent = [], 0, 0, []
    for place, (number, line, texts) in enumerate(expected(trace)):
        number = numbers[place] if numbers else number
        is_step = line[:1].isdigit()
        steps += is_step
        for text in texts:
            if text.startswith(b"fault "):
                return b"".join(it + b"\n" for it in [*out, b"%d %s" % (number, text)])
            if text.startswith(b"disagree "):
                disagreements += 1
            elif is_step:
                text = b"%d %d %s" % (number, int(line.split(b" ")[0], 0), reply(text))
            out.append(text)
        if is_step and not texts:
            silent.append(number)
    if silent:
        raise Silent(f"line {silent[0]} has no expectation")
    out.append(b"end steps %d disagreements %d" % (steps, disagreements))
    return b"".join(it + b"\n" for it in out)


def report_beside(path):
    """The report beside a trace, or else the one that its expectations say."""
    return read(path + ".stdout") if os.path.exists(path + ".stdout") else report_of(read(path))


def main():
    status = 0
    for path in sorted(it for folder in sys.argv[1:] for it in glob.glob(os.path.join(folder, "*.trace"))):
        try:
            report = report_beside(path)
            with open(path + ".stdout", "wb") as file:
                file.write(report)
        except Silent as it:
            print(f"{path}: {it}", file=sys.stderr)
            status = 1
    return status


if __name__ == "__main__":
    sys.exit(main())
