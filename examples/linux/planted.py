#!/usr/bin/env python3
"""planted.py FILE FUNCTION TOKEN OCCURRENCE REPLACEMENT: prints a C file with a token of a function's definition replaced. Status 2
and a line where the function or the token isn't there."""
import re
import sys


def refuse(why):
    print(f"planted.py: {why}", file=sys.stderr)
    sys.exit(2)


path, function, token, occurrence, replacement = sys.argv[1:]
text = open(path, encoding="utf-8").read()
# A definition begins at a line's start with its type, and ends with a brace alone at a line's start.
found = re.search(rf"^[a-z][^\n;={{}}#]*\b{function}\([^;{{}}]*\)\n{{.*?^}}", text, re.M | re.S)
if not found:
    refuse(f"{path} defines no {function}")
body = found.group()
places = [it.start() for it in re.finditer(rf"\b{re.escape(token)}\b", body)]
if len(places) < int(occurrence):
    refuse(f"{function} has {token} {len(places)} times, and not {occurrence}")
at = found.start() + places[int(occurrence) - 1]
sys.stdout.write(text[:at] + replacement + text[at + len(token) :])
