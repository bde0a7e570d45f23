#!/usr/bin/env python3
"""Holds each export of sigvort_c to the function that it hands over to: the same parameters and the same clauses, word for word."""
import re
import sys
from glob import glob

# a function from its name to its body, which begins on a line of its own
FUNCTION = re.compile(r'^pub (?:extern "C" )?fn (\w+)(\(.*?)^\{$(.*?)^\}$', re.M | re.S)
CALL = re.compile(r"\s*(\w+)(?:::(\w+))?::(\w+)\([\w,\s]*\)\s*")


def plain(head):
    """A head without its layout: on one line, or on several, where the last parameter has a comma."""
    return re.sub(r",? \)", ")", " ".join(head.split()).replace("( ", "("))


def functions(path):
    with open(path, encoding="utf-8") as file:
        return {name: (plain(head), body) for name, head, body in FUNCTION.findall(file.read())}


count, wrong = 0, 0
for path in sorted(glob("crates/sigvort_c/src/*.rt")):
    for name, (head, body) in functions(path).items():
        count += 1
        call = CALL.fullmatch(body)
        below = functions(f"crates/{call[1]}/src/{call[2] or 'lib'}.rt").get(call[3]) if call else None
        if not below or call[3] != name or below[0] != head:
            print(f"{path}: {name} says something else than the function that it hands over to")
            wrong = 1
if count != 12:
    print(f"crates/sigvort_c has {count} exports, and not 12")
sys.exit(wrong or count != 12)
