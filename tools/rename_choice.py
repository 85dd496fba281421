#!/usr/bin/env python3
"""Names the definition's choice by a test `when◌then◌else◌`: today's library has an `if◌then◌else◌` of its own, and `rt ci` refuses another under that name.

usage: python3 tools/rename_choice.py        at the top of the repository, once, after respell.py

Turns the word in .antt files, in the clauses and `ghost use` lines of .rt files, and in must-fail edits of definitions.
"""
import re

from respell import files, outside_strings, read, write

WORD = re.compile(r"(?<![\w'.◌-])if(?![\w'.◌-])")


def code(text):
    text = text.replace("if◌then◌else◌", "when◌then◌else◌")
    return outside_strings(text, lambda q: WORD.sub("when", q))


def antt(text):
    out = []
    for line in text.split("\n"):
        before, dash, comment = line.partition("--")
        out.append(code(before) + dash + re.sub(r"`[^`]*`", lambda m: code(m.group(0)), comment))
    return "\n".join(out)


def rt(text):
    out, depth, inside = [], 0, False
    for line in text.split("\n"):
        before, slashes, comment = line.partition("//")
        if not inside and re.match(r"\s*(requires|ensures)\b[^{]*\{", before):
            inside, depth = True, 0
        if inside:
            depth += before.count("{") - before.count("}")
        if inside or re.match(r"\s*ghost use ", before):
            line = code(before) + slashes + comment
        inside = inside and depth > 0
        out.append(line)
    return "\n".join(out)


def edit(text):
    of_definition = re.search(r"(?m)^file: specs/", text)
    out = []
    for line in text.split("\n"):
        head, colon, rest = line.partition(": ")
        if head in ("old", "new") and (of_definition or re.search(r"\bif\b.*\bthen\b", rest)):
            line = head + colon + code(rest)
        out.append(line)
    return "\n".join(out)


for ending, turn in ((".antt", antt), (".rt", rt), (".edit", edit)):
    for path in files(ending):
        old = read(path)
        write(path, turn(old), old)
