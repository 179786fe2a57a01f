#!/usr/bin/env python3
"""Brings the repository's own antt names to today's spelling, once, after the kit's port.py.

Definitions, lemmas, fields and constructors are in snake case, types and facts in camel case.
Names that come from the Rust source, goals' names, strings and comments of .rt files stay.
Run at the top of a checkout: python3 tools/spell.py [--list]
"""
import collections
import glob
import re
import sys

NAME = r"[A-Za-z_][\w'ℕ\-]*"
MODIFIERS = r"(?:(?:abbrev|unfoldable|pub|data|record|ruleset)\s+)*"
SIGNATURE = re.compile(r"^\s*" + MODIFIERS + "(" + NAME + r")\s*(.*)$")
KEYWORD = re.compile(r"\s*(use|let|in|where|elim|unfolding|mod|pub mod|open|module)(?=\s|$)")


def spelt(name):
    """The name in today's spelling."""
    if name[0].isupper():
        head, *rest = name.split("-")
        return head + "".join(part[:1].upper() + part[1:] for part in rest)
    name = name.replace("-", "_")
    return re.sub(r"(?<=[a-z0-9])([A-Z])", lambda m: "_" + m.group(1).lower(), name)


ALIAS = re.compile(r"[\w}] as (" + NAME + r")(?=[,}\s;]|$)")


def antt_files():
    return sorted(glob.glob("crates/*/specs/**/*.antt", recursive=True) + glob.glob("crates/*/proofs/**/*.antt", recursive=True))


def source_files():
    return sorted(glob.glob("crates/*/src/**/*.rt", recursive=True))


def own_names():
    """The names that the repository's own files declare, and those among them that are fields."""
    names, fields = set(), set()
    for path in antt_files():
        block = None
        for line in open(path, encoding="utf-8"):
            text = re.sub(r"--\s.*|--$", "", line.rstrip("\n"))
            if not text.strip():
                continue
            indent = len(text) - len(text.lstrip())
            if block is not None and indent <= block[1]:
                block = None
            if KEYWORD.match(text):
                names.update(ALIAS.findall(text))
                continue
            found = SIGNATURE.match(text)
            if not found:
                continue
            name, rest = found.groups()
            if re.match(r":\s*(goal|given|need)\.", rest):
                continue
            declares = re.match(r"\s*" + MODIFIERS + r"(data|record|ruleset)\b", text)
            if declares and rest.rstrip().endswith("where"):
                block = (declares.group(1), indent)
                names.add(name)
            elif re.match(r"[\(\{].*:|:", rest):
                names.add(name)
                if block and block[0] == "record":
                    fields.add(name)
    for path in source_files():
        for line in open(path, encoding="utf-8"):
            if line.startswith("ghost use"):
                names.update(ALIAS.findall(line))
    return names, fields


TOKEN = re.compile(r'"(?:[^"\\]|\\.)*"|' + r"(?<![\w'\-])" + NAME)


def respell(text, table, fields):
    def one(m):
        token = m.group(0)
        if token.startswith('"'):
            return token
        start = m.start()
        if start and text[start - 1] == "." and token not in fields and not is_path(text, start):
            return token
        return table.get(token, token)

    return TOKEN.sub(one, text)


def is_path(text, start):
    """Whether the name ends a path of modules, as `Rattle.rules.specs.Calls.entered`."""
    before = re.search(r"[\w.'\-]*$", text[:start]).group(0)
    return before.startswith("Rattle.")


def respell_source(text, table, fields):
    """A .rt file: its ghost lines and clauses, not its comments or strings of code."""
    lines = text.split("\n")
    out, depth = [], 0
    for line in lines:
        stripped = line.lstrip()
        if depth or re.match(r"(pub )?(ghost|requires|ensures)\b", stripped):
            out.append(respell(line, table, fields))
            depth = max(0, depth + line.count("{") - line.count("}"))
            if stripped.startswith("ghost use"):
                depth = 0 if ";" in line else depth
        else:
            out.append(line)
    return "\n".join(out)


def main():
    names, fields = own_names()
    table = {n: spelt(n) for n in names if spelt(n) != n}
    if "--list" in sys.argv:
        news = collections.defaultdict(list)
        for n in names:
            news[spelt(n)].append(n)
        for new, olds in sorted(news.items()):
            if len(olds) > 1:
                print("falls together:", new, sorted(olds))
        for n in sorted(table):
            print(n, table[n])
        return
    for path in antt_files():
        text = open(path, encoding="utf-8").read()
        new = respell(text, table, fields)
        if new != text:
            open(path, "w", encoding="utf-8").write(new)
    for path in source_files():
        text = open(path, encoding="utf-8").read()
        new = respell_source(text, table, fields)
        if new != text:
            open(path, "w", encoding="utf-8").write(new)


main()
