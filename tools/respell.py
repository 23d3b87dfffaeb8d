#!/usr/bin/env python3
"""Respells the names that specs/ and proofs/ declare: facts and types in camel case, all else in snake case.

usage: python3 tools/respell.py [--dry]     at the top of the repository, once, right after port.py

A name with a dash is respelled where a crate's specs/ or a file of its proofs/ declares it: Bad-width is BadWidth, marks-of is marks_of.
Names that Rattle makes for goals and steps (Answers.antt, Invariants.antt), names of std, functions of src/, strings and comments stay, but for
names in backticks in a comment. A projection r.name is respelled only where name is a field of a record.
"""

import collections
import glob
import os
import re
import sys

MADE = {"Answers.antt", "Invariants.antt", "Choices.antt", "Measures.antt", "Proof.antt"}
ID = r"[A-Za-z_][\w'-]*"
TOKEN = re.compile(r"(?<![\w'-])" + ID)
MARKS = r"(?:(?:abbrev|unfoldable|pub|data|record|mutual)\s+)*"
TOP = re.compile(r"^[ ]*" + MARKS + r"(" + ID + r"(?:[ ]+" + ID + r")*)[ ]*:(?!=)", re.M)
HEAD = re.compile(r"^[ ]*" + MARKS + r"(?:data|record)[ ]+(?:pub[ ]+)?(" + ID + ")", re.M)
HELPER = re.compile(r"^(?:(?:abbrev|pub)\s+)*([A-Za-z_][\w']*(?:-[\w']+)+)[ ]*:(?!=)(?![ ]*goal\.)", re.M)
LOCAL = re.compile(r"[({](" + ID + r"(?:[ ]+" + ID + r")*)[ ]*:|\blet (" + ID + r")[ ]*[:=]")
CODE = re.compile(r'("(?:\\.|[^"\\])*")|(--[^\n]*|//[^\n]*)')
TICKED = re.compile(r"`[^`\n]*`")


def read(path):
    with open(path, encoding="utf-8") as f:
        return f.read()


def files(pattern):
    return sorted(p for p in glob.glob(pattern, recursive=True) if "/out/" not in p)


def declared():
    """The names with a dash that the crates declare, and which of them are fields of records."""
    names, fields = collections.defaultdict(set), set()
    for p in files("crates/*/specs/**/*.antt") + files("crates/*/proofs/**/*.antt"):
        text = re.sub(r"--.*", "", read(p))
        if "/proofs/" in p and os.path.basename(p) in MADE:
            for m in HELPER.finditer(text):
                names[m.group(1)].add(p)
            continue
        for m in TOP.finditer(text):
            for n in m.group(1).split():
                if "-" in n:
                    names[n].add(p)
        for m in LOCAL.finditer(text):
            for n in (m.group(1) or m.group(2)).split():
                if "-" in n:
                    names[n].add(p)
        for m in HEAD.finditer(text):
            if "-" in m.group(1):
                names[m.group(1)].add(p)
        inside = None
        for line in text.split("\n"):
            if re.match(r"[ ]*" + MARKS + r"record ", line):
                inside = len(line) - len(line.lstrip())
                continue
            if line.strip() and inside is not None and len(line) - len(line.lstrip()) <= inside:
                inside = None
            if inside is not None:
                m = re.match(r"[ ]*(?:pub[ ]+)?(" + ID + r"(?:[ ]+" + ID + r")*)[ ]*:", line)
                if m:
                    fields.update(n for n in m.group(1).split() if "-" in n)
    return names, fields


# where the plain spelling is another thing's name: bit_and and bit_or are std's, FileFault is an enum of src/
OTHER = {"bit-and": "bit_of_and", "bit-or": "bit_of_or", "File-fault": "FileHasFault"}


def respelled(name):
    if name in OTHER:
        return OTHER[name]
    parts = name.split("-")
    if name[0].isupper():
        return "".join(q[:1].upper() + q[1:] for q in parts)
    return "_".join(parts)


def foreign(path, text):
    """The names that a file takes from a module that is not the repository's."""
    own = {os.path.basename(d) for d in glob.glob("crates/*")}
    out = set()
    for m in re.finditer(r"\buse\s+([\w.'·-]+)\.\{([^}]*)\}", text):
        parts = m.group(1).split(".")
        if not (parts[0] == "Rattle" and len(parts) > 1 and parts[1] in own):
            out.update(x.strip().split(" as ")[0] for x in m.group(2).split(","))
    return out


def main():
    dry = "--dry" in sys.argv
    names, fields = declared()
    table = {n: respelled(n) for n in names}
    back = collections.defaultdict(set)
    for old, new in table.items():
        back[new].add(old)
    for new, olds in sorted(back.items()):
        if len(olds) > 1:
            print("fall together:", new, sorted(olds))
    changed = 0
    for p in files("crates/*/**/*.antt") + files("crates/*/**/*.rt"):
        text = read(p)
        theirs = foreign(p, text)
        clash = sorted(n for n in theirs if n in table)
        if clash:
            print("taken from another library:", p, clash)

        def token(m):
            n = m.group(0)
            if n not in table or n in theirs:
                return n
            if m.start() and m.string[m.start() - 1] == "." and n not in fields and not m.string[:m.start() - 1].endswith(" "):
                before = re.search(r"[\w'.·-]+\.$", m.string[:m.start()])
                if not (before and before.group(0).startswith("Rattle.")):
                    return n
            return table[n]

        out, at = [], 0
        for m in CODE.finditer(text):
            out.append(TOKEN.sub(token, text[at:m.start()]))
            if m.group(2) is not None and not (p.endswith(".antt") and m.group(2).startswith("//")) and not (p.endswith(".rt") and m.group(2).startswith("--")):
                out.append(TICKED.sub(lambda t: TOKEN.sub(token, t.group(0)), m.group(2)))
            elif m.group(2) is not None:
                out.append(TOKEN.sub(token, m.group(2)))
            else:
                out.append(m.group(1))
            at = m.end()
        out.append(TOKEN.sub(token, text[at:]))
        new = "".join(out)
        if new != text:
            changed += 1
            if not dry:
                with open(p, "w", encoding="utf-8") as f:
                    f.write(new)
    print(f"respell: {len(table)} names, {changed} files")
    if dry:
        every = collections.defaultdict(set)
        for p in files("crates/*/**/*.antt") + files("crates/*/**/*.rt"):
            for m in TOKEN.finditer(CODE.sub("", read(p))):
                every[m.group(0)].add(p)
        for old, new in sorted(table.items()):
            if new in every:
                print("there already:", old, "->", new, sorted(every[new])[:4])
        print("fields:", sorted(fields))


main()
