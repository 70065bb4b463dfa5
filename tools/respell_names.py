#!/usr/bin/env python3
"""Respells the repository's own definitions and lemmas: words in snake case, types in camel case.

Run at the top of the repository, after the kit's own script. It goes over specs/, proofs/ and src/ of every crate and over
the pages of docs/, and changes each name with a dash that the repository itself declares: definitions, records, fields,
constructors, lemmas, and names that they bind. Names that the kit declares or that the check makes keep their spelling, and
so do strings and prose. It refuses to run if two names would fall together.
"""
import glob
import os
import re
import sys

NAME = r"[A-Za-z_][\w']*(?:-[\w']+)+"
OWN = r"Rattle\.(?:%s)\b" % "|".join(sorted(os.listdir("crates"), key=len, reverse=True))
MADE = {"Answers.antt", "Invariants.antt", "Choices.antt", "Proof.antt"}


def made(path):
    return os.path.basename(path) in MADE and path.count("/") > 3


def code_of(text):
    text = re.sub(r"(--|//).*", "", text)
    return re.sub(r'"(?:[^"\\]|\\.)*"', '""', text)


def declared_in(path, text):
    found, kit = set(), set()
    code = code_of(text)
    for m in re.finditer(r"use ([A-Za-z][^;\n{]*)\{([^}]*)\}", code):
        own = re.match(OWN, m.group(1))
        for item in m.group(2).split(","):
            parts = item.strip().split(" as ")
            if len(parts) == 2:
                found.add(parts[1].strip())
            if not own:
                kit.add(parts[0].strip())
    found |= set(re.findall(r" as ([A-Za-z_][\w'-]*)", code))
    for line in code.split("\n"):
        m = re.match(r"\s*(?:abbrev pub|abbrev|unfoldable pub|unfoldable|pub data|pub record|record|data)\s+([A-Za-z_][\w'-]*)", line)
        if m:
            if not (made(path) and re.match(r"(invariant|decreases)-", m.group(1))):
                found.add(m.group(1))
            continue
        m = re.match(r"\s*((?:pub )?)((?:[A-Za-z_][\w'-]* )+): ", line)
        if m and not (made(path) and m.group(1)):
            found |= set(m.group(2).split())
        found |= set(re.findall(r"ghost ([a-z][\w-]*)", line))
    for m in re.finditer(r"[({]((?:[A-Za-z_][\w'-]* )+): ", code):
        found |= set(m.group(1).split())
    for m in re.finditer(r"λ ([^.]*)\. ", code):
        found |= set(re.findall(r"[A-Za-z_][\w'-]*", m.group(1)))
    found |= set(re.findall(r"let ([A-Za-z_][\w'-]*)", code))
    return found, kit


# Theorems whose names would fall together with those of the definitions that they speak of.
APART = {
    "Singles-stand": "AllSinglesStand",
    "Pairs-stand": "AllPairsStand",
    "Pairs-stand-once": "AllPairsStandOnce",
    "Sets-apart": "AllSetsApart",
    "Singles-in-order": "AllSinglesInOrder",
    "Pairs-in-order": "AllPairsInOrder",
}


def respelled(name):
    if name in APART:
        return APART[name]
    if name[0].isupper():
        return "".join(part[0].upper() + part[1:] for part in name.split("-"))
    return name.replace("-", "_")


def main():
    proofs = [p for c in ("specs", "proofs") for p in glob.glob("crates/*/%s/**/*.antt" % c, recursive=True)]
    files = sorted(proofs + glob.glob("crates/*/src/**/*.rt", recursive=True))
    names, kit = set(), set()
    for path in files:
        found, theirs = declared_in(path, open(path).read())
        names |= found
        kit |= theirs
    names = {n for n in names if "-" in n} - kit
    new = {n: respelled(n) for n in names}
    if len(set(new.values())) != len(new):
        sys.exit("two names fall together: %s" % sorted(n for n in new if list(new.values()).count(new[n]) > 1))
    standing = set()
    for path in proofs:
        standing |= set(re.findall(r"^\s*(?:abbrev pub|unfoldable pub|pub data|pub record) ([A-Za-z_][\w']*)", open(path).read(), re.M))
    both = sorted(n for n in new if new[n] in standing)
    if both:
        sys.exit("names that stand already: %s" % both)

    token = re.compile(r"(?<![\w'.-])%s|(?<=\.)%s" % (NAME, NAME))
    quoted = re.compile(r"`[^`\n]*`")

    def turn(text):
        return token.sub(lambda m: new.get(m.group(0), m.group(0)), text)

    def turn_line(line, comment):
        at = len(line)
        m = re.search(r'^(?:[^"]|"(?:[^"\\]|\\.)*")*?(%s)' % comment, line)
        if m:
            at = m.start(1)
        head = "".join(turn(p) if not p.startswith('"') else p for p in re.split(r'("(?:[^"\\]|\\.)*")', line[:at]))
        return head + quoted.sub(lambda m: turn(m.group(0)), line[at:])

    for path in files:
        comment = "//" if path.endswith(".rt") else "--(?= |-)"
        text = open(path).read()
        turned = "\n".join(turn_line(line, comment) for line in text.split("\n"))
        if turned != text:
            open(path, "w").write(turned)
    for path in sorted(glob.glob("docs/*.md") + ["README.md"]):
        text = open(path).read()
        turned = quoted.sub(lambda m: turn(m.group(0)), text)
        if turned != text:
            open(path, "w").write(turned)
    print("respelled %d names" % len(new))


main()
