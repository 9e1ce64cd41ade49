#!/usr/bin/env python3
"""Respells this repository's own definitions, fields, constructors and lemmas as today's Rattle spells words: in snake case.

usage: python3 tools/respell.py [--list]      at the top of the repository, once, after the kit's own scripts

A word that specs/ or proofs/ define and that has a capital inside, a dash or a prime is turned wherever it stands as a whole
word: in .antt files, in ghost imports and clauses of .rt files, and in edits. Functions of src/, exported names, strings, inputs and outputs
are left. --list prints each old and new name and turns nothing.
"""
import os
import re
import sys

WORD = re.compile(r"[A-Za-z_◌][A-Za-z0-9_'′◌-]*")
HEAD = re.compile(r"^(?:mutual )?((?:(?:pub|unfoldable|abbrev|ruleset|data|record) )*)([A-Za-z][A-Za-z0-9_'′-]*)(?=[ ,:])")
NESTED = re.compile(r"^ +(?:(?:pub|unfoldable|abbrev) )+([A-Za-z][A-Za-z0-9_'′-]*) :(?!:)")
MEMBER = re.compile(r"^  +(?:pub )?([a-z][A-Za-z0-9_'′-]*(?: [a-z][A-Za-z0-9_'′-]*)*) :(?!:)")


# Where a lemma and the definition that it speaks of, or two words of one file, would fall together.
APART = {
    "control0-written": "control0_written_lem",
    "control1-written": "control1_written_lem",
    "control3-written": "control3_written_lem",
    "port-written": "port_written_lem",
    "reset-written": "reset_written_lem",
    "is-stored": "is_stored_lem",
    "octets-of": "octets_of_lem",
    "pin-status": "pin_status_lem",
    "same-reply": "same_reply_lem",
    "same-said": "same_said_lem",
    "same-list": "same_list_lem",
    "start-no": "start_no_lem",
    "kind-of": "kind_of_lem",
    "hard-reset": "hard_reset_sent",
    "withOther": "set_with",
    "crc-right": "crc_right_lem",
    "port-start": "port_start_lem",
    "write-taken": "write_taken_lem",
    "Given-on": "GivenOn",
}


def files(ends):
    for folder, dirs, names in os.walk("crates"):
        dirs[:] = sorted(d for d in dirs if d != "out")
        for name in sorted(names):
            if name.endswith(ends):
                yield os.path.join(folder, name)


def read(path):
    with open(path, encoding="utf-8") as f:
        return f.read()


def turned(word):
    if word in APART:
        return APART[word]
    if word[0].isupper() and "-" not in word and "_" not in word:
        return word.replace("′", "'") # a type, a module or a fact
    word = word.replace("′", "'").replace("-", "_")
    if word.upper() == word or re.match(r"[A-Z][a-z]+_[A-Z]", word):
        return word # a register, a bit or a message, as the data sheet has it
    return re.sub(r"(?<=[a-z0-9])([A-Z])", lambda m: "_" + m.group(1), word).lower()


def owned():
    """The words that specs/ and proofs/ define; in a function's own proof, where goals stand too, only what is no goal."""
    words, kit = set(), set()
    for path in files(".antt"):
        text = read(path)
        for line in re.findall(r"^use (?!Rattle\.(?:line|reader|machine|fusb302|lives|text|script|turn|stream|run|bench|why|listing|frames)\.)\S+\.\{([^}]*)\}", text, re.M):
            kit |= {w.split(" ")[0].strip() for w in line.split(",")}
        within = None
        for line in text.split("\n"):
            head = HEAD.match(line)
            if line and not line.startswith(" "):
                within = re.match(r"^(?:mutual )?(?:pub )?(data|record)\b", line)
            if head and " : " in line and not re.search(r" : (tie|goal|need|needs)\.", line):
                words.add(head.group(2))
            named = re.match(r"^(?:pub )?(?:data|record) ([A-Za-z][A-Za-z0-9_'′-]*)", line)
            if named:
                words.add(named.group(1))
            nested = NESTED.match(line)
            if nested:
                words.add(nested.group(1))
            if within:
                member = MEMBER.match(line)
                if member:
                    words |= set(member.group(1).split())
    return words - kit


def names():
    goals = set()
    for path in files(("Proof.antt", "Answers.antt", "Invariants.antt")):
        goals |= set(re.findall(r"^(?:pub )?(\S+) : (?:tie|goal|need)\.", read(path), re.M))
    said = {}
    for word in owned():
        new = turned(word)
        if new != word and word not in goals:
            said[word] = new
    return said


INNER = re.compile(r"^ +(?:(?:pub|unfoldable|abbrev) )*([a-z][A-Za-z0-9_'′-]*) :(?!:)(?! (?:tie|goal|need)\.)", re.M)


def private(text):
    """The words that a module within a file keeps to itself, with a dash or a capital inside: in that file alone."""
    words = set(WORD.findall(text))
    said = {}
    for word in INNER.findall(text):
        new = turned(word)
        if new != word:
            said[word] = new if new not in words else new + "_lem"
    return said


def respelled(text, said):
    return WORD.sub(lambda m: said.get(m.group(0), m.group(0)), text)


def clauses(text, said):
    out, deep = [], 0
    for line in text.split("\n"):
        if deep or re.match(r"\s*(pub )?(ghost|requires|ensures)\b", line):
            deep += line.count("{") - line.count("}")
            line = respelled(line, said)
        out.append(line)
    return "\n".join(out)


def edits(text, said):
    return text if re.search(r"^file: src/", text, re.M) and not re.search(r"^(old|new): *(ghost|requires|ensures)\b", text, re.M) else respelled(text, said)


def main():
    said = names()
    if "--list" in sys.argv[1:]:
        for old in sorted(said):
            print(old, said[old])
        return
    for ends, turn in ((".antt", respelled), (".rt", clauses), (".edit", edits)):
        for path in files(ends):
            before = read(path)
            after = turn(before, said)
            if ends == ".antt":
                after = respelled(after, private(after))
            if after != before:
                with open(path, "w", encoding="utf-8") as f:
                    f.write(after)


if __name__ == "__main__":
    main()
