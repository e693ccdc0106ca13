#!/usr/bin/env python3
"""Respells the repository's own definitions and lemmas: words in snake case, types in camel case.

usage: python3 tools/spell.py [--dry]      at the top of the repository, once, after the kit's own script

It collects the names that the files of specs/ and proofs/ declare, and turns each place that cites one: in .antt files,
in the clauses of .rt files, in must-fail edits, and between backticks in pages. Names that the kit makes (goals, steps of
the code) and names of its library are not declared here, and stay. It stops where two names would fall together.
"""

import os
import re
import sys

# where the plain respelling is another name already
OTHER = {
    "One-best": "OneBestOfTable",
    "arcs-of": "arc_table",
    "hasIn": "has_lead_in",
    "hasOut": "has_lead_out",
    "headAt": "head_node",
    "isEnd": "is_end_lead",
    "isStart": "is_start_lead",
    "last-node": "highest_node",
    "word_Row": "word_row",
} | {
    # a lemma that would have the name of a function or of a definition
    name: name.replace("-", "_") + "_lem"
    for name in (
        "best-by-test",
        "choices-stand",
        "covering-is-local",
        "drawing-ends",
        "is-bare",
        "is-input",
        "is-output",
        "link-leads",
        "list-by-test",
        "list-is-smallest-cover",
        "loads-are-arc-loads",
        "longest-through",
        "next-lead",
        "no-shorter-list",
        "one-best-loads",
        "reduce-total",
        "rows-are-given",
        "witness-exists",
    )
}
TOKEN = re.compile(r"[^\s(){}\[\],;.@\"`|]+")
HEAD = re.compile(r"\s*((?:pub |abbrev |unfoldable |data |record |module )*)([^\s:(){}]+)( :| \(| \{|$)")
COMMENT = re.compile(r"(^|\s)--(\s|$)")
STRING = re.compile(r'"(?:[^"\\]|\\.)*"')


def files(ending):
    for folder, dirs, names in os.walk("crates"):
        dirs[:] = sorted(d for d in dirs if d != "out")
        for name in sorted(names):
            if name.endswith(ending):
                yield os.path.join(folder, name)


def read(path):
    with open(path, encoding="utf-8") as f:
        return f.read()


def split_comment(line, mark):
    m = mark.search(line)
    return (line[: m.start()], line[m.start() :]) if m else (line, "")


def respelled(name):
    """The name in today's spelling, or None where it has it."""
    if not re.fullmatch(r"[A-Za-z][A-Za-z0-9_']*(-[A-Za-z0-9_']+)*", name):
        return None
    if name[0].isupper():
        parts = name.split("-")
        new = parts[0] + "".join(p[0].upper() + p[1:] for p in parts[1:])
    else:
        new = re.sub(r"(?<=[a-z0-9])([A-Z])", lambda m: "_" + m[1].lower(), name.replace("-", "_"))
    return new if new != name else None


def is_made(path):
    """Whether a file answers goals of a function, so that its names are mostly the kit's."""
    return os.path.basename(path) in ("Answers.antt", "Invariants.antt")


def declared():
    names = set()
    for path in files(".antt"):
        made = is_made(path)
        for line in read(path).split("\n"):
            code, _ = split_comment(line, COMMENT)
            if made and "goal." in code:
                continue
            m = HEAD.match(code)
            if m and (m[1] or m[3] == " :"):
                names.add(m[2])
            names.update(re.findall(r"\blet ([^\s:(){}=]+) [=:]", code))
    return names


def imported(text):
    """The names that a file takes from the kit's library."""
    names = set()
    for m in re.finditer(r"use Rattle\.std[\w.+]*\.\{([^}]*)\}", text):
        names.update(n.strip().split(" ")[0] for n in m[1].split(","))
    return names


def turn(code, names, made=False):
    def one(m):
        word = m[0]
        # a goal, or in an answer a step of the code
        if re.search(r"\b(goal|c)\.$" if made else r"\bgoal\.$", code[: m.start()]):
            return word
        return names.get(word, word)

    return TOKEN.sub(one, code)


def turn_antt(text, names, made=False):
    names = {k: v for k, v in names.items() if k not in imported(text)}
    out = []
    for line in text.split("\n"):
        code, comment = split_comment(line, COMMENT)
        out.append(turn(code, names, made) + turn_ticked(comment, names))
    return "\n".join(out)


def turn_ticked(text, names):
    return re.sub(r"`[^`\n]*`", lambda m: turn(m[0], names), text)


def turn_rust(text, names):
    names = {k: v for k, v in names.items() if k not in imported(text)}
    out = []
    for line in text.split("\n"):
        code, comment = split_comment(line, re.compile(r"(^|\s)//"))
        parts, at = [], 0
        for m in STRING.finditer(code):
            parts += [turn(code[at : m.start()], names), m[0]]
            at = m.end()
        out.append("".join(parts) + turn(code[at:], names) + turn_ticked(comment, names))
    return "\n".join(out)


def main():
    names = {}
    for name in declared() | set(OTHER):
        new = OTHER.get(name) or respelled(name)
        if new:
            names[name] = new
    taken = {}
    for path in [*files(".antt"), *files(".rt")]:
        for m in TOKEN.finditer(read(path)):
            taken.setdefault(m[0], path)
    falls = sorted((old, new) for old, new in names.items() if new in taken)
    seen = {}
    for old, new in sorted(names.items()):
        if new in seen:
            falls.append((old, f"{new}, as {seen[new]}"))
        seen[new] = old
    for old, new in falls:
        print(f"falls together: {old} -> {new} ({taken.get(new, '')})")
    if "--dry" in sys.argv:
        print(len(names), "names")
        return
    pages = [os.path.join("docs", f) for f in sorted(os.listdir("docs")) if f.endswith(".md")] + ["README.md"]
    for ending, how in ((".antt", turn_antt), (".rt", turn_rust), (".edit", turn_rust)):
        for path in files(ending):
            old = read(path)
            new = how(old, names, True) if ending == ".antt" and is_made(path) else how(old, names)
            if new != old:
                with open(path, "w", encoding="utf-8") as f:
                    f.write(new)
    for path in pages:
        old = read(path)
        new = turn_ticked(old, names)
        if new != old:
            with open(path, "w", encoding="utf-8") as f:
                f.write(new)
    print(len(names), "names respelled")


main()
