#!/usr/bin/env python3
"""Spells this repository's own definitions, lemmas and fields of .antt text as today's Rattle does: words in snake case, types in upper camel case.

usage: docs/history/tools/respell.py [--dry] [FOLDER]      (FOLDER has crates/; the top of this checkout if none is given)

A dash between two parts of a name of the repository's own becomes an underscore; a name that begins with a capital, a type
or a statement, loses its dashes and writes each part with a capital. Names that a file imports from the kit stay, as do
those that Rattle makes (behind goal., given., c. and l., and what an answer declares by them). Comments, strings, Rust
code and names of files stay. It was run once, right after the kit's own port.py, and prints names that would fall together.
"""

import collections
import os
import re
import sys

PART = r"[A-Za-z0-9\u2070-\u209f\u2115\u2124'_]+"
DASHED = re.compile(rf"^[A-Za-z]{PART[:-1]}*(-{PART})+$")
TOKEN = re.compile(r"[^\s(){};,@\"«»\[\]|]+")
USE = re.compile(r"\buse\s+([\w.'·◌-]+?)\.\{([^}]*)\}")
RENAMED = {}  # names that would fall together with another, and what they become instead


def files(root):
    for folder, dirs, names in os.walk(os.path.join(root, "crates")):
        dirs[:] = sorted(d for d in dirs if d != "out")
        for name in sorted(names):
            if name.endswith((".antt", ".rt")):
                yield os.path.join(folder, name)


def crates(root):
    return [c for c in os.listdir(os.path.join(root, "crates"))]


def new_name(name):
    if name in RENAMED:
        return RENAMED[name]
    if name[0].isupper():
        return "".join(p[0].upper() + p[1:] for p in name.split("-"))
    return name.replace("-", "_")


def own_path(path, own):
    parts = path.split(".")
    return parts[0] == "Rattle" and len(parts) > 1 and parts[1] in own


def kept(text, own):
    """Names that stay in this file: imported from the kit, or made by Rattle."""
    names = set()
    for path, inside in USE.findall(text):
        made = path.endswith((".Goals", ".Given"))
        if own_path(path, own) and not made:
            continue
        for item in inside.split(","):
            for word in item.split(" as "):
                names.add(word.strip())
    for m in re.finditer(r"(?m)^\s*(?:abbrev )?(?:pub )?(?:abbrev )?(\S+) : (?:goal|given)\.", text):
        names.add(m.group(1))
    return names


def declared(text):
    """What a file declares or binds, fields included."""
    names = set()
    for m in re.finditer(r"(?m)^\s*(?:(?:abbrev|unfoldable|pub|record|data)\s+)*(\S+)(?:\s*\{[^{}\n]*\}|\s*\([^()\n]*\))*\s*:(?=\s)", text):
        names.add(m.group(1))
    for m in re.finditer(r"(?m)^\s*(?:(?:pub)\s+)?(?:record|data)\s+(\S+)", text):
        names.add(m.group(1))
    for m in re.finditer(r"[({]([^(){}:\n]+) : ", text):
        names.update(m.group(1).split())
    return names


def turned(line, stay, everywhere, answers):
    """A line of code with its own names respelled. In a function's answers c and l hold what Rattle made."""

    def token(m):
        parts = m.group(0).split(".")
        out = []
        for i, part in enumerate(parts):
            if not DASHED.match(part) or part in stay:
                out.append(part)
            elif i == 0:
                out.append(new_name(part))
            elif parts[0] in ("goal", "given"):
                out.append(part)
            elif answers and parts[0] in ("c", "l") and i == 1:
                out.append(part)
            else:
                out.append(new_name(part) if part in everywhere else part)
        return ".".join(out)

    return TOKEN.sub(token, line)


def respelled(path, text, stay, everywhere):
    answers = os.path.basename(path) in ("Answers.antt", "Invariants.antt", "Proof.antt")
    mark = "--" if path.endswith(".antt") else "//"
    lines = []
    for line in text.split("\n"):
        at = re.search(rf"(^|\s){mark}", line)
        code, comment = (line[: at.start()], line[at.start() :]) if at else (line, "")
        if path.endswith(".rt") and '"' in code:
            pieces = re.split(r'("(?:[^"\\]|\\.)*")', code)
            code = "".join(p if p.startswith('"') else turned(p, stay, everywhere, answers) for p in pieces)
        else:
            code = turned(code, stay, everywhere, answers)
        lines.append(code + comment)
    return "\n".join(lines)


def main(argv):
    dry = "--dry" in argv
    folders = [a for a in argv if a != "--dry"]
    root = folders[0] if folders else os.path.join(os.path.dirname(os.path.realpath(__file__)), "..", "..", "..")
    own = set(crates(root))
    texts = {p: open(p, encoding="utf-8").read() for p in files(root)}
    everywhere = set()
    for path, text in texts.items():
        if path.endswith(".antt"):
            everywhere |= declared(text) - kept(text, own)
    changed = 0
    meets = collections.defaultdict(set)
    for path, text in texts.items():
        stay = kept(text, own)
        new = respelled(path, text, stay, everywhere)
        words = set(re.split(r"[\s(){};,@\"«».\[\]|]+", text))
        for w in words:
            if DASHED.match(w) and w not in stay and new_name(w) in words and new_name(w) != w:
                meets[w].add(os.path.relpath(path, root))
        if new != text:
            changed += 1
            if not dry:
                with open(path, "w", encoding="utf-8") as f:
                    f.write(new)
    for w in sorted(meets):
        print(f"look: {w} meets {new_name(w)} in {', '.join(sorted(meets[w]))}")
    print(f"respell: {changed} files")
    return 0


if __name__ == "__main__":
    raise SystemExit(main(sys.argv[1:]))
