#!/usr/bin/env python3
"""Lists the places that a design pass looks at, in the .rt files below crates/*/src, and how many there are.

usage: docs/history/tools/places.py [FOLDER]      FOLDER: the top of a checkout, else the current folder
Each section prints its places, one a line, and ends with its count. A place is a line of the source, or for repeated
facts and parameters that travel together the fact or the parameters. It finds forms by their text: what a form means,
and whether it is a place at all, is for the reader to say.
"""
import collections
import glob
import os
import re
import sys

TOP = sys.argv[1] if len(sys.argv) > 1 else "."


def sources():
    for path in sorted(glob.glob(os.path.join(TOP, "crates/*/src/**/*.rt"), recursive=True)):
        with open(path) as file:
            yield os.path.relpath(path, os.path.join(TOP, "crates")), file.read()


FILES = list(sources())
BARE = [(path, re.sub(r"//.*", "", text)) for path, text in FILES]


def show(title, places):
    print(f"== {title}")
    for place in places:
        print("  ", place)
    print(f"-- {len(places)}\n")


def lines(*patterns):
    found = []
    for path, text in BARE:
        for number, line in enumerate(text.split("\n"), 1):
            if any(re.search(p, line) for p in patterns):
                found.append(f"{path}:{number}: {line.strip()}")
    return found


def spans(pattern):
    found = []
    for path, text in BARE:
        for match in re.finditer(pattern, text, re.S):
            number = text.count("\n", 0, match.start()) + 1
            found.append(f"{path}:{number}: {' '.join(match.group(0).split())[:120]}")
    return found


def functions():
    head = re.compile(r"\bfn ([a-z_]+)(<[^(]*>)?\(([^)]*(?:\([^)]*\)[^)]*)*)\)", re.S)
    for path, text in BARE:
        starts = [m for m in head.finditer(text)]
        for i, m in enumerate(starts):
            end = starts[i + 1].start() if i + 1 < len(starts) else len(text)
            yield path, m.group(1), m.group(3), text[m.end():end]


# 1. Options of errors, early returns by hand, numbers for refusals, flags with a value beside, results with no meaning.
show("1a a refusal as an Option", lines(r"-> Option<[A-Za-z:]*Refusal"))
show("1b an error handed on by hand", spans(r"if let Some\((\w+)\) = [^{;]*\{\s*return Err\(\1\);\s*\}")
     + spans(r"Err\(\w+\) => return Err\([^;]*?\),") + spans(r"let (Some|Ok)\([^)]*\) =[^;{]*else \{\s*return Err\("))
show("1c an enum of the shape of Option or Result", spans(r"enum \w+(<[^>]*>)? \{\s*\w+(\([^)]*\))?,\s*(Refused|Failed|Missing|Nothing|None)\b[^,}]*,\s*\}"))
show("1d numbers for refusals, causes or places", lines(r"Refused\(u8\)", r"want: (u8|\(u8, u32\))", r"\[\(.*u8, u32\)", r"\[\(u8, u8(, u8)?\)", r"\(0, 0\),$", r"Ok\(\(\)\) => 0,"))
show("1e a flag with a value beside it", lines(r"\b(pending|is_other): bool"))
show("1f a number that is no result", spans(r"-> u8\s*\n\s*ensures [^\n]*\n\{\s*0\s*\}"))

# 2. Twins by name; tools beside this one compare their text (the machine's command `duplicates`).
names = collections.defaultdict(list)
for path, name, _, _ in functions():
    names[name].append(path)
trait_methods = {"new", "tick", "shown", "draw", "from", "fmt", "number", "is_ahead", "main", "work"}
show("2a functions of one name in two files", [f"{n}: {', '.join(p)}" for n, p in sorted(names.items()) if len(p) > 1 and n not in trait_methods])
constants = collections.defaultdict(list)
for path, text in BARE:
    for m in re.finditer(r"const (\w+): (\w+) =\s*(-?[\d_]+|FillRow \{)", text):
        constants[m.group(3).replace("_", "")].append(f"{path} {m.group(1)}")
show("2b one constant in two places", [f"{v}: {', '.join(p)}" for v, p in sorted(constants.items()) if len(p) > 1])

# 3. Loops.
show("3a loops over an index", lines(r"\bfor \w+ in [^{\[]*\.\."))
show("3b loops that count by hand", lines(r"\bwhile ", r"^\s*\w+ \+= 1;", r"= \w+\.saturating_add\(1\)", r"let mut (sum|total|all|odd|place|n|at)\b"))

# 4. Comparison, conversion, printing by hand.
show("4a matches that compare two values of one enum", lines(r"\(Class::\w+, Class::\w+\) =>", r"\(Party::\w+, Party::\w+\)") + spans(r"match \w+ \{\s*\w+::\w+ => match \w+ \{") + spans(r"match \w+ \{\s*(\w+::\w+ => (true|false),\s*){2}\}"))
show("4b enums made into numbers, letters or words by a match", spans(r"fn \w+\([^)]*\) -> (&'static str|u8|char)\s*(ensures \{[^}]*\}\s*)?\{\s*match [^{]*\{\s*\S+ =>"))
show("4c matches over an Option that a method says", spans(r"match \w+(\.\w+)* \{\s*None => (None|true|false|rest|ratio),") + spans(r"match [^{]*\{\s*Some\(\w+\) => [^,]*,\s*None => (false|None|true),\s*\}"))
show("4d field by field copies", spans(r"\*self = \w+ \{(\s*\w+: self\.\w+,)+"))
show("4e ranges by two comparisons", lines(r"<= \w+ && \w+ <=", r"< \w+ \|\| \w+ >", r"\w+ < 1 \|\| \w+ > "))

# 5. Facts in three or more contracts, and parameters that travel together.
facts = collections.defaultdict(set)
for path, name, _, rest in functions():
    head = rest.split("\n{", 1)[0]
    for m in re.finditer(r"(?:requires|ensures)(?: \w+)? \{ (.*?) \}\s*(?=\n|$)", head):
        fact = m.group(1)
        for side in ("old", "new", "now"):
            fact = fact.replace("." + side, "")
        fact = re.sub(r"\b(order|request)\.", "", fact)
        if re.match(r"result(\.\w+)? ≡", fact) or " ≡ (" in fact or "self.exit" in fact:
            continue
        facts[(path.split("/")[0], fact)].add(f"{path.split('/src/')[1]} {name}")
show("5a facts in three or more contracts of a crate", [f"{len(w)} × {c}: {f}" for (c, f), w in sorted(facts.items(), key=lambda x: (-len(x[1]), x[0])) if len(w) >= 3])
travel = collections.defaultdict(set)
for path, name, params, _ in functions():
    names_ = [p.split(":")[0].strip().removeprefix("mut ") for p in params.split(",") if ":" in p]
    types = dict((p.split(":")[0].strip().removeprefix("mut "), p.split(":", 1)[1].strip()) for p in params.split(",") if ":" in p)
    plain = [n for n in names_ if n != "rt" and re.match(r"^(&?(mut )?)?(u8|u32|u64|i64|usize|bool|\[|&\[|Side|Party|Part|Task|Shared|Vec|Room|GuaranteeKind)", types[n].lstrip("&"))]
    for i, a in enumerate(plain):
        for b in plain[i + 1:]:
            travel[(path.split("/")[0], a, b)].add(f"{path} {name}")
show("5b two parameters together in three or more functions of a crate", [f"{len(w)} × {c}: {a}, {b}" for (c, a, b), w in sorted(travel.items(), key=lambda x: (-len(x[1]), x[0])) if len(w) >= 3])

# 6. Fixed buffers and lengths.
show("6 fixed buffers, and lengths beside them", [place for place in lines(r": \[\w+; \w+\]", r"\blen: usize") if ": const " not in place])

# 7. Switches on a step, tables of functions.
show("7 switches on a step, tables of functions", lines(r"match (step|mode|action|stage)\b", r"\[fn\(", r": fn\("))

# 8. Proof files and answers.
print("== 8 proof files, answers, lines of proofs")
for crate in sorted(os.listdir(os.path.join(TOP, "crates"))):
    files = glob.glob(os.path.join(TOP, "crates", crate, "proofs/**/*.antt"), recursive=True)
    texts = [open(f).read() for f in files]
    answers = sum(len(re.findall(r"^(?:abbrev )?pub \S+ : goal\.", t, re.M)) for t in texts)
    print(f"   {crate}: {len(files)} files, {answers} answers, {sum(t.count(chr(10)) for t in texts)} lines")
