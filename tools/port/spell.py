#!/usr/bin/env python3
"""Brings the repository's own antt names to today's spelling, once, after the toolchain's port.py.

usage: tools/port/spell.py [--list]      at the top of the repository; --list prints the names and writes nothing

Definitions, lemmas, fields and variables in camel case become snake case (dailyOf, daily_of). The dash of a name stays where it joins two
names that are defined (held-total); otherwise dashes become underscores (down-or-up, down_or_up). Types and facts, which begin with a capital,
functions of src/, goals that the toolchain names, strings, inputs and outputs keep their names. A definition may have the name of the function that
it states. Names that would fall together otherwise are listed, and OTHERS gives one of them another name. It rewrites specs/, proofs/ and src/.
"""
import glob
import re
import sys

# Names that would fall together with a field, a definition or a lemma: the other name
OTHERS = {
    "unitDays": "unit_days_column",
    "interestPaid": "paid_interest",
    "principalPaid": "paid_principal",
    "no-position": "no_position_lem",
    "endAlone": "end_alone_file",
    "not-over": "not_over_lem",
    "answer-of": "answer_of_lem",
}
# The same, of names that port.py has turned already, below the folder alone
OTHERS_BELOW = {
    "crates/file_model/proofs": {"after_line": "after_line_lem", "after_open": "after_open_lem", "none_left": "none_left_lem"},
    "crates/file/proofs": {"none_left": "none_left_lem", "went_on": "went_on_as"},
    "crates/line/proofs": {"from_first": "reads_first", "from_second": "reads_second", "from-third": "reads_third"},
}
NAME = re.compile(r"[A-Za-z_ℕℤ][A-Za-z0-9_'ℕℤ-]*")
SIGNATURE = re.compile(r"^(\s*)((?:pub |abbrev |unfoldable )*)([^\s(){}:=λ,]+(?: [^\s(){}:=λ,]+)*) :(?: |$)(.*)")
GOAL = re.compile(r"\b(tie|goal)\.")
STD = set("length take drop map sum set all any append total get_or slice_index min max add mul sub suc zero head replicate reverse filter fold cond mem".split())


def antt():
    return sorted(glob.glob("crates/*/specs/**/*.antt", recursive=True) + glob.glob("crates/*/proofs/**/*.antt", recursive=True))


def rust():
    return sorted(glob.glob("crates/*/src/**/*.rt", recursive=True))


def code(line):
    """The line without its comment."""
    at = line.find("--")
    return line if at < 0 or (at > 0 and line[at - 1] not in " \t") else line[:at]


def snake(name):
    return re.sub(r"(?<=[a-z0-9])([A-Z])", lambda m: "_" + m.group(1).lower(), name)


def read(path):
    with open(path, encoding="utf-8") as f:
        return f.read()


def collect():
    defined, goals, camel = set(), set(), set()
    for path in antt():
        folder = path.split("/proofs/")[1].count("/") > 0 if "/proofs/" in path else False
        for line in read(path).split("\n"):
            line = code(line)
            m = SIGNATURE.match(line)
            if m and not line.lstrip().startswith(("use ", "open ", "module ")):
                for name in m.group(3).split():
                    if NAME.fullmatch(name):
                        (goals if folder and GOAL.search(m.group(4)) else defined).add(name)
            for name in NAME.findall(line):
                for part in name.split("-"):
                    if re.fullmatch(r"[a-z][a-z0-9_]*[A-Z][A-Za-z0-9_']*", part) and not re.search(r"_[A-Z]", part):
                        camel.add(part)
    return defined, goals, camel


def functions():
    names = set()
    for path in rust():
        names |= set(re.findall(r"\bfn (\w+)", read(path)))
    return names


def table():
    defined, goals, camel = collect()
    parts = {name: OTHERS.get(name, snake(name)) for name in camel}
    words = {snake(n) for n in defined if "-" not in n} | functions() | STD
    whole = {}
    for name in sorted(defined - goals):
        if "-" in name and not name[0].isupper():
            bits = [parts.get(b, snake(b)) for b in name.split("-")]
            both = len(bits) == 2 and all(b in words for b in bits)
            whole[name] = OTHERS.get(name, ("-" if both else "_").join(bits))
    new = {}
    for name, other in list(parts.items()) + list(whole.items()):
        new.setdefault(other, set()).add(name)
        if other in defined | goals and other != name:
            new[other].add(other)
    return parts, whole, {n: s for n, s in new.items() if len(s) > 1}


def turn(text, parts, whole, rt, below):
    def named(comment):
        def one(m):
            name = m.group(0)
            if name in below:
                return below[name]
            if name in whole and not comment:
                return whole[name]
            if name in parts:
                return parts[name]
            return "-".join(parts.get(b, b) for b in name.split("-"))
        return one

    lines = []
    for line in text.split("\n"):
        plain = rt and not re.search(r"ghost |requires|ensures", line)
        shown = line if rt else code(line)
        pieces = re.split(r'("(?:[^"\\]|\\.)*")', shown)
        out = "".join(p if i % 2 else NAME.sub(named(plain), p) for i, p in enumerate(pieces))
        lines.append(out + NAME.sub(named(True), line[len(shown):]))
    return "\n".join(lines)


def main():
    if sys.argv[1:] not in ([], ["--list"]):
        print("usage: tools/port/spell.py [--list]", file=sys.stderr)
        sys.exit(2)
    parts, whole, together = table()
    for name, sources in sorted(together.items()):
        print("the same name:", name, "of", ", ".join(sorted(sources)))
    if "--list" in sys.argv:
        for name, other in sorted(parts.items()) + sorted(whole.items()):
            if name != other:
                print(name, other)
        return
    for path in antt() + rust():
        below = next((t for p, t in OTHERS_BELOW.items() if path.startswith(p)), {})
        before = read(path)
        after = turn(before, parts, whole, path.endswith(".rt"), below)
        if after != before:
            with open(path, "w", encoding="utf-8") as f:
                f.write(after)


main()
