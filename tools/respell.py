#!/usr/bin/env python3
"""Spells the names of the repository's own definitions and lemmas in snake case.

usage: tools/respell.py FOLDER     FOLDER: a checkout that /opt/rattle/port/port.py has turned

Names that specs/ and proofs/ declare or bind get underscores in place of capitals and dashes: nearestRoot and
root-nearest become nearest_root and root_nearest. Types and modules keep their capitals. In comments and documents
only what stands in backticks is turned. Names of libraries, and names that Rattle makes, stay.
A line that begins 'meets:' names two names that would fall together: the one with a dash gets the ending _lem.
"""

import collections
import glob
import os
import re
import sys

NAME = r"[^\s(){}\[\];,.@\"«»`]+"
TOKEN = re.compile(rf"(?<![^\s(){{}}\[\];,.@\"«»`])({NAME})")
DECLARED = re.compile(rf"(?m)^ *(?:(?:abbrev|unfoldable|pub|private|data|record|instance) )*({NAME})(?: \{{[^{{}}\n]*\}})* :(?= |$)")
USE = re.compile(r"(?m)^( *(?:ghost )?use )([^\s;{]+)(\{[^}]*\})?( as [^\s;]+)?")
CAMEL = re.compile(r"^[a-z][^\s]*[a-z0-9][A-Z]")
# What documents name that is no name of the repository's proofs.
STAYS = set("point-list seed-points must-fail read-back even-odd by-hand".split())
# Lemmas that would meet a definition, of the repository or of a library.
MEETS = {
    "no_zero": "no_zero_lem",
    "is-nan": "is_nan_lem",
    "of-bits": "of_bits_lem",
    "of-fields": "of_fields_lem",
}


def snake(name):
    """nearestRoot-is as nearest_root_is; AlikeBox-trans as AlikeBox_trans; F64s as it is."""
    parts = name.split("-")
    turned = [p if p[:1].isupper() else re.sub(r"(?<=[a-z0-9])[A-Z]+", lambda m: "_" + m[0].lower(), p) for p in parts]
    out = turned[0]
    for p in turned[1:]:
        # a sign stays apart: to_ℕ-*
        out += ("_" if re.match(r"\w", p) and re.search(r"[\w']$", out) else "-") + p
    return out


def own_path(path):
    return path.startswith("Rattle.") and not re.match(r"Rattle\.(core|std|std_alloc|std_collections|std_heap|std_io|io|libc|os)\.", path) or not re.match(r"(Rattle|mathlib|native|lib|borrow|Prim|denote|logic|antt)\b", path)


def generated(path):
    return re.search(r"\.(declared|Statement|Tie|Goals|Given|Lts|contracts|TheVariants|TheOwn|TheConstants)\b", path)


def antt(folder):
    return sorted(glob.glob(f"{folder}/crates/*/specs/**/*.antt", recursive=True) + glob.glob(f"{folder}/crates/*/proofs/**/*.antt", recursive=True))


def code_of(text):
    return "\n".join("" if l.lstrip().startswith("--") else re.sub(r"(?<=\s)--(?=\s).*", "", l) for l in text.split("\n"))


def from_libraries(code):
    names = set()
    for head, path, items, alias in USE.findall(code):
        if not own_path(path) or generated(path):
            names.update(re.findall(NAME, items))
    return names


def main(folder):
    declared, found = set(), collections.Counter()
    texts = {f: open(f, encoding="utf-8").read() for f in antt(folder)}
    for f, t in texts.items():
        declared.update(DECLARED.findall(code_of(t)))
    # every name of the repository that changes
    table = {}
    for f, t in texts.items():
        code = code_of(t)
        library = from_libraries(code)
        spared = USE.sub(" ", code)
        for m in TOKEN.finditer(spared):
            n = m[1]
            behind_dot = m.start() > 0 and spared[m.start() - 1] == "."
            if n in library or not re.match(r"[A-Za-z]", n) or re.match(r"0x", n):
                continue
            camel = CAMEL.match(n)
            dash = re.search(r"[\w']-[\w]", n) and (n in declared if behind_dot else True)
            if (camel or dash) and (not behind_dot or n in declared):
                table[n] = snake(n)
    for n in declared:
        if CAMEL.match(n) or re.search(r"[\w']-[\w]", n):
            table[n] = snake(n)
    table = {a: b for a, b in table.items() if a != b}
    # names that fall together
    by_new = collections.defaultdict(set)
    for a, b in table.items():
        by_new[b].add(a)
    for n in declared:
        if n not in table:
            by_new[n].add(n)
    for new, olds in sorted(by_new.items()):
        if len(olds) > 1:
            print("meets:", new, sorted(olds))
            for a in olds:
                if "-" in a:
                    table[a] = new + "_lem"
    table.update(MEETS)
    return texts, table, declared


def turn_tokens(text, table, library=frozenset()):
    def one(m):
        n = m[1]
        return n if n in library else table.get(n, n)

    return TOKEN.sub(one, text)


def turn_ticks(text, table):
    def ticks(m):
        return "`" + TOKEN.sub(lambda k: k[1] if k[1] in STAYS else table.get(k[1], k[1]), m[1]) + "`"

    return re.sub(r"`([^`\n]+)`", ticks, text)


def turn_antt(text, table):
    library = from_libraries(code_of(text))
    out = []
    for l in text.split("\n"):
        if l.lstrip().startswith("--"):
            out.append(turn_ticks(l, table))
            continue
        m = re.match(USE.pattern, l)
        if m and (not own_path(m[2]) or generated(m[2])):
            out.append(l)
            continue
        code, comment = l, ""
        c = re.search(r"(?<=\s)--(?=\s)", l)
        if c:
            code, comment = l[: c.start()], l[c.start() :]
        out.append(turn_tokens(code, table, library) + turn_ticks(comment, table))
    return "\n".join(out)


def turn_rt(text, table):
    out = []
    inside = 0
    for l in text.split("\n"):
        if l.lstrip().startswith("//"):
            out.append(turn_ticks(l, table))
            continue
        m = re.match(r"\s*ghost use (\S+)", l)
        if m:
            out.append(l if not own_path(m[1].split("{")[0]) else turn_tokens(l, table))
            continue
        if re.match(r"\s*(requires|ensures|ghost)\b", l) or inside:
            inside += l.count("{") - l.count("}")
            out.append(turn_tokens(l, table))
            continue
        out.append(l)
    return "\n".join(out)


if __name__ == "__main__":
    folder = sys.argv[1]
    texts, table, declared = main(folder)
    if "--table" in sys.argv:
        for a, b in sorted(table.items()):
            print(f"{a}\t{b}\t{'declared' if a in declared else 'bound'}")
        raise SystemExit
    for f, t in texts.items():
        new = turn_antt(t, table)
        if new != t:
            open(f, "w", encoding="utf-8").write(new)
    for f in sorted(glob.glob(f"{folder}/crates/*/src/**/*.rt", recursive=True)):
        t = open(f, encoding="utf-8").read()
        new = turn_rt(t, table)
        if new != t:
            open(f, "w", encoding="utf-8").write(new)
    for f in ["README.md", *sorted(glob.glob("docs/*.md", root_dir=folder)), "tests/README.md", "oracle/README.md"]:
        f = os.path.join(folder, f)
        if os.path.exists(f) and not f.endswith("docs/PORT.md"):
            t = open(f, encoding="utf-8").read()
            new = turn_ticks(t, table)
            if new != t:
                open(f, "w", encoding="utf-8").write(new)
