#!/usr/bin/env python3
"""Spells the repository's own definitions and lemmas as Rattle spells names today.

usage: tools/respell.py [--check]

Words are in snake case; types, facts and modules keep their capital. A dash joins two names, and none
here does: it becomes `_`. A lemma that would have its function's name gets `_lem`.
It rewrites the .rt, .antt and .edit files below crates/ and the names in backticks of README.md and
docs/. --check only prints the table. It ran once, right after the kit's own script.
"""

import os
import re
import sys

TOP = os.path.join(os.path.dirname(os.path.abspath(__file__)), "..")
IDENT = re.compile(r"(?<![\w'⁻-])([^\W\d_][\w'⁻]*(?:-[\w'⁻]+)*)(?![\w'⁻-])|(?<![\w'⁻-])(_[\w'⁻-]+)(?![\w'⁻-])")
DECLARED = re.compile(
    r"^\s*(?:(?:abbrev|unfoldable|pub) )*(record |data )?([^\s(){}\[\],;.:`]+)(?: [({].*)? : "
)
LET = re.compile(r"\blet ([^\s(){}\[\],;.:]+)(?: :| =)")


def files(endings):
    for folder, below, names in os.walk(os.path.join(TOP, "crates")):
        below[:] = sorted(it for it in below if it != "out")
        for name in sorted(names):
            if name.endswith(endings):
                yield os.path.join(folder, name)


def read(path):
    with open(path, encoding="utf-8", newline="") as f:
        return f.read()


def is_proof(path):
    return os.path.basename(path) == "Proof.antt"


def foreign(text):
    """The names that a file imports from outside the repository."""
    names = set()
    for module, part in re.findall(r"^\s*(?:pub |ghost )?use ([^\s{;]+?)\.\{([^}]*)\}", text, re.M):
        crate = module.split(".")[1] if module.startswith("Rattle.") else None
        if crate is None or not os.path.isdir(os.path.join(TOP, "crates", crate)):
            names |= {it.split(" as ")[-1].strip() for it in part.split(",")}
    return names


def snake(word):
    return re.sub(r"(?<=[a-z0-9])([A-Z])", lambda m: "_" + m[1].lower(), word)


def main():
    texts = {path: read(path) for path in files(".antt")}
    declared, definitions, fields = set(), set(), set()
    outside = set()
    for path, text in texts.items():
        outside |= foreign(text)
        for line in text.split("\n"):
            if line.lstrip().startswith("--"):
                continue
            found = DECLARED.match(line)
            if found and not re.search(r" : (tie\.|statement )", line):
                declared.add(found[2])
                if re.match(r"\s*(abbrev|unfoldable|pub record|record|pub data|data)\b", line):
                    definitions.add(snake(found[2]))
                if line.startswith(" "):
                    fields.add(found[2])
            declared |= set(LET.findall(line))
    declared -= outside

    def spelled(name):
        if "-" not in name:
            return snake(name) if not name[0].isupper() else name
        new = "_".join(snake(it) if not it[0].isupper() else it.lower() for it in name.split("-"))
        return f"{new}_lem" if new in definitions else new

    table = {}
    for name in sorted(declared):
        new = spelled(name)
        if new != name:
            table[name] = new
    # Other names in camel case: binders, and words of comments in backticks.
    for path, text in texts.items():
        for found in IDENT.finditer(text):
            name = found[0]
            if re.match(r"[a-z]\w*[A-Z]", name) and name not in outside and name not in table:
                table[name] = spelled(name)
    for old in sorted(table):
        print(f"{old} {table[old]}")
    news = {}
    for old, new in table.items():
        news.setdefault(new, []).append(old)
    said = lambda text: print(text, file=sys.stderr)
    everything = {it[0] for text in texts.values() for it in IDENT.finditer(text)}
    for new, olds in sorted(news.items()):
        if len(olds) > 1:
            said(f"fall together: {' '.join(olds)} -> {new}")
        if new in declared:
            said(f"is declared already: {olds[0]} -> {new}")
        elif new in outside:
            said(f"is a name of the library: {olds[0]} -> {new}")
        elif new in everything:
            where = sorted({os.path.relpath(p, TOP) for p, t in texts.items() if new in {i[0] for i in IDENT.finditer(t)}})
            said(f"is a word already: {olds[0]} -> {new} in {' '.join(where)[:150]}")
    if "--check" in sys.argv[1:]:
        return

    def turned(text, brought, dotted, dashes=True):
        def one(found):
            name = found[0]
            new = table.get(name)
            if new is None or name in brought or ("-" in name and not dashes):
                return name
            if found.start() and text[found.start() - 1] == "." and not dotted(text, found.start(), name):
                return name
            return new
        return IDENT.sub(one, text)

    def ticks(text, brought):
        return re.sub(r"`[^`\n]*`", lambda m: turned(m[0], brought, lambda *_: True), text)

    def any_dot(text, at, name):
        return True

    def proof_dot(text, at, name):
        # a path below `tie` or a record of a goal's facts has names that Rattle makes
        before = re.search(r"[^\s(){}\[\],;]*$", text[:at])[0]
        if before.startswith(("tie.", "Rattle.", "lib.", "borrow.", "goal.")):
            return before.startswith("Rattle.") and ".specs." in before
        return name in fields and "-" in name or "-" not in name

    for path, text in texts.items():
        if "noName" in text:
            # the kit's script gave a lemma the name that this one gives its definition
            text = re.sub(r"(?<![\w.])no_name(?!\w)", "no_name_lem", text)
        brought = foreign(text)
        dot = proof_dot if is_proof(path) else any_dot
        lines = []
        made = set()
        if is_proof(path):
            made = set(re.findall(r"^([^\s:]+) : (?:tie\.|\{M : Type 1\} → statement)", text, re.M))
        for line in text.split("\n"):
            at = line.find("--")
            code, comment = (line, "") if at < 0 else (line[:at], line[at:])
            lines.append(turned(code, brought | made, dot) + ticks(comment, brought))
        write(path, "\n".join(lines))
    for path in files(".rt"):
        text = read(path)
        lines = []
        for line in text.split("\n"):
            if re.match(r"\s*(pub )?ghost |\s*(requires|ensures)\b", line):
                lines.append(turned(line, foreign(text), any_dot))
            elif re.match(r"\s*//", line):
                lines.append(ticks(line, set()))
            else:
                lines.append(turned(line, foreign(text), any_dot, dashes=False))
        write(path, "\n".join(lines))
    for path in files(".edit"):
        lines = (ticks(it, set()) if it.startswith("#") else turned(it, set(), any_dot) for it in read(path).split("\n"))
        write(path, "\n".join(lines))
    for folder, below, names in os.walk(TOP):
        below[:] = sorted(it for it in below if it not in ("out", "target", ".git", "crates"))
        for name in sorted(names):
            if name.endswith(".md"):
                path = os.path.join(folder, name)
                # a name that the kit's script spelled anew in the code alone
                text = re.sub(
                    r"`([a-z]+(?:-[a-z0-9]+)+)`",
                    lambda m: f"`{m[1].replace('-', '_')}`" if m[1].replace("-", "_") in declared else m[0],
                    ticks(read(path), set()),
                )
                write(path, text)


def write(path, text):
    if text != read(path):
        with open(path, "w", encoding="utf-8", newline="") as f:
            f.write(text)


if __name__ == "__main__":
    main()
