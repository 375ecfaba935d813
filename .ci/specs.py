#!/usr/bin/env python3
"""What a reader has to believe: the definitions that the clauses of public calls reach.

    .ci/specs.py            fails where a public clause reaches a definition of a specs/inner/, which is for bodies and proofs alone
    .ci/specs.py promises   prints, for each row of docs/PROMISES.md, the files that its calls make one believe, with their lines

A definition is reached where a clause of a public function, or the value that clauses see of a public type, names it, or another
definition that is reached does. Names are taken by their imports, so the reach is at most a little too wide.
"""
import glob
import os
import re
import sys

TOP = os.path.dirname(os.path.dirname(os.path.abspath(__file__)))
WORD = re.compile(r"[^\s()\[\]{},;:λ→×≡⊎↔=|&!<>+*/∷@]+")


def read(path):
    with open(path, encoding="utf-8") as file:
        return file.read()


def imports_of(text):
    """The imported names of a file, each with the file and the name there, and the aliases of whole files."""
    names, files = {}, {}
    for crate, path, rest in re.findall(r"use Rattle\.([a-z0-9_]+)\.specs\.((?:inner\.)?[A-Z][A-Za-z0-9]*)(\.\{[^}]*\}| as [A-Za-z_]+)", text):
        if rest.startswith(" as "):
            files[rest[4:]] = (crate, path)
            continue
        for item in rest[2:-1].split(","):
            name, _, alias = item.strip().partition(" as ")
            if name:
                names[(alias or name).strip()] = (crate, path, name.strip())
    return names, files


BEGINS = re.compile(r"\s*(?:unfoldable )?(?:abbrev (?:mutual )?(?:pub )?([^\s:]+)|(?:pub )?(?:record|data) ([A-Za-z_][^\s({:]*)\b[^=]*: Type)")


def definitions_of(text):
    """The definitions of a file of specs/: each name with the text that defines it. Those of one `mutual` have one text."""
    blocks, names, current, many = {}, {}, None, None
    for line in text.split("\n"):
        mutual, begins = line.startswith("abbrev mutual"), BEGINS.match(line)
        if mutual:
            current, many = f"mutual {len(blocks)}", re.compile(r"  (?:pub )?([^\s:]+) :")
        elif begins and not (current and current.startswith("mutual ") and line.startswith(" ")):
            current = begins.group(1) or begins.group(2)
            names[current] = current
            many = re.compile(r"\s+(?:pub )?([^:]+) :") if re.match(r"\s*(?:pub )?data ", line) else None
        if current and not line.lstrip().startswith("--"):
            blocks[current] = blocks.get(current, "") + line + "\n"
            inside = many and not begins and many.match(line)
            if inside:
                for name in inside.group(1).split():
                    names[name] = current
    return blocks, names


class Specs:
    def __init__(self):
        self.blocks, self.names, self.imports, self.aliases = {}, {}, {}, {}
        for path in glob.glob(os.path.join(TOP, "crates/*/specs/**/*.antt"), recursive=True):
            parts = os.path.relpath(path, os.path.join(TOP, "crates")).split(os.sep)
            crate, name = parts[0], ".".join(parts[2:])[: -len(".antt")]
            if name in ("Lib", "inner"):
                continue
            text = read(path)
            self.blocks[crate, name], self.names[crate, name] = definitions_of(text)
            self.imports[crate, name], self.aliases[crate, name] = imports_of(text)

    def cited(self, text, imports, aliases, here=None):
        """The definitions that a text names."""
        found = set()
        for word in WORD.findall(text):
            for name in (word, word.rstrip("."), *([word.split(".")[0]] if "." in word else [])):
                if here and name in self.names[here]:
                    found.add((*here, self.names[here][name]))
                elif name in imports:
                    crate, path, real = imports[name]
                    if (crate, path) in self.names and real in self.names[crate, path]:
                        found.add((crate, path, self.names[crate, path][real]))
            if "." in word and word.split(".")[0] in aliases:
                crate, path = aliases[word.split(".")[0]]
                real = word.split(".", 1)[1]
                if (crate, path) in self.names and real in self.names[crate, path]:
                    found.add((crate, path, self.names[crate, path][real]))
        return found

    def reach(self, start):
        """Everything that these definitions lead to."""
        seen, waiting = set(), list(start)
        while waiting:
            one = waiting.pop()
            if one in seen:
                continue
            seen.add(one)
            here = one[0], one[1]
            waiting += self.cited(self.blocks[here][one[2]], self.imports[here], self.aliases[here], here) - seen
        return seen


def clauses_of(text):
    """The public functions of a file of code, each with the text of its clauses, and the values of public types."""
    lines, found, trait, model = text.split("\n"), [], False, None
    public = set(re.findall(r"^pub (?:struct|enum) ([A-Za-z0-9_]+)", text, re.M))
    at = 0
    while at < len(lines):
        line = lines[at]
        if re.match(r"pub trait ", line):
            trait = True
        elif re.match(r"impl.*\bModel for ([A-Za-z0-9_]+)", line):
            model = re.match(r"impl.*\bModel for ([A-Za-z0-9_]+)", line).group(1)
        elif line.startswith("}"):
            trait, model = False, None
        if model in public and re.match(r"\s+ghost Value = ", line):
            found.append((model, line))
        signature = re.match(r"\s*pub fn ([a-z0-9_]+)", line) or (trait and re.match(r"\s+(?:fn|ghost) ([a-z0-9_]+)", line))
        if signature:
            text_of, at = [line], at + 1
            while at < len(lines) and not re.match(r"\s*\{\s*$|\s*(?:pub )?(?:fn|ghost) [a-z_]+|\s*\}\s*$|\s*///", lines[at]) and not lines[at - 1].rstrip().endswith((";", "{}")):
                text_of.append(lines[at])
                at += 1
            first = next((n for n, it in enumerate(text_of) if re.match(r"\s*(?:requires|ensures|ghost)\b", it)), len(text_of))
            found.append((signature.group(1), "\n".join(text_of[first:])))
            continue
        at += 1
    return found


def public_calls(specs):
    """Each public call with the definitions that its clauses name."""
    calls = {}
    for path in glob.glob(os.path.join(TOP, "crates/*/src/**/*.rt"), recursive=True):
        crate = os.path.relpath(path, os.path.join(TOP, "crates")).split(os.sep)[0]
        text = read(path)
        imports, aliases = imports_of(text)
        for name, clauses in clauses_of(text):
            calls.setdefault((crate, name), set()).update(specs.cited(clauses, imports, aliases))
    return calls


def lines_of(specs, reached):
    return sum(1 for one in reached for line in specs.blocks[one[0], one[1]][one[2]].split("\n") if line.strip() and not line.strip().startswith("--"))


def main():
    specs = Specs()
    calls = public_calls(specs)
    if sys.argv[1:] == ["promises"]:
        for row in read(os.path.join(TOP, "docs/PROMISES.md")).split("\n"):
            cells = row.split("|")
            if len(cells) < 4 or "`" not in cells[2]:
                continue
            words = set(re.findall(r"[a-z_0-9]+|[A-Z][A-Za-z]+", " ".join(re.findall(r"`([^`]*)`", cells[2]))))
            start = {one for (crate, name), cited in calls.items() if name in words for one in cited}
            reached = specs.reach(start)
            files = sorted({f"{crate}/{path}" for crate, path, _ in reached})
            print(f"{cells[1].strip()[:100]}\n    {lines_of(specs, reached)} lines of {len(files)} files: {', '.join(files)}")
        return
    fail = False
    for (crate, name), start in sorted(calls.items()):
        inner = sorted({f"{one[0]}/specs/inner: {one[2]}" for one in specs.reach(start) if one[1].startswith("inner.")})
        if inner:
            fail = True
            print(f"{crate}::{name} reaches what is for bodies and proofs alone: {', '.join(inner)}")
    sys.exit(fail)


if __name__ == "__main__":
    main()
