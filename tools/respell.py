#!/usr/bin/env python3
"""Brings this repository's own definitions and lemmas to today's spelling: snake case for all but types, facts and modules.

usage: tools/respell.py          once, at the top, after the kit's port.py; it rewrites files in place
       tools/respell.py --list   prints each old and new name, and writes nothing

    meaningOf, command-in-range  ->  meaning_of, command_in_range

Names that Rattle makes (steps and goals of a proof, behind `tie.` or a record of known facts), names of the kit, functions of src/, exported C
names, texts and comments keep their spelling. It stops where two names would fall together in one file, and where a proof has today's form,
whose goals it would take for names of our own.
"""

import glob
import os
import re
import sys

W = r"[^\s(){}.;,@\"«»\[\]\\]+"
TOKEN = re.compile(r"--[^\n]*|\"(?:[^\"\\]|\\.)*\"|«[^»]*»|\.?" + W)
DEFINED = re.compile(r"(?m)^( *)(?:(?:abbrev |unfoldable )?(?:pub )?(?:record |data )?(" + W + r") :|(?:pub )?ruleset (?:pub )?(" + W + r") )")
USE = re.compile(r"(?m)^(?:ghost )?(?:pub )?use ([^\s;{]+?)(?: as (" + W + r"))?(?:\.?\{([^}]*)\})?;?$")
# Names that would fall together with another, and what they are called instead.
APART = {}


def snake(name):
    """The name in snake case, or as it is where it is a type's, a fact's or an operator's."""
    if not re.match(r"[a-z]", name) or not re.fullmatch(r"[A-Za-z0-9_'₀-₉-]+", name):
        return name
    if name in APART:
        return APART[name]
    parts = name.split("-")
    if any(re.match(r"[A-Z]", it) for it in parts):
        return name
    parts = [re.sub(r"(?<=[a-z0-9])([A-Z])", lambda m: "_" + m.group(1).lower(), it) for it in parts]
    return "_".join(parts)


def own_crates():
    with open("crates.txt", encoding="utf-8") as it:
        return {line.split(":")[0].split()[0] for line in it if line.strip() and not line.startswith("#")}


def read(path):
    with open(path, encoding="utf-8", newline="") as it:
        return it.read()


class File:
    def __init__(self, path, crates):
        self.path, self.text = path, read(path)
        self.is_proof = path.endswith("/Proof.antt")
        code = "\n".join(it for it in self.text.split("\n") if not it.lstrip().startswith(("--", "//")))
        self.kit, self.imported, self.aliases = set(), set(), {}
        for path, alias, names in USE.findall(code):
            words = path.rstrip(".").split(".")
            is_own = words[0] == "Rattle" and len(words) > 1 and words[1] in crates
            made = is_own and ("contracts" in words or "specs" not in words and words[-1] in ("Tie", "Statement", "Symbol", "Met", "Code", "Key", "TheLaws"))
            if alias:
                self.aliases[alias] = is_own and not made
            for name in filter(None, (it.strip() for it in names.split(","))):
                first, _, last = name.partition(" as ")
                (self.imported if is_own and not made else self.kit).add(first)
                if last:
                    self.imported.add(last)
        self.defined, self.fields, self.records = set(), set(), []
        if not self.path.endswith(".rt"):
            self.declare(code)
        # A name that Rattle makes: in an old Proof.antt, what is declared of `tie`.
        self.made = set(re.findall(r"(?m)^(?:abbrev )?(?:pub )?(" + W + r") : (?:tie|stated)\.", code)) if self.is_proof else set()
        self.made |= set(re.findall(r"(?m)^(?:pub )?(" + W + r"-spec|" + W + r"_spec) :", code)) if self.is_proof else set()
        self.defined -= self.made

    def declare(self, code):
        """Notes what the file defines, and the fields of each record with the text of the record."""
        for block in re.split(r"(?m)^(?=\S)", code):
            head = re.match(r"(?:abbrev |unfoldable )?(?:pub )?record (" + W + r")", block)
            found = [(indent, name or rules) for indent, name, rules in DEFINED.findall(block)]
            if head:
                self.defined.add(head.group(1))
                fields = [name for indent, name in found if indent]
                self.fields |= set(fields)
                self.records.append((fields, block))
            else:
                self.defined |= {name for _, name in found}

    def scope(self):
        return self.defined | self.imported

    def clashes(self):
        """The sets of this file's names that would fall together."""
        by_new = {}
        for name in self.scope():
            by_new.setdefault(snake(name), set()).add(name)
        return [(new, olds) for new, olds in by_new.items() if len(olds) > 1]

    def turned(self, camel):
        """The text in the new spelling."""
        out, last, before, last_end = [], 0, "", 0
        for m in TOKEN.finditer(self.text):
            token = m.group()
            if token.startswith(("--", '"', "«")):
                continue
            bare, is_path = token.lstrip("."), token.startswith(".")
            # What a path begins with: an alias of an own module, or Rattle and an own crate.
            before = before if is_path and m.start() == last_end else bare
            last_end = m.end()
            if bare in self.made and not is_path:
                continue
            known = self.aliases.get(before, before == "Rattle") if is_path else bare in self.scope() and bare not in self.kit - self.defined
            if known or bare in camel:
                out.append(self.text[last : m.start()] + token[: len(token) - len(bare)] + snake(bare))
                last = m.end()
        return "".join(out) + self.text[last:]


EDITED = re.compile(r"(?m)^(?:old|new): .*$")


def main(argv):
    crates = own_crates()
    turned = [p for c in crates for p in glob.glob(f"crates/{c}/proofs/*/**/Answers.antt", recursive=True)]
    if turned:
        print(f"{turned[0]}: a proof of today's form: this script has run before", file=sys.stderr)
        return 1
    paths = sorted(p for c in crates for p in glob.glob(f"crates/{c}/**/*", recursive=True) if p.endswith((".antt", ".rt")) and "/out/" not in p)
    files = [File(p, crates) for p in paths]
    # Fields, variants and local names in camel case are written where they are not declared too.
    camel = {it for f in files if f.path.endswith(".antt") for it in re.findall(W, re.sub(r"--[^\n]*", "", f.text)) if re.fullmatch(r"[a-z][a-z0-9]*[A-Z]\w*'?", it)}
    camel -= {it for f in files for it in f.kit}
    # Of two names that would fall together the definition has the name, and the lemma its name with `_lem`.
    for new, olds in (it for f in files for it in f.clashes()):
        first = min(olds, key=lambda it: (it not in camel, "-" in it, it))
        APART.update({it: new + "_lem" for it in olds if it != first})
    for f in files:
        for new, olds in f.clashes():
            print(f"{f.path}: {', '.join(sorted(olds))} fall together", file=sys.stderr)
            return 1
    if "--list" in argv:
        print("\n".join(sorted({f"{it} {snake(it)}" for f in files for it in f.scope() | (camel & set(re.findall(W, f.text))) if snake(it) != it})))
        return 0
    for f in files:
        new = f.turned(camel)
        if new != f.text:
            with open(f.path, "w", encoding="utf-8", newline="") as it:
                it.write(new)
    for path in sorted(glob.glob("crates/*/must-fail/*.edit")):
        text = read(path)
        new = EDITED.sub(lambda m: re.sub(W, lambda w: snake(w.group()) if w.group() in camel else w.group(), m.group()), text)
        if new != text:
            with open(path, "w", encoding="utf-8", newline="") as it:
                it.write(new)
    return 0


if __name__ == "__main__":
    raise SystemExit(main(sys.argv[1:]))
