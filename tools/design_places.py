#!/usr/bin/env python3
"""Counts what docs/DESIGN-PASS.md is about: places of crates/*/src that may have an old form, by its points 1 to 7, and the proofs of its point 8.

usage: tools/design_places.py [FOLDER]          how many of each point, a line a crate
       tools/design_places.py --list [FOLDER]   each place of 1 to 7: POINT CRATE/FILE:LINE: what it is

Of point 8 there are three counts: answers, definitions beside answers (both in proofs/**/Answers.antt), and lemmas and other definitions of proofs/*.antt.  FOLDER
is the top of a repository, this one if none is named; `git worktree add FOLDER COMMIT` gives an older one.  A place is found by its shape: some that are listed have
no better form, and some that a reader finds are not listed.
"""
import collections
import difflib
import itertools
import pathlib
import re
import sys

ALIKE, SMALLEST = 0.8, 16  # the share of tokens that twins have in common, and the tokens of the smallest

FUNCTION = re.compile(r'^(\s*)(?:pub(?:\([a-z]+\))? )?(?:const )?(?:extern "C" )?fn (\w+)')
TYPE = re.compile(r"(?:pub(?:\([a-z]+\))? )?(struct|enum) (\w+).*\{$")
WHOLE = r"(?:u8|u16|u32|u64|usize)"
NUMBERED = r"(?:number|refusal|selection|side): u8|kind: (?:u8|usize)"
DEFINED = r"(?:(?:abbrev|unfoldable|pub|data|record) )*[^\s(){};]+(?: \{[^}]*\}| \([^)]*\))* : (.*)"
CALL = r"(?:\w+::)*[a-z_]\w*\("
KEYWORDS = set("if else while for in loop match return let mut as fn break true false len".split())

Function = collections.namedtuple("Function", "crate file line name params result facts body text opened")


# ---- reading ----

def parts(text, mark, brackets="([{)]}"):
    """A text cut at a mark that is not inside brackets."""
    depth, start, half = 0, 0, len(brackets) // 2
    for i, letter in enumerate(text):
        if not (letter == ">" and text[i - 1:i] in ("-", "=")):
            depth += (letter in brackets[:half]) - (letter in brackets[half:])
        if letter == mark and depth == 0:
            yield text[start:i].strip()
            start = i + 1
    yield text[start:].strip()


def signature(head):
    """The parameters of a function's head, each a name and a type, and what it answers."""
    head = re.sub(r"\s+", " ", re.split(r"\n\s*(?:requires|ensures|decreases|where)\b|\{$", head)[0])
    head = head[head.index("fn "):]
    start = depth = 0
    for start, letter in enumerate(head):
        depth += (letter == "<") - (letter == ">" and head[start - 1] != "-")
        if letter == "(" and depth == 0:
            break
    end, depth = start, 0
    for end, letter in enumerate(head[start:], start):
        depth += (letter == "(") - (letter == ")")
        if depth == 0:
            break
    params = [re.sub(r"^mut ", "", it).split(": ", 1) for it in parts(head[start + 1:end], ",", "([{<)]}>") if ": " in it]
    return [(name, re.sub(r"'\w+ ", "", kind)) for name, kind in params], head[end + 1:].partition("->")[2].strip()


def facts_of(head, params):
    """The facts of a contract that say nothing of what the function changes, with a dot for each parameter's name."""
    names = "|".join(name for name, _ in params) or "-"
    for clause in re.findall(r"(?:requires|ensures)(?: \w+)? \{ (.*) \}", head):
        for fact in parts(clause, "×"):
            fact = fact[1:-1] if fact.startswith("(") and fact.endswith(")") else fact
            if ".new" not in fact and not re.search(r"\bresult\b.*≡|≡.*\bresult\b", fact):
                yield re.sub(rf"\b(?:{names})\b", "·", fact)


def functions(crate, file, lines):
    """The functions of a source file, as `rt fmt` lays them out."""
    for i, line in enumerate(lines):
        head = FUNCTION.match(line)
        if not head:
            continue
        end = next((k for k in range(i, len(lines)) if lines[k] == head[1] + "}" or k == i and line.endswith("}")), i)
        opened = next((k for k in range(i, end) if lines[k] == head[1] + "{" or re.match(rf"{head[1]}\S.*\{{$", lines[k]) and "{ " not in lines[k]), end)
        above = "\n".join(lines[i:opened + 1])
        params, result = signature(above)
        yield Function(crate, file, i, head[2], params, result, list(facts_of(above, params)), lines[opened + 1:end], "\n".join(lines[i:end]), opened + 1)


def runs(lines, pattern):
    """Where three or more lines in a row, blank ones apart, have a pattern."""
    at = count = 0
    for i, line in enumerate([*lines, "}"]):
        if re.match(pattern, line):
            at, count = (at, count + 1) if count else (i, 1)
        elif line.strip():
            if count >= 3:
                yield at, count
            count = 0


def types(lines):
    """The structs and enums of a file: line, kind, name, body, and what each field or variant holds."""
    for i, line in enumerate(lines):
        head = TYPE.match(line)
        if head:
            body = lines[i + 1:lines.index("}", i)]
            held = [re.match(r"    (?:pub )?\w+(?:: (.*)|\((.*)\))?,$", it) for it in body]
            yield i, head[1], head[2], body, [it[1] or it[2] or "" for it in held if it]


# ---- point 1 ----

def own_types(lines):
    """Enums in the place of Option or Result, flags and numbers in the place of what they stand for."""
    for i, kind, name, body, held in types(lines):
        numbers = [it for it in held if re.fullmatch(f"(?:{WHOLE}(?:, )?)*", it)]
        if kind == "enum" and len(held) <= 3 and any(held) and len(numbers) >= len(held) - 1:
            yield i, f"enum {name}, like Option or Result: {' '.join(it.strip() for it in body)}"
        for n, line in enumerate(body, i + 1):
            if kind == "struct" and len(body) > 1 and re.search(r": bool,$", line):
                yield n, f"{name}: a flag beside a value: {line.strip()}"
            if kind == "struct" and re.fullmatch(rf"    (?:pub )?(?:{NUMBERED}),", line):
                yield n, f"{name}: a number for a kind or refusal: {line.strip()}"
    for i, line in enumerate(lines):
        if re.search(r"[=!]= TAKEN\b", line):
            yield i, f"a number asked for: {line.strip()}"
        if re.search(r"\bRefused\(\w+\) =>|\bErr\((\w+)\) => (?:return )?Err\(\1|\blet [A-Z]\w*::\w+\(\w+\) = .* else", line):
            yield i, f"a refusal handed on by hand: {line.strip()}"
    yield from ((at, f"{count} numbers by name, from {lines[at].strip()}")
                for at, count in runs(lines, r"(?:pub )?const \w+: u8 = \d+;") if lines[at].endswith("= 0;"))


def numbers_of(function):
    """What a function answers and takes."""
    if function.result == "u8" and ("number", "usize") not in function.params and re.search(r"\b(?:number|numbered|number_of|refusal|taken|TAKEN|extern)\b", function.text):
        yield 0, f"{function.name} answers a refusal or kind as a number"
    for name, kind in function.params:
        if re.fullmatch(r"&mut (?:u8|usize|bool)", kind):
            yield 0, f"{function.name} answers by {name}: {kind}"
        if re.fullmatch(NUMBERED, f"{name}: {kind}"):
            yield 0, f"{function.name} takes a number for a kind or refusal: {name}: {kind}"


# ---- point 2 ----

def shape(text):
    """The tokens of a body, each name by when it comes first."""
    known = {}
    for token in re.findall(r"[A-Za-z_]\w*|\d\w*|[^\w\s]", text):
        if token in KEYWORDS or not re.match(r"\w", token):
            yield token
        else:
            yield "0" if token[0].isdigit() else str(known.setdefault(token, len(known) + 1))


def twins(found):
    """Functions whose bodies are nearly the same but for names."""
    shapes = [(it, list(shape("\n".join(it.body)))) for it in found]
    shapes = [(it, tokens) for it, tokens in shapes if len(tokens) >= SMALLEST]
    alike = collections.defaultdict(list)
    for (i, (one, left)), (k, (other, right)) in itertools.combinations(enumerate(shapes), 2):
        match = difflib.SequenceMatcher(None, left, right, False)
        if match.real_quick_ratio() >= ALIKE and match.quick_ratio() >= ALIKE and match.ratio() >= ALIKE:
            alike[i].append(f"{other.crate}/{other.file} {other.name}")
            alike[k].append(f"{one.crate}/{one.file} {one.name}")
    for i, named in alike.items():
        yield shapes[i][0], f"{shapes[i][0].name} is made like {', '.join(named)}"


# ---- points 3 and 4 ----

def loops(lines):
    """Loops that count an index."""
    return ((i, line.strip()) for i, line in enumerate(lines) if re.match(r"\s*(?:while\b|loop\b|for \w+ in .*\.\.)", line))


def by_hand(lines):
    """Conversions and copies."""
    for i, line in enumerate(lines):
        if re.match(r"\s*(?:requires|ensures)\b", line):
            continue
        if re.search(rf"\bas {WHOLE}\b", line):
            yield i, f"conversion: {line.strip()}"
        elif re.search(r"\b256 \*|[/%] 256\b|\* 0x1_?0", line):
            yield i, f"bytes and numbers: {line.strip()}"
        elif re.search(r"\{ [01] \} else \{ [01] \}", line):
            yield i, f"a flag as a number: {line.strip()}"
    yield from ((at, f"{count} fields copied, from {lines[at].strip()}") for at, count in runs(lines, r"\s+(?:\w+: )?\w+(?:\.\w+|\[[A-Z_]+\]),$"))


def by_hand_in(function):
    """Comparisons, enums to numbers and back, digits."""
    body = "\n".join(function.body)
    if len(re.findall(r"=> (?:true|false),", body)) > 1:
        yield 0, f"{function.name}: variants compared by hand"
    elif re.fullmatch(r"\s*if \S+ == \S+ \{\s*return (?:\S+ == \S+|true|false);\s*\}\s*(?:true|false)", body):
        yield 0, f"{function.name}: a comparison by `if`"
    if len(re.findall(r"\w+::\w+ => (?:[A-Z_]+|\d+),", body)) > 1 and function.result in ("u8", "usize"):
        yield 0, f"{function.name}: an enum as a number"
    if len(re.findall(r"\n\s+\d+ => [\w:(]*[A-Z]\w*::[A-Z]", body)) > 1:
        yield 0, f"{function.name}: a number as an enum"
    if "b'0' +" in body:
        yield 0, f"{function.name}: digits printed by hand"


# ---- point 5 ----

def repeated(found):
    """Facts, and groups of parameters, that stand in three or more functions of a crate."""
    for _, group in itertools.groupby(found, lambda it: it.crate):
        group, facts = list(group), collections.defaultdict(list)
        for it in group:
            for fact in set(it.facts):
                facts[fact].append(it)
        yield from ((held[0], f"in {len(held)} contracts: {fact}") for fact, held in facts.items() if len(held) >= 3)
        sets = [frozenset((name, re.sub("^&(?:mut )?", "", kind)) for name, kind in it.params) for it in group]
        held = {}
        for names in {one & other for one, other in itertools.combinations(sets, 2) if len(one & other) > 1}:
            its = [it for it, params in zip(group, sets) if names <= params]
            if len(its) >= 3:
                held[names] = its
        told = []
        for names, its in sorted(held.items(), key=lambda it: (-len(it[0]) * len(it[1]), sorted(it[0]))):
            if not any(names <= more or more <= names for more in told):
                told.append(names)
                yield its[0], f"in {len(its)} signatures: {', '.join(sorted(name for name, _ in names))}"


# ---- points 6 and 7 ----

def buffers(lines):
    """Parts of a buffer by start and end, and parallel constants."""
    for i, line in enumerate(lines[:-1]):
        named = re.match(r"\s*let (\w+) = (?:\w+ \+ |.*\* )", line)
        if named and re.match(rf"\s*let \w+ = {named[1]} \+ ", lines[i + 1]):
            yield i, f"a part by start and end: {line.strip()} {lines[i + 1].strip()}"
    yield from ((at, f"{count} places by name, from {lines[at].strip()}")
                for at, count in runs(lines, r"(?:pub )?const \w+: usize = \d+;") if lines[at].endswith("= 0;"))


def beside(function):
    """A buffer, and a place in it or a length beside it."""
    slices = [name for name, kind in function.params if re.fullmatch(r"&(?:mut )?\[\w+\]", kind)]
    at = [name for name, kind in function.params if kind == "usize" and re.fullmatch("at|from|to|next|start|limit|count|width|size|bytes", name)]
    if slices and at:
        yield 0, f"{function.name}: {', '.join(slices)} with {', '.join(at)} beside"


def switches(function):
    """A match or an `if` of a number, or of an enum without values, that chooses which function is called."""
    for i, line in enumerate(function.body):
        head = re.match(r"(\s*).*\bmatch (.*) \{$", line)
        if head:
            end = next((k for k in range(i + 1, len(function.body)) if function.body[k].startswith(head[1] + "}")), i)
            arms = [it for it in function.body[i + 1:end] if re.match(head[1] + r"    \S.* => ", it)]
            called = [it for it in arms if re.match(rf"\s*(?:[\w |.=]+|[A-Z]\w*::[A-Z]\w*) => (?:\{{$|{CALL})", it)]
            if len(called) > 1 and not any(re.search(r"\w\([^)]*\) =>", it) for it in arms):
                yield i, f"{function.name} chooses a function by {head[2]}"
        text = "\n".join(function.body[i:i + 6])
        if re.match(rf"\s*if [\w.]+ == (?!TAKEN)\w+ \{{\n\s*{CALL}[^\n]*\n(?:\s*return;\n\s*\}}\n\s*|\s*\}} else \{{\n\s*){CALL}", text):
            yield i, f"{function.name} chooses a function by {line.strip()[3:-2]}"


# ---- point 8 ----

def proofs_of(folder):
    """How many answers a crate's proofs have, definitions beside them, and lemmas."""
    answers = beside_them = lemmas = 0
    for path in folder.glob("proofs/**/*.antt"):
        inside, named = False, []
        for line in path.read_text().splitlines():
            if re.match(r"[^\s-]", line):
                inside = line.startswith(("module ", "pub module "))
            it = re.match(r"(  )?(?!use |pub use |module |mod )" + DEFINED, line)
            if it and (inside or not it[1]):
                named.append(it[2].startswith("goal."))
        if path.parent.name == "proofs":
            lemmas += len(named)
        elif path.name == "Answers.antt":
            answers, beside_them = answers + sum(named), beside_them + named.count(False)
    return answers, beside_them, lemmas


# ---- all ----

def places(root):
    """Each place: point, crate, file, line and what it is."""
    found, made = [], collections.defaultdict(list)
    for path in sorted(root.glob("crates/*/src/**/*.rt")):
        crate, file = path.relative_to(root).parts[1], "/".join(path.relative_to(root).parts[3:])
        lines = [re.sub(r"\s*//.*|^\s*ghost use .*", "", line) for line in path.read_text().splitlines()]
        for point, search in ((1, own_types), (3, loops), (4, by_hand), (6, buffers)):
            yield from ((point, crate, file, i + 1, text) for i, text in search(lines))
        here = list(functions(crate, file, lines))
        for it in here:
            yield from ((1, crate, file, it.line + i + 1, text) for i, text in numbers_of(it))
            yield from ((4, crate, file, it.line + i + 1, text) for i, text in by_hand_in(it))
            yield from ((6, crate, file, it.line + i + 1, text) for i, text in beside(it))
            yield from ((7, crate, file, it.opened + i + 1, text) for i, text in switches(it))
        found += here
        for i, kind, name, _, held in types(lines):
            if any(held) and len(held) > 1:
                made[kind, tuple(re.sub(r"\b[A-Z]\w*", "T", it) for it in held)].append((crate, file, i + 1, name))
    yield from ((2, it.crate, it.file, it.line + 1, text) for it, text in twins(found))
    yield from ((5, it.crate, it.file, it.line + 1, text) for it, text in repeated(found))
    for (kind, _), group in made.items():
        for crate, file, line, name in group if len(group) > 1 else ():
            yield 2, crate, file, line, f"{kind} {name} is made like {', '.join(f'{c}/{f} {n}' for c, f, l, n in group if (c, f, l) != (crate, file, line))}"


def main():
    """Prints the counts, or the list."""
    words = [it for it in sys.argv[1:] if it != "--list"]
    if len(words) > 1 or any(it.startswith("-") for it in words):
        print(__doc__.strip())
        sys.exit(words[0] not in ("-h", "--help"))
    root = pathlib.Path(words[0]) if words else pathlib.Path(__file__).resolve().parent.parent
    found = sorted(places(root))
    if "--list" in sys.argv[1:]:
        for point, crate, file, line, text in found:
            print(f"{point} {crate}/{file}:{line}: {text}")
        return
    counts = {path.name: [sum(it[:2] == (point, path.name) for it in found) for point in range(1, 8)] + [*proofs_of(path)]
              for path in sorted(root.glob("crates/*"))}
    counts["all"] = [sum(it) for it in zip(*counts.values())]
    for name, row in (("crate", [*range(1, 8), "8: answers", "beside", "lemmas"]), *counts.items()):
        print(f"{name:<14}" + "".join(f"{it:>5}" for it in row[:7]) + "".join(f"{it:>12}" for it in row[7:]))


if __name__ == "__main__":
    main()
