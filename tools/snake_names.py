#!/usr/bin/env python3
"""Brings the names of this repository's own definitions and lemmas from kebab case to snake case.

usage: tools/snake_names.py     at the top of the repository, once, after the language's own porting script
What is renamed: each name with a dash that a file of specs/ or proofs/ declares (a definition, a lemma, a field, a name bound by a `let`, a λ or a
parameter), wherever it stands in specs/, proofs/, the clauses of src/, the edits, and between backticks in comments and in docs/. What is not: names
that the prover makes (goals, invariants and measures, and the steps of a walk), names of the library, functions, types, strings, and words of a
comment's text. A name that would fall together with another is reported, and then nothing is written.
"""
import pathlib
import re
import sys

top = pathlib.Path(".")
name = r"[A-Za-zℕ_][\w'₀-₉]*(?:-[\w'₀-₉]+)+"
token = re.compile(r"(?<![\w'₀-₉·-])" + name + r"(?![\w'₀-₉·-])")
declared_at = re.compile(r"^\s*(?:(?:abbrev|unfoldable|opaque|pub|constructor|field)\s+)*([^\s:(){}]+) :(?:\s|$)")
made = re.compile(r"^(invariant|decreases|Need|After|At|In|Then|Else|Branch|Start|the-invariant)-")

# of the lemmas that would have the name of the library's function
apart = {"bit-and": "bit_at_and", "bit-or": "bit_at_or"}


def proofs():
    return sorted(path for path in top.glob("crates/**/*.antt") if "out" not in path.parts)


def code(line):
    """A line without its comment."""
    return line.split("--", 1)[0] if line.lstrip().startswith("--") else re.split(r"(?:^|\s)--(?:\s|$)", line, maxsplit=1)[0]


def names():
    """The names to turn, those of the library, and every name that stands beside them."""
    own, library, all_names, projected = set(), set(), set(), set()
    bound = set()
    for path in proofs():
        text = path.read_text()
        for line in text.splitlines():
            line = code(line)
            use = re.match(r"\s*(?:pub )?use ([\w.'+·-]+)\.\{(.*)\}", line)
            if use:
                root = use.group(1).split(".")
                if not (root[0] == "Rattle" and (top / "crates" / root[1]).is_dir()):
                    library.update(x.strip().split(" as ")[0] for x in use.group(2).split(","))
                bound.update(x.split(" as ")[1].strip() for x in use.group(2).split(",") if " as " in x)
                continue
            found = declared_at.match(line)
            if found:
                all_names.add(found.group(1))
                if token.fullmatch(found.group(1)) and "tie." not in line.split(":", 1)[1][:6]:
                    own.add(found.group(1))
            projected.update(re.findall(r"\.(" + name + r")", line))
            for binder in re.findall(r"λ ([^.]*)\.", line) + re.findall(r"[({]([^(){}:]+) :", line) + re.findall(r"\blet ([^=:]+?) [:=]", line):
                bound.update(token.findall(binder))
    for path in top.glob("crates/*/src/*.rt"):
        for line in path.read_text().splitlines():
            if line.startswith("ghost use"):
                bound.update(x.split(" as ")[1].strip(" };") for x in line.split("{", 1)[-1].split(",") if " as " in x)
    own |= {x for x in bound if token.fullmatch(x) and x not in library and x not in projected}
    return {x for x in own if not made.match(x) and x not in library}, library, all_names


def turned(x):
    return apart.get(x) or re.sub(r"^getD_", "get_or_", x.replace("-", "_"))


def ungarbled(text):
    """Two spellings that the porting script gives an alias of src/: `code_of_lem` of `code-of`, and a capital."""
    text = re.sub(r"\b([a-z]+_of)_lem\b", lambda m: m.group(0) if re.search(rf"(?<![\w.-]){m.group(1)}(?![\w-])", text) else m.group(1), text)
    return text.replace("Close-of", "close_of").replace("Close_of", "close_of")


def renamed(text, own):
    return token.sub(lambda m: turned(m.group(0)) if m.group(0) in own else m.group(0), text)


def in_backticks(text, own):
    return re.sub(r"`[^`\n]*`", lambda m: renamed(m.group(0), own), text)


def proof_line(line, own):
    cut = re.search(r"(?:^|\s)--(?:\s|$)", line)
    if cut is None:
        return renamed(line, own)
    return renamed(line[: cut.start()], own) + in_backticks(line[cut.start() :], own)


def source_line(line, own):
    """A line of src/: strings stay, comments change between backticks."""
    cut = line.find("//")
    head, tail = (line, "") if cut < 0 else (line[:cut], line[cut:])
    parts = re.split(r'("(?:[^"\\]|\\.)*")', head)
    return "".join(part if part.startswith('"') else renamed(part, own) for part in parts) + in_backticks(tail, own)


def respelled(text, all_names, tightened=True):
    """What the porting script does to a definition's text, done to an edit's: tight projections, the library's new words, and names of ours
    that it turned because the library had them."""
    while tightened:
        tight = re.sub(r"\(([\w.'₀-₉]+) \.(\w+)\)", r"\1.\2", text)
        tight = re.sub(r"(?<= )\(([\w'₀-₉]+(?:\.\w+)+)\)", r"\1", tight)
        tight = re.sub(r"(?<=[\w'₀-₉)]) \.(?=[\w])", ".", tight)
        if tight == text:
            break
        text = tight
    text = text.replace("getD", "get_or").replace("′", "'")
    return token.sub(lambda m: turned(m.group(0)) if turned(m.group(0)) in all_names else m.group(0), text)


def edit_text(text, own, all_names):
    out, file = [], ""
    for line in text.split("\n"):
        key, _, rest = line.partition(":")
        if key == "file":
            file = rest.strip()
        if key in ("old", "new"):
            line = key + ":" + (source_line(rest, own) if file.endswith(".rt") else respelled(proof_line(rest, own), all_names))
        elif key in ("term", "use"):
            line = key + ":" + re.sub(r"\bRattle·(\w+)(?:·(?:specs|proofs))?\.", r"Rattle.\1.", respelled(renamed(rest, own), all_names, False))
        out.append(line)
    return "\n".join(out)


def main():
    own, library, all_names = names()
    targets = {}
    for x in sorted(own):
        targets.setdefault(turned(x), []).append(x)
    clash = {t: xs for t, xs in targets.items() if len(xs) > 1 or t in all_names or t in library}
    if clash:
        print("these names would fall together with others:", clash)
        return 1
    count = 0
    files = [(path, proof_line) for path in proofs()] + [(path, source_line) for path in sorted(top.glob("crates/*/src/**/*.rt"))]
    for path, turn in files:
        text = path.read_text()
        new = ungarbled("\n".join(turn(line, own) for line in text.split("\n")))
        if new != text:
            path.write_text(new)
            count += 1
    for path in sorted(top.glob("crates/*/must-fail/*.edit")) + sorted(top.glob(".ci/faults/*.edit")):
        text = path.read_text()
        new = edit_text(text, own, all_names)
        if new != text:
            path.write_text(new)
            count += 1
    for path in [*sorted(top.glob("docs/*.md")), top / "README.md"]:
        text = path.read_text()
        new = in_backticks(text, own)
        if new != text:
            path.write_text(new)
            count += 1
    print(f"{len(own)} names turned, in {count} files")
    return 0


sys.exit(main())
