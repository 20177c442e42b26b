"""What the scripts over edits share: an edit's file by its lines, and a scratch repository of the rules and of what they stand on, in which
a definition is changed and a term of it computed."""
import pathlib
import re
import shutil
import subprocess

top = pathlib.Path.cwd()


class Place:
    """Where an error stands: the file below crates/, the line, the declaration."""

    def __init__(self, file, line, name):
        self.file, self.line, self.name = file, line, name

    def __str__(self):
        return f"{self.file}:{self.line}: `{self.name}`"

words = re.compile(r"(file|old|new|do|call|right|wrong|claims|use|term):( |$)")

# events on the bench's connection, one after the other: the number of the last answer, and a value of its line
words_of_terms = """use mathlib.Core.Path.{◌≡◌, refl}
use mathlib.Core.List.{List, [], ◌∷◌, map}
use Prim.Native.Nat.{ℕ}
use lib.ListN.{length, get_or, replicate}
use Rattle.promise.specs.Line.{Line, refused}
use Rattle.promise.specs.Outcome.{left}
use Rattle.rules.specs.Numbers.{psn}
use Rattle.rules.specs.Receiving.{Arrive}
use Rattle.rules.specs.Bench.{Row, Given, row, lines, bench, arrives, sacks}
use Rattle.rules.specs.declared.Sending.TheVariants.{Send, Nack, Timer, Resend}
use Rattle.rules.specs.declared.Use.{Use}
use Rattle.rules.specs.declared.Use.TheVariants.{Sends, Receives}
use Rattle.rules.proofs.Unfold.{rules}

unfoldable last : List Line → Line
last [] = refused 0
last (l ∷ []) = l
last (l ∷ m ∷ n) = last (m ∷ n)

unfoldable answer_to : List Use → Line
answer_to es = last (lines bench (map (λ e. row Given e (refused 0)) es))

abbrev number : List Use → ℕ
number es = (answer_to es).number

abbrev value : List Use → ℕ → ℕ
value es i = get_or (answer_to es).values i 0

abbrev sends : Use
sends = Sends (Send 100)

"""


def parts(path):
    """The lines of an edit's file by their words, in order."""
    return [(line.partition(":")[0], line.partition(":")[2].removeprefix(" ")) for line in path.read_text().splitlines() if words.match(line)]


def first(lines, word):
    return next((text for key, text in lines if key == word), None)


def of_definition(lines):
    """Whether all its changes are of definitions."""
    return all(text.startswith("specs/") for key, text in lines if key == "file")


def lay(work, crates, bare, cited, functions=True):
    """The crates of a scratch repository: no must-fail edits, of the bare ones the definitions alone, of `rules` the cited proofs, and its
    functions with their proofs and what these cite, or without its functions its types and definitions."""
    for crate in crates:
        shutil.copytree(top / "crates" / crate, work / "crates" / crate, ignore=shutil.ignore_patterns("must-fail", "out"))
    listed = [line for line in (top / "crates.txt").read_text().splitlines() if line.split(":")[0] in crates]
    (work / "crates.txt").write_text("\n".join(listed) + "\n")
    proofs = work / "crates/rules/proofs"
    if not functions:
        source = work / "crates/rules/src/lib.rt"
        source.write_text(re.sub(r"^impl\b.*?^}\n|^ghost use .*?\n", "", source.read_text(), flags=re.M | re.S))
        for path in proofs.iterdir():
            if path.is_dir():
                shutil.rmtree(path)
    # what the proofs of functions cite, and what that cites
    cited, read = [*cited], [*proofs.glob("*/**/*.antt")]
    while read:
        for name in re.findall(r"^use Rattle\.rules\.proofs\.(\w+)\b", read.pop().read_text(), re.M):
            if name not in cited and (proofs / f"{name}.antt").exists():
                cited.append(name)
                read.append(proofs / f"{name}.antt")
    for path in proofs.iterdir():
        if path.is_file() and path.stem not in cited:
            path.unlink()
    for crate in bare:
        shutil.rmtree(work / "crates" / crate / "proofs")
        (work / "crates" / crate / "src/lib.rt").write_text("// The definitions alone.\n#![tactic(auto)]\n")
    (proofs / "Lib.antt").write_text("".join(f"pub mod {name}\n" for name in cited))


def changed(work, lines, there="crates/rules/"):
    """Makes an edit's changes; what puts them back. None where a line does not stand once."""
    before, file, old = {}, None, None
    for key, text in lines:
        if key == "file":
            file = work / (text if text.startswith("crates/") else there + text)
            before.setdefault(file, file.read_text())
        elif key == "old":
            old = text
        elif key == "new":
            now = file.read_text()
            if now.count(old) != 1:
                return None
            file.write_text(now.replace(old, text))
    return lambda: [path.write_text(text) for path, text in before.items()]


def check(work, crate):
    """Whether a crate is proved over those below it, and the first error's place: its crate, its file there, the line and the declaration."""
    done = subprocess.run(["rt", "check"], cwd=work / "crates" / crate, capture_output=True, text=True)
    said = done.stdout + done.stderr
    found = re.search(r"^(\S+?\.antt):(\d+):\d+: error: `([^`]+)`", said, re.M)
    if found is None:
        return done.returncode == 0, None
    # a crate's errors stand before the line that counts its modules
    counted = re.compile(r"^crate (\w+): modules", re.M).search(said, found.end())
    return done.returncode == 0, Place(f"{counted.group(1) if counted else crate}/{found.group(1).removeprefix('./')}", found.group(2), found.group(3))


def claim(work, claims):
    """The module of the scratch rules that claims what each term computes to: (name, lines, value) each."""
    text = "-- What some terms compute to.\n" + words_of_terms
    uses = sorted({use for _, lines, _ in claims for key, use in lines if key == "use"})
    text = "".join(f"use {use}\n" for use in uses) + text
    for name, lines, value in claims:
        named = re.sub(r"\W", "_", name) + "_is"
        text += f"{named} : {first(lines, 'term')} ≡ {value}\nunfolding rules lines bench last answer_to\n{named} = refl\n\n"
    (work / "crates/rules/proofs/Witness.antt").write_text(text)
