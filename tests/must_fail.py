"""The must-fail edits of the crates. A file of must-fail/ has one wrong program or several, which the prover is given in one run:

    program: NAME           (where there is none: one program, called as the file)
    # which sentence it breaks
    refused: WHAT ..        what the prover refuses of it on its own: functions, or laws as File.law
    file: src/lib.rt        then pairs of lines 'old:' and 'new:'

A function's proof rests on the contracts of what it calls and not on their code. So each wrong program of a file is refused by itself,
as long as none changes what another is refused by, or what that calls."""
import dataclasses, pathlib, re

ROOT = pathlib.Path(__file__).resolve().parent.parent


@dataclasses.dataclass
class Program:
    name: str
    comment: str = ""
    refused: list = dataclasses.field(default_factory=list)
    pairs: list = dataclasses.field(default_factory=list)  # (file, old, new)


@dataclasses.dataclass
class Edit:
    file: pathlib.Path
    crate: str
    programs: list

    @property
    def tried(self):
        """Where its log, its verdict and what was said of it stand, once it was tried (tests/trying.py), each with its ending."""
        return ROOT / "target/must-fail" / self.crate / self.file.stem

    def names(self):
        return [f"{self.crate}/{program.name}" for program in self.programs]


def parsed(file):
    programs, where, old = [], None, None
    for line in file.read_text().splitlines():
        if line.startswith("program: "):
            programs.append(Program(line[9:]))
        elif not programs:
            programs.append(Program(file.stem))
        program = programs[-1]
        if line.startswith("#"):
            program.comment += line[1:]
        elif line.startswith("refused: "):
            program.refused = line[9:].split()
        elif line.startswith("file: "):
            where = line[6:]
        elif line.startswith("old: "):
            old = line[5:]
        elif line.startswith("new:") and old:
            program.pairs.append((where, old, line[4:].removeprefix(" ")))
            old = None
    return Edit(file, file.parts[-3], programs)


def edits():
    return [parsed(file) for file in sorted(ROOT.glob("crates/*/must-fail/*.edit"))]


def functions(crate):
    """The text of each function of a crate, by its path, and what its contract and its body are."""
    found = {}
    for file in sorted((ROOT / "crates" / crate / "src").glob("*.rt")):
        text = file.read_text()
        module = "" if file.stem == "lib" else f"{file.stem}::"
        for place in re.finditer(r'^(?:pub(?:\(crate\))? )?(?:extern "C" )?fn (\w+)', text, re.M):
            end = re.compile(r"^\{\}$|^\}$", re.M).search(text, place.start())
            found[module + place[1]] = text[place.start() : end.end() if end else None]
    return found


def touches(program, function):
    """Whether a program that changes the code alone changes something of a function's text, or a constant that it mentions."""
    for _, old, _ in program.pairs:
        constant = re.match(r"(?:pub(?:\(crate\))? )?const (\w+)", old)
        if old in function or constant and re.search(rf"\b{constant[1]}\b", function):
            return True
    return False


# an error that only follows from another one
FOLLOWS = re.compile(r"\d+ declarations? that depends? on ")
# a proof that cites what the edit took away: that shows nothing
NAMES = re.compile(r"is not in scope|has no field|has no `|is no name")


def refusals(log, crate):
    """What a log says is refused on its own, with the reasons. Errors that only follow from another are left out."""
    found = {}
    # an error may go on in lines that are set in
    log = re.sub(r"\n  +(?=\S)", " ", log)
    for file, goal, reason in re.findall(r"^(?:\./)?((?:proofs|specs|src)/\S+?):\d+:\d+: error: (?:`([^`]+)`: )?(.*)", log, re.M):
        if not FOLLOWS.match(reason):
            function = re.fullmatch(r"proofs/(.*)/(?:Answers|Invariants|Proof)\.antt", file)
            law = f"{file.partition('/')[2].removesuffix('.antt')}.{goal}" if goal else file
            found.setdefault(function[1].replace("/", "::") if function else law, []).append(reason)
    # goals that the prover looks for itself, and does not prove: they stand above the line of their function
    notes = []
    for note, function, verdict in re.findall(rf"^(?:note: src/\S+: (it is not proved .*)|fn {crate}::(\S+?): (.*))", log, re.M):
        if note:
            notes.append(note)
        else:
            if notes and verdict != "proved":
                found.setdefault(function, []).extend(notes)
            notes = []
    return found


def facts(reasons):
    """The reasons that are a fact that fails. Where a name is gone, a goal that is called after a condition may only be called otherwise:
    then its line counts where it knows values that make it false."""
    renamed = any(NAMES.search(reason) for reason in reasons)
    hangs = re.compile(r"^it is not proved .*\(`[^`]*-(?:then|else)-[^`]*`\)(?!.*at which this goal is false)")
    return [reason for reason in reasons if not NAMES.search(reason) and not (renamed and hangs.search(reason))]
