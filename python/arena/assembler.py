"""An assembler for jobs, and its way back.

    args 0 10000            the root's arguments; `fuel 5000` is the job's fuel
    GRAIN = 100             a constant, for `set`
    proc main(lo, hi)       a procedure; the names in parentheses are registers 0 and 1
    loop:   lt t lo hi      a label; it may stand before an instruction or alone
            free t          the register of a name is free again

A register is `r0` to `r7`, or a name: a name that is new gets, where it is written, the lowest register that has no
name and is nowhere in the procedure by its number. Groups (`g0` to `g3`) and cells (`k0` to `k7`) have names in the
same way, groups in a procedure, cells in the job. A procedure is its name, or its number. A comment begins with `;` or
`#`.
"""
import re
from collections.abc import Iterator
from dataclasses import dataclass, field
from difflib import get_close_matches

from arena.jobs import (GREATEST_FUEL, GREATEST_NUMBER, GROUPS, INSTRUCTIONS, INSTRUCTIONS_OF_A_PROCEDURE, KEYS,
                        LAST_INSTRUCTIONS, LEAST_NUMBER, PROCEDURES, REGISTERS, Instruction, Job, Operand)
from arena.texts import TextFault, counted, is_or_are, lines_of, listed

_WORD = re.compile(r"[A-Za-z_][A-Za-z0-9_.]*|-?[0-9][0-9_]*|[():=]|[^\s,]")
_NAME = re.compile(r"[A-Za-z_][A-Za-z0-9_.]*")
_NUMBER = re.compile(r"-?[0-9][0-9_]*")
_MOST_DIGITS = 40
_DIRECTIVES = ("args", "fuel", "proc", "free")


class AssemblyFault(TextFault):
    """Why an assembly is refused. It has `line`, `column`, `message` and `file`; `str()` is `FILE:LINE:COLUMN:
    message`."""


@dataclass(frozen=True)
class _Word:
    text: str
    line: int
    column: int

    def fault(self, message: str) -> AssemblyFault:
        """The fault with this message at this word."""
        return AssemblyFault(message, self.line, self.column)

    def is_name(self) -> bool:
        """Whether the word can be a name."""
        return bool(_NAME.fullmatch(self.text))

    def number(self, least: int, greatest: int, what: str) -> int:
        """The word as a number of a range."""
        if not _NUMBER.fullmatch(self.text):
            raise self.fault(f"{what} is a number, and `{self.text}` is none")
        digits = self.text.lstrip("-").replace("_", "").lstrip("0") or "0"
        number = int(digits) * (-1 if self.text[0] == "-" else 1) if len(digits) <= _MOST_DIGITS else None
        if number is None or not least <= number <= greatest:
            shown = f"{self.text[:_MOST_DIGITS]}.." if number is None else number
            raise self.fault(f"{what} is from {least} to {greatest}, not {shown}")
        return number


@dataclass
class _Named:
    """Names for registers, groups or cells, which are numbered from 0 and also written as a letter and a number."""

    letter: str
    count: int
    noun: str
    advice: str
    numbers: dict[str, int] = field(default_factory=dict)
    reserved: set[int] = field(default_factory=set)

    def plain(self, text: str) -> int | None:
        """The number in a text such as `r3`."""
        return next((number for number in range(self.count) if text == f"{self.letter}{number}"), None)

    def number(self, word: _Word, may_be_new: bool) -> int:
        """The number that a word stands for."""
        plain = self.plain(word.text)
        if plain is not None:
            return plain
        if not word.is_name() or re.fullmatch(rf"{self.letter}[0-9]+", word.text):
            raise word.fault(f"expected a {self.noun}, {self.letter}0 to {self.letter}{self.count - 1} or a name, "
                             f"found `{word.text}`")
        if word.text not in self.numbers:
            if not may_be_new:
                raise word.fault(f"the {self.noun} {word.text} is read before it is written; there "
                                 f"{'is ' + listed(self.numbers) if self.numbers else 'is no name yet'}")
            self.numbers[word.text] = self._free(word)
        return self.numbers[word.text]

    def _free(self, word: _Word) -> int:
        free = set(range(self.count)) - set(self.numbers.values()) - self.reserved
        if not free:
            raise word.fault(f"no {self.noun} is left for {word.text}: there are {self.count}, and names have "
                             f"{listed(self.numbers) or 'none'}; {self.advice}")
        return min(free)


@dataclass
class _Procedure:
    """A procedure that is being read. A target is the word of a label until all labels are known."""

    word: _Word
    registers: _Named = field(default_factory=lambda: _Named("r", REGISTERS, "register", "end one by `free`, or reuse "
                                                                                         "one"))
    groups: _Named = field(default_factory=lambda: _Named("g", GROUPS, "group", "reuse one"))
    labels: dict[str, int] = field(default_factory=dict)
    lines: list[tuple[_Word, list[int | _Word]]] = field(default_factory=list)

    def instructions(self) -> Iterator[Instruction]:
        """The instructions, with the targets in place of labels."""
        for word, operands in self.lines:
            yield Instruction(word.text, tuple(it if isinstance(it, int) else self._target(it) for it in operands))

    def _target(self, word: _Word) -> int:
        if word.text not in self.labels:
            raise word.fault(f"there is no label {word.text} in {self.word.text}; there "
                             f"{'is ' + listed(self.labels) if self.labels else 'is none'}")
        return self.labels[word.text]

    def check(self) -> None:
        """Checks what the whole procedure must be."""
        name, count = self.word.text, len(self.lines)
        if not 1 <= count <= INSTRUCTIONS_OF_A_PROCEDURE:
            raise self.word.fault(f"{name} has {counted(count, 'instruction')}, and a procedure has 1 to "
                                  f"{INSTRUCTIONS_OF_A_PROCEDURE}")
        last = self.lines[-1][0]
        if last.text not in LAST_INSTRUCTIONS:
            raise last.fault(f"the last instruction of {name} is ret or jmp, not {last.text}: add `ret` of a register")
        beyond = [label for label, at in self.labels.items() if at == count]
        if beyond:
            raise self.word.fault(f"the label {beyond[0]} of {name} stands before no instruction")


class _Assembler:
    """Reads the lines of an assembly."""

    def __init__(self, text: str) -> None:
        self.lines = [list(_words(line, number)) for number, line in enumerate(lines_of(text), 1)]
        self.args: tuple[int, int] | None = None
        self.fuel: int | None = None
        self.constants: dict[str, int] = {}
        self.cells = _Named("k", KEYS, "cell", "reuse one")
        self.procedures: list[_Procedure] = []
        self.names: dict[str, int] = {}
        self._find_procedures()

    def _find_procedures(self) -> None:
        """Notes the procedures, and which registers, groups and cells they write by number."""
        for words in self.lines:
            if words and words[0].text == "proc":
                self.procedures.append(self._begun(words))
            named = [self.procedures[-1].registers, self.procedures[-1].groups] if self.procedures else []
            for known in [*named, self.cells]:
                plain = (known.plain(it.text) for it in words)
                known.reserved |= {it for it in plain if it is not None}

    def _begun(self, words: list[_Word]) -> _Procedure:
        if len(words) < 2 or not words[1].is_name():
            raise words[0].fault("expected `proc NAME`, or `proc NAME(x, y)` with names for the two arguments")
        name = words[1]
        if name.text in self.names:
            raise name.fault(f"there is a procedure {name.text} already: choose another name")
        if len(self.procedures) == PROCEDURES:
            raise name.fault(f"a job has at most {PROCEDURES} procedures")
        self.names[name.text] = len(self.procedures)
        return _Procedure(name)

    def read(self) -> None:
        """Reads all lines."""
        current = -1
        for words in self.lines:
            if words and words[0].text == "proc":
                current += 1
                self._read_arguments(self.procedures[current], words)
            elif words:
                self._read_line(self.procedures[current] if current >= 0 else None, words)
        if not self.procedures:
            raise AssemblyFault("there is no procedure: write `proc main(x, y)` and its instructions", 1, 1)
        for procedure in self.procedures:
            procedure.check()

    def _read_arguments(self, procedure: _Procedure, words: list[_Word]) -> None:
        if len(words) == 2:
            return
        names = words[3:-1]
        if words[2].text != "(" or words[-1].text != ")" or len(names) > 2 or not all(it.is_name() for it in names):
            raise words[2].fault("expected the names of up to two arguments in parentheses")
        for number, name in enumerate(names):
            if procedure.registers.plain(name.text) not in (None, number):
                raise name.fault(f"{name.text} is another register than that of this argument, r{number}")
            if name.text in procedure.registers.numbers:
                raise name.fault(f"{procedure.word.text} has two arguments {name.text}: rename one")
            if procedure.registers.plain(name.text) is None:
                procedure.registers.numbers[name.text] = number

    def _read_line(self, procedure: _Procedure | None, words: list[_Word]) -> None:
        while procedure is not None and len(words) > 1 and words[1].text == ":":
            self._place(procedure, words[0])
            words = words[2:]
        if not words:
            return
        first, rest = words[0], words[1:]
        if len(words) == 3 and words[1].text == "=" and first.is_name():
            self.constants[first.text] = words[2].number(LEAST_NUMBER, GREATEST_NUMBER, "a constant")
        elif first.text == "args":
            x, y = self._numbers(first, rest, 2, LEAST_NUMBER, GREATEST_NUMBER)
            self.args = (x, y)
        elif first.text == "fuel":
            self.fuel = self._numbers(first, rest, 1, 1, GREATEST_FUEL)[0]
        elif procedure is None:
            raise first.fault(f"`{first.text}` stands before the first procedure: write `proc main(x, y)` above it")
        elif first.text == "free":
            self._free(procedure, first, rest)
        else:
            procedure.lines.append((first, list(self._operands(procedure, first, rest))))

    def _numbers(self, first: _Word, rest: list[_Word], count: int, least: int, greatest: int) -> tuple[int, ...]:
        if len(rest) != count:
            raise first.fault(f"`{first.text}` takes {counted(count, 'number')}, and here {is_or_are(len(rest))}")
        return tuple(it.number(least, greatest, f"`{first.text}`") for it in rest)

    def _place(self, procedure: _Procedure, label: _Word) -> None:
        if not label.is_name():
            raise label.fault(f"`{label.text}` is no name for a label")
        if label.text in procedure.labels:
            raise label.fault(f"the label {label.text} is there already in {procedure.word.text}: choose another name")
        procedure.labels[label.text] = len(procedure.lines)

    def _free(self, procedure: _Procedure, first: _Word, names: list[_Word]) -> None:
        if not names:
            raise first.fault("`free` takes the names of registers")
        for name in names:
            if name.text not in procedure.registers.numbers:
                raise name.fault(f"no register is called {name.text}")
            del procedure.registers.numbers[name.text]

    def _operands(self, procedure: _Procedure, name: _Word, words: list[_Word]) -> Iterator[int | _Word]:
        if name.text not in INSTRUCTIONS:
            close = get_close_matches(name.text, [*INSTRUCTIONS, *_DIRECTIVES], 1)
            raise name.fault(f"there is no instruction "
                             f"{name.text}{'; did you mean ' + close[0] + '?' if close else ''}")
        kinds = INSTRUCTIONS[name.text]
        if len(words) != len(kinds):
            raise name.fault(f"{name.text} takes {counted(len(kinds), 'operand')}, and here {is_or_are(len(words))}: "
                             f"{listed(it.noun for it in kinds)}")
        # what is read is looked up before a new name gets a register
        read = {at: procedure.registers.number(word, False)
                for at, (kind, word) in enumerate(zip(kinds, words)) if kind is Operand.SOURCE}
        for at, (kind, word) in enumerate(zip(kinds, words)):
            yield read[at] if at in read else self._operand(procedure, kind, word)

    def _operand(self, procedure: _Procedure, kind: Operand, word: _Word) -> int | _Word:
        match kind:
            case Operand.DESTINATION:
                return procedure.registers.number(word, True)
            case Operand.GROUP:
                return procedure.groups.number(word, True)
            case Operand.KEY:
                return self.cells.number(word, True)
            case Operand.TARGET:
                return word
            case Operand.PROCEDURE:
                return self._procedure(word)
        if word.text in self.constants:
            return self.constants[word.text]
        if word.is_name():
            raise word.fault(f"there is no constant {word.text}: write `{word.text} = 0` above, or a number")
        return word.number(LEAST_NUMBER, GREATEST_NUMBER, "the number of `set`")

    def _procedure(self, word: _Word) -> int:
        if word.text in self.names:
            return self.names[word.text]
        if word.is_name():
            raise word.fault(f"there is no procedure {word.text}; there is {listed(self.names)}")
        return word.number(0, len(self.procedures) - 1, "a procedure")


def _words(line: str, number: int) -> Iterator[_Word]:
    for match in _WORD.finditer(re.sub(r"[;#].*", "", line)):
        yield _Word(match.group(), number, match.start() + 1)


def assemble(text: str, *, args: tuple[int, int] | None = None, fuel: int | None = None,
             file: str = "<assembly>") -> Job:
    """The job of an assembly. `args` and `fuel`, if given, stand for what the text says; without either the arguments
    are 0 and the fuel is the greatest. `file` is the name in messages. Raises `AssemblyFault`, and ValueError for
    arguments or fuel out of range."""
    try:
        assembler = _Assembler(text)
        assembler.read()
        procedures = tuple(tuple(it.instructions()) for it in assembler.procedures)
    except AssemblyFault as fault:
        fault.file = file
        raise
    args = args or assembler.args or (0, 0)
    fuel = assembler.fuel or GREATEST_FUEL if fuel is None else fuel
    if not all(LEAST_NUMBER <= it <= GREATEST_NUMBER for it in args) or not 1 <= fuel <= GREATEST_FUEL:
        raise ValueError(f"arguments {args} or fuel {fuel} out of range")
    return Job(args, fuel, procedures)


_SHOWN = {Operand.DESTINATION: "r", Operand.SOURCE: "r", Operand.NUMBER: "", Operand.TARGET: "L", Operand.GROUP: "g",
          Operand.PROCEDURE: "p", Operand.KEY: "k"}


def disassemble(job: Job) -> str:
    """The assembly of a valid job: `assemble` makes the same job of it."""
    first, second = job.args
    text = [f"args {first} {second}", f"fuel {job.fuel}"]
    for number, procedure in enumerate(job.procedures):
        text += ["", f"proc p{number}(r0, r1)"]
        targets = {value for it in procedure for kind, value in zip(INSTRUCTIONS[it.name], it.operands)
                   if kind is Operand.TARGET}
        for at, it in enumerate(procedure):
            shown = [f"{_SHOWN[kind]}{value}" for kind, value in zip(INSTRUCTIONS[it.name], it.operands)]
            label = f"L{at}:" if at in targets else ""
            text.append(f"{label:8}{it.name:8}{' '.join(shown)}")
    return "\n".join(text) + "\n"
