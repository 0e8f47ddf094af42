#!/usr/bin/env python3
"""Prints, for each promise of docs/PROOFS.md, how many definitions of this repository its contracts rest on, in how many
lines and in which crates.

usage: checks/reading/run.py, at the top of the repository. A promise is a list of functions, types and traits, where a type
or trait stands for its functions; clauses named after "without" are left out. Their contracts cite definitions of `specs/`,
and so do the models of the types in their signatures; each definition brings those that it cites. A line counts if it is
neither blank, nor a comment, nor a `use`. Definitions of `std` and of other crates are not counted.
"""
import re
import sys
from collections.abc import Iterator
from functools import cache
from pathlib import Path

CRATES = Path("crates")
PROMISES = [
    ("the plain evaluator", ["solo_eval::Solo"]),
    ("what every state keeps, what no step undoes", ["tenant_model::never_stuck", "tenant_model::states_are_sound", "tenant_model::nothing_is_undone", "tenant_model::answers_tell"]),
    ("regions protect cells", ["tenant_model::regions_protect_cells"]),
    ("serial values", ["serial_law::serial_values"]),
    ("the check of a history", ["solo_eval::check"]),
    ("functions that are compiled", ["job_compiler::compile_function", "job_compiler::compile_in", "job_compiler::compile_program"]),
    ("functions that compute values again", ["values_again::read_again", "values_again::again_is_compiled"]),
    ("functions that keep values", ["kept_values::keep_best", "kept_values::kept_value_is_compiled"]),
    ("functions whose registers are chosen", ["register_choice::compile_function", "register_choice::compile_in", "register_choice::compile_program", "register_choice::is_coloured"]),
    ("values of functions", ["source_serial::source_values", "source_serial::jobs_have_source_values"]),
    ("rows of functions", ["source_rows::rows_follow_source", "source_rows::advances_follow_source"]),
    ("values of sources", ["source_value::texts_have_values", "source_value::texts_have_one_value", "source_value::value_of_source", "source_value::reply_of_source", "source_value::reply_line_of_source"]),
    ("the line of a source's job", ["arena_compile::job_line"]),
    ("parameters that share numbers, and `min`, `max` and `abs`", ["source_reader::widths_keep_arguments", "source_reader::built_ins_have_values"]),
    ("lines in", ["request_reader::LineReader", "request_reader::read_request"]),
    ("lines out", ["reply_writer::reply_line", "reply_writer::answer_line"]),
    ("the program's scripts", ["arena_script::script"]),
    ("its scripts but for worlds, with regions and rows that are never stuck", ["arena_script::script without run outcomes no_config run_part", "tenant_model::regions_protect_cells", "tenant_model::never_stuck"]),
    ("dumps that are written", ["dump_lines::write_dump", "dump_lines::dumps_have_these_lines"]),
    ("torn dumps and journals", ["part_lines::read_part", "part_lines::read_journal", "part_lines::torn_parts_read_back", "part_lines::torn_journals_read_back"]),
    ("dumps and journals that are written as histories are made", ["part_writer::add_slice", "part_writer::bring_journal_to_disk", "part_writer::add_entries", "part_writer::bring_to_disk"]),
    ("a tenant that is recovered and finished", ["tenant_finish::recover_tenant", "tenant_finish::finish_tenant", "job_finish::quiet_tenants_are_done"]),
    ("outcomes that are kept", ["job_outcomes::JobOutcomes"]),
    ("many tenants", ["world_model::tenants_are_isolated"]),
    ("many tenants on one thread", ["world_core::World"]),
    ("the fast arena", ["arena_core::Arena"]),
    ("waiting, over any door", ["nested_wait::Door", "nested_wait::attend"]),
    ("sessions over any doors", ["session_core::Doors", "session_core::serve"]),
    ("sessions on one thread", ["session_law::serve_arenas"]),
    ("what a tenant's lock holds", ["tenant_record::TenantCell"]),
    ("a tenant's lock, and how it is closed", ["tenant_lock::TenantDoor"]),
    ("threads at the slots of locked tenants", ["server_doors::HeldSlot"]),
    ("sessions at locked tenants", ["server_doors::SessionDoors", "session_core::Doors", "session_core::serve"]),
    ("workers, over any doors", ["worker_main::WorkerAccess", "worker_main::worker"]),
    ("queues that threads share", ["call_queues::CallQueues"]),
    ("the market's lists", ["market::MarketState"]),
    ("the words of the server", ["program_words::read_server_words"]),
    ("a server's tenants, from its start to its end", ["server_house::House"]),
    ("a session of a server", ["server_house::serve_client"]),
    ("a worker of a server", ["server_house::serve_calls"]),
]
# A definition begins in the first column with one of these words, or with the name alone. An equation of an operator may
# begin with a pattern between parentheses.
HEAD = re.compile(r"^((?:(?:abbrev|unfoldable|pub|private|record|data) )*)([^\s:(]+)")
USE = re.compile(r"use Rattle\.(\w+)\.specs\.([\w.]+?)(?:\.\{([^}]*)\}|\s+as\s+(\w+)|(?=;|\s*$))", re.M)
WORD = re.compile(r"[\w']+")


class Module:
    """A file of definitions: its definitions by their names, and what it uses of other files."""

    def __init__(self, path: Path) -> None:
        text = path.read_text()
        self.crate = path.parts[1]
        self.named, self.called = uses_of(text)
        self.definitions = {}
        lines = None
        for line in text.splitlines():
            if not line.strip() or line.lstrip().startswith("--") or re.match(r"(use|pub mod|mod) ", line):
                continue
            if head := HEAD.match(line):
                words, name = head.groups()
                if words or name in self.definitions:
                    lines = self.definitions.setdefault(name, [])
            if lines is not None:
                lines.append(line)

    def cited(self, text: str) -> Iterator[tuple["Module", str]]:
        """Yields the definitions, here and in other files, that a text cites."""
        for word in WORD.findall(text):
            if word in self.definitions:
                yield self, word
        yield from cited(text, self.named, self.called)


def uses_of(text: str) -> tuple[dict[str, Module], dict[str, Module]]:
    """Returns which module each name that a text uses is of, and which module each name for a module means."""
    named, called = {}, {}
    for crate, path, names, other in USE.findall(text):
        module = module_at(crate, path)
        if module:
            named.update((name.strip(), module) for name in names.split(","))
            if other:
                called[other] = module
    return named, called


def cited(text: str, named: dict[str, Module], called: dict[str, Module]) -> Iterator[tuple[Module, str]]:
    """Yields the definitions of other files that a text cites, by name or as `module.name`."""
    for word in WORD.findall(text):
        if word in named and word in named[word].definitions:
            yield named[word], word
    for name, word in re.findall(r"(\w+)\.([\w']+)", text):
        if name in called and word in called[name].definitions:
            yield called[name], word


@cache
def module_of(path: Path) -> Module:
    """The module of a file, which is read once."""
    return Module(path)


def module_at(crate: str, name: str) -> Module | None:
    """Returns the module that a name such as `A.B` means: the longest beginning that is a file."""
    parts = name.split(".")
    while parts:
        path = CRATES.joinpath(crate, "specs", *parts).with_suffix(".antt")
        if path.exists():
            return module_of(path)
        parts.pop()
    return None


def sources(crate: str) -> list[str]:
    """The texts of a crate's sources."""
    return [path.read_text() for path in sorted((CRATES / crate / "src").rglob("*.rt"))]


def contracts_of(name: str) -> Iterator[tuple[str, str]]:
    """Yields the signature and contract of a function, or those of all functions of a type or trait, each with the text of
    the file that they stand in."""
    crate, *_, last = name.split("::")
    for text in sources(crate):
        blocks = re.findall(rf"^(?:pub )?(?:impl|trait)\b[^{{]*?\b{last}\b.*?^\}}", text, re.M | re.S) if last[0].isupper() else [text]
        function = r"pub fn \w+|^    fn \w+" if last[0].isupper() else rf"\bfn {last}\b"
        for block in blocks:
            for found in re.finditer(rf"(?:{function}).*?(?=\n\s*\{{|\{{\}}|\{{\n|;\n)", block, re.M | re.S):
                yield found.group(), text


def without(labels: list[str], contract: str) -> str:
    """Returns a contract without the clauses of these labels."""
    clauses = re.split(r"(?=^\s*(?:requires|ensures|//))", contract, flags=re.M)
    return "".join(clause for clause in clauses if not re.match(rf"\s*ensures ({'|'.join(labels) or '-'})\b", clause))


@cache
def models() -> dict[str, tuple[str, str]]:
    """Returns the text of the model of each type, and of the file that it stands in."""
    found = {}
    for crate in sorted(path.name for path in CRATES.iterdir()):
        for text in sources(crate) if (CRATES / crate / "src").is_dir() else []:
            for block in re.finditer(r"^impl(?:<.*?>)? Model for (\w+).*?^\}", text, re.M | re.S):
                found[block.group(1)] = (re.sub(r"ghost (invariant|use) .*", "", block.group()), text)
    return found


def roots_of(name: str) -> Iterator[tuple[Module, str]]:
    """Yields the definitions that contracts cite, and those of the models of their types."""
    name, _, dropped = name.partition(" without ")
    contracts = [(without(dropped.split(), contract), text) for contract, text in contracts_of(name)]
    if not contracts:
        sys.exit(f"no such function, type or trait: {name}")
    types = set(name.split("::"))
    for contract, text in contracts:
        yield from cited(contract, *uses_of(text))
        types.update(WORD.findall(contract))
    for model, text in (models()[each] for each in sorted(types & set(models()))):
        yield from cited(model, *uses_of(text))


def reached(names: list[str]) -> set[tuple[Module, str]]:
    """Returns the definitions that contracts rest on."""
    found, waiting = set(), [root for name in names for root in roots_of(name)]
    while waiting:
        module, name = definition = waiting.pop()
        if definition not in found:
            found.add(definition)
            waiting.extend(module.cited("\n".join(module.definitions[name])))
    return found


def row(promise: str, definitions: set[tuple[Module, str]]) -> str:
    """The row of a promise."""
    crates = {}
    for module, name in definitions:
        crates[module.crate] = crates.get(module.crate, 0) + len(module.definitions[name])
    shares = ", ".join(f"`{crate}` {lines}" for crate, lines in sorted(crates.items(), key=lambda share: (-share[1], share[0])))
    return f"| {promise} | {len(definitions)} | {sum(crates.values())} | {shares} |"


def main() -> None:
    """Prints the table."""
    print("| Promise | Definitions | Lines | Crates, from the most lines down |")
    print("|---|---|---|---|")
    everything = set()
    for promise, names in PROMISES:
        definitions = reached(names)
        everything |= definitions
        print(row(promise, definitions))
    print(row("all of them", everything))


main()
