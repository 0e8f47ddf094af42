"""The flow of code: what may follow a step, which jumps are short-cut, and what is never reached."""
from dataclasses import replace

from arena.language.code import LABEL, NO_OPERATION, Code


def successors(code: Code) -> list[tuple[int, ...]]:
    """For each step the places of those that may be next."""
    where = {it.target: at for at, it in enumerate(code) if it.name == LABEL}
    found: list[tuple[int, ...]] = []
    for at, step in enumerate(code):
        if step.name == "jmp":
            found.append((where[step.target],))
        elif step.name == "jz":
            found.append((at + 1, where[step.target]))
        else:
            found.append(() if step.name == "ret" else (at + 1,))
    return found


def tidied(code: Code) -> Code:
    """The same code without jumps to jumps, jumps to the next step, and steps that are never reached."""
    while True:
        count = len(code)
        code = _without_needless_jumps(_without_unreached(_threaded(code)))
        if len(code) == count:
            return code


def _threaded(code: Code) -> Code:
    """Jumps to a jump go where that one goes. A jump to the place before a loop stays one: what is computed once for the
    loop will stand there."""
    final = {}
    for at, step in enumerate(code):
        if step.name == LABEL:
            following = next((it for it in code[at:] if it.name != LABEL), None)
            final[step.target] = following.target if following and following.name == "jmp" else step.target
    return [replace(it, target=_end(final, it.target)) if it.name in ("jmp", "jz") else it for it in code]


def _end(final: dict[str, str], label: str) -> str:
    """Where jumps from a label to the next end; a circle of jumps ends anywhere in it."""
    seen = set()
    while label not in seen and final[label] != label:
        seen.add(label)
        label = final[label]
    return label


def _without_unreached(code: Code) -> Code:
    nexts = successors(code)
    reached, work = set(), [0]
    while work:
        at = work.pop()
        if at not in reached:
            reached.add(at)
            work.extend(nexts[at])
    targets = {it.target for at, it in enumerate(code) if at in reached and it.name in ("jmp", "jz")}
    return [it for at, it in enumerate(code) if at in reached and (it.name != LABEL or it.target in targets)]


def _without_needless_jumps(code: Code) -> Code:
    kept: Code = []
    for at, step in enumerate(code):
        if step.name == "jmp" and step.target in _labels_after(code, at):
            continue
        kept.append(step)
    return kept


def _labels_after(code: Code, at: int) -> set[str]:
    labels = set()
    for step in code[at + 1:]:
        if step.name not in NO_OPERATION:
            break
        labels.add(step.target)
    return labels
