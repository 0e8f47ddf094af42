"""The ends of groups: a group belongs to the block that declares it, so nothing of it may be left when that ends."""
from dataclasses import replace

from arena.language.code import GROUP_END, GROUP_LEFT, Code, Registers, Step
from arena.language.flow import successors


def used_groups(code: Code, names: frozenset[str] = frozenset({"spawn"})) -> list[set[int]]:
    """For each step the groups that may have been used, and not waited for, when it begins. `names` are the steps that
    use one."""
    nexts = successors(code)
    used: list[set[int]] = [set() for _ in code]
    work = list(range(len(code)))
    while work:
        at = work.pop()
        step, after = code[at], set(used[at])
        if step.name in names:
            after.add(step.group)
        if step.name in ("wait", GROUP_LEFT):
            after.discard(step.group)
        for following in nexts[at]:
            if not after <= used[following]:
                used[following] |= after
                work.append(following)
    return used


def with_ended_groups(code: Code, registers: Registers) -> Code:
    """The code with a wait for each group whose block is left by a jump, if it may have been used. Raises `SourceFault`
    for a group that may have been used, and not waited for, where its block ends."""
    if not any(step.name in (GROUP_END, GROUP_LEFT) for step in code):
        return code
    used = used_groups(code, frozenset({"spawn", "cancel"}))
    made: Code = []
    for step, groups in zip(code, used):
        if step.name == GROUP_END and step.group in groups:
            raise step.place.fault(f"the group {step.target} may not be waited for in its block: write `wait {step.target}` "
                                   "before this brace, or declare it before the block")
        if step.name == GROUP_LEFT and step.group in groups:
            made.append(wait_for(step, step.group, registers))
        elif step.name not in (GROUP_END, GROUP_LEFT):
            made.append(step)
    return made


def with_waits(code: Code, registers: Registers) -> Code:
    """The code with a wait before each return for each group that may have been used, since a row must not return
    while a group of its own was used and not waited for. The totals are dropped."""
    made: Code = []
    for step, groups in zip(code, used_groups(code)):
        if step.name == "ret":
            made += [wait_for(step, group, registers) for group in sorted(groups)]
        made.append(step)
    return made


def wait_for(step: Step, group: int, registers: Registers) -> Step:
    """A wait for a group at the place of a step; its total is dropped."""
    dropped = registers.new("(dropped)")
    return replace(step, name="wait", defines=(dropped, dropped), uses=(), group=group, target="")
