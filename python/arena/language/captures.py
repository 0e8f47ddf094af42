"""Which names of the function around it the body of a parallel sum uses."""
from collections.abc import Iterable, Iterator
from dataclasses import fields

from arena.language.faults import Place
from arena.language.syntax import (Assign, Block, Break, For, Give, Let, LetBoth, LetTask, Name, Node, ParallelSum,
                                   Return, Spawn, While)


def children(node: Node) -> Iterator[Node]:
    """The parts of a node, in their order in the source."""
    for it in fields(node):
        value = getattr(node, it.name)
        for part in value if isinstance(value, tuple) else (value,):
            if isinstance(part, Node):
                yield part


def parts(node: Node) -> Iterator[Node]:
    """A node with all that is in it, however deep."""
    waiting = [node]
    while waiting:
        node = waiting.pop()
        yield node
        waiting.extend(children(node))


def is_assigned(node: Node, name: str) -> bool:
    """Whether a part of the tree assigns to a name, be it of an inner block or not."""
    return any(isinstance(it, Assign) and it.name == name for it in parts(node))


def spawns_without_group(node: Node) -> bool:
    """Whether a part of the tree has a spawn without a group."""
    return any(isinstance(it, Spawn) and it.group is None for it in parts(node))


def may_leave(body: Block) -> bool:
    """Whether a loop's body has a way out of the loop."""
    waiting: list[Node] = [body]
    while waiting:
        node = waiting.pop()
        if isinstance(node, Return | Give | Break):
            return True
        is_loop = isinstance(node, For | While | ParallelSum)
        waiting.extend(it for it in (_returns(node) if is_loop else children(node)))
    return False


def _returns(loop: Node) -> Iterator[Node]:
    """What leaves an inner loop, and those around it, too; a parallel sum's body leaves nothing but itself."""
    if not isinstance(loop, ParallelSum):
        yield from (it for it in parts(loop) if isinstance(it, Return | Give))


def names_from_outside(block: Block, index: str) -> dict[str, Place]:
    """The names that a body reads or assigns and does not declare itself, with the places of their first uses."""
    found: dict[str, Place] = {}
    _walk(block, {index}, found)
    return found


def _walk(node: Node, own: set[str], found: dict[str, Place]) -> None:
    """Notes the names that are not a body's own; `own` grows by what is declared in the same block."""
    match node:
        case Name(name=name) | Assign(name=name):
            if name not in own:
                found.setdefault(name, node.place)
        case For(index=index):
            _walk_all((node.low, node.high, node.step), own, found)
            _walk(node.body, own | {index}, found)
            return
        case ParallelSum(index=index):
            _walk_all((node.low, node.high, node.step, node.grain), own, found)
            _walk(node.body, own | {index}, found)
            return
    _walk_all(children(node), set(own) if isinstance(node, Block) else own, found)
    match node:
        case Let(name=name) | LetTask(name=name):
            own.add(name)
        case LetBoth(total=total, status=status):
            own.update((total, status))


def _walk_all(nodes: Iterable[Node], own: set[str], found: dict[str, Place]) -> None:
    for it in nodes:
        _walk(it, own, found)
