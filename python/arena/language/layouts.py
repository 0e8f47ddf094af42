"""How the parameters of a function share the two arguments of a task."""
from collections.abc import Sequence

from arena.jobs import ARGUMENTS
from arena.language.syntax import Function, Parameter
from arena.texts import counted, is_or_are

PACKED_BITS = 63
"""The bits of an argument that packed parameters share; its sign stays free."""

Layout = tuple[tuple[Parameter, ...], ...]
"""For each argument in use its parameters. One without a width has an argument of its own; of those with a width the
first of an argument is in its highest bits."""


def layout_of(function: Function) -> Layout:
    """The layout of a function; arguments are in the order of their first parameters. Raises `SourceFault` if two
    arguments have no room for all."""
    whole = [it for it in function.parameters if it.bits is None]
    packed = [it for it in function.parameters if it.bits is not None]
    if len(whole) > ARGUMENTS or (packed and len(whole) == ARGUMENTS):
        raise function.place.fault(
            f"{function.name} has {len(function.parameters)} parameters, and a task gets two numbers: give small "
            "parameters a width, such as lo: u20, so that they share one")
    rooms: list[list[Parameter]] = [[] for _ in range(ARGUMENTS - len(whole))]
    for parameter in packed:
        _first_room(function, rooms, parameter).append(parameter)
    arguments = [[it] for it in whole] + [room for room in rooms if room]
    arguments.sort(key=lambda it: function.parameters.index(it[0]))
    return tuple(map(tuple, arguments))


def arguments_of(function: Function, numbers: Sequence[int]) -> tuple[int, int]:
    """The two arguments of the root from one number for each parameter of its function; those that are left out are 0.
    Raises ValueError for more numbers than there are, and for one that does not fit its parameter's width."""
    parameters = function.parameters
    if all(it.bits is None for it in parameters):
        if len(numbers) > ARGUMENTS:
            raise ValueError(f"a job has two arguments, and here are {len(numbers)}: give parameters of {function.name} a "
                             "width, such as lo: u20")
        return (*numbers, 0, 0)[0], (*numbers, 0, 0)[1]
    if any(numbers[len(parameters):]):
        raise ValueError(f"{function.name} has {counted(len(parameters), 'parameter')}, and here "
                         f"{is_or_are(len(numbers))}")
    given = dict(zip(parameters, (*numbers, *[0] * len(parameters))))
    for it, number in given.items():
        if it.bits is not None and not 0 <= number < 2**it.bits:
            raise ValueError(f"{number} does not fit {it.name}: u{it.bits}, which is from 0 to {2**it.bits - 1}")
    found = [0, 0]
    for at, shared in enumerate(layout_of(function)):
        for it in shared:
            found[at] = found[at] * 2**(it.bits or 0) + given[it]
    return found[0], found[1]


def bits_of(parameters: Sequence[Parameter]) -> int:
    """How many bits packed parameters take."""
    return sum(it.bits or 0 for it in parameters)


def _first_room(function: Function, rooms: list[list[Parameter]], parameter: Parameter) -> list[Parameter]:
    for room in rooms:
        if bits_of([*room, parameter]) <= PACKED_BITS:
            return room
    raise parameter.place.fault(
        f"the parameters of {function.name} with a width need more than {PACKED_BITS} bits for each of the "
        f"{len(rooms)} arguments that are left for them: make them narrower")
