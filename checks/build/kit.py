"""What the commands of the kit say of a proof."""
import re


def functions_in(text: str) -> int | None:
    """How many functions the last proof has that a command told of; None if it told of none."""
    found = re.findall(r"^logic=proved functions=(\d+)", text, re.M)
    return int(found[-1]) if found else None


def is_proved(text: str, status: int, is_program: bool) -> bool:
    """Whether a crate is proved, by what `rt lib` said of a library, or `rt run` of a program. A program is run as well,
    so its own status says nothing; and where nothing has changed since its last proof, no proof is told of."""
    if not is_program:
        return status == 0
    return functions_in(text) is not None or "rt: nothing has changed since the last proved build" in text
