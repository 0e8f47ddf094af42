"""Dumps with their verdicts."""
from script import HISTORY_FULL, limits, line_of
from whole import BAD_LINE, DONE, MAX_SCRIPT_LINE, SEVEN, TENANT


def asked(reply: dict, request: dict) -> str:
    """The line of a request with its reply."""
    return line_of({"reply": reply, "request": request, "step": "ask"}) + "\n"


def moved(word: str, slot: int, **more: int) -> str:
    """The line of an advance."""
    return line_of({"moved": word, "slot": slot, "step": "advance", **more}) + "\n"


def history(value: int) -> str:
    """The history of a job that returns its first argument, 7, with this value as its outcome."""
    return (
        asked({"job": 1}, {"job": SEVEN, "op": "submit"})
        + line_of({"moved": "arrived", "row": 1, "slot": 0, "step": "arrive"}) + "\n"
        + moved("ran", 0)
        + asked({"job": 1, "status": "complete", "value": value}, {"job": 1, "op": "poll"}))


RIGHT, WRONG = history(7), history(8)


def replied(reply: str) -> str:
    """An ask for the arena's limits, with the text of a reply."""
    return f'{{"reply":{reply},"request":{{"op":"arena"}},"step":"ask"}}\n'


RIGHT_ARENA = replied(limits("normal", 0, 1))

SPACED = ' { "step" : "advance" , "slot" : 0 , "moved" : "ran" } '

NO_ENTRIES = [
    "",
    " ",
    "entry",
    "[]",
    "{}",
    '{"moved":"ran","slot":0}',
    '{"moved":"ran","slot":0,"step":"jump"}',
    '{"moved":"ran","slot":0,"step":"arrive"}',
    '{"moved":"ran","slot":0,"step":"advance","x":1}',
    '{"moved":"ran","row":1,"slot":0,"step":"advance"}',
    '{"moved":"ran","slot":0.0,"step":"advance"}',
    '{"moved":"ran","slot":"0","step":"advance"}',
    '{"moved":"ran","slot":18446744073709551616,"step":"advance"}',
    '{"moved":"nested","slot":0,"step":"advance"}',
    '{"moved":"idle","slot":0,"step":"advance"}',
    '{"moved":"left","slot":0,"step":"advance"}',
    '{"moved":"full","slot":0,"step":"advance"}',
    '{"moved":"arrived","row":1,"slot":0,"step":"advance"}',
    '{"moved":"arrived","slot":0,"step":"arrive"}',
    '{"moved":"none","slot":0,"step":"arrive"}',
    '{"moved":"ran","row":1,"slot":0,"step":"arrive"}',
    '{"request":{"op":"arena"},"step":"ask"}',
    '{"moved":"pending","request":{"job":1,"op":"collect"},"step":"ask"}',
    '{"reply":{"moved":"pending"},"request":{"job":1,"op":"collect"},"step":"ask"}',
    '{"reply":{"job":1},"request":{"op":"arena"},"slot":0,"step":"ask"}',
    '{"reply":{"tenant":"acme"},"request":{"op":"hello","tenant":"acme"},"step":"ask"}',
    '{"reply":{"job":1},"request":{"op":"submit"},"step":"ask"}',
    '{"reply":{"job":1},"request":{"job":7,"op":"submit"},"step":"ask"}',
    '{"reply":{"count":0,"key":9,"sum":0},"request":{"key":9,"op":"cells"},"step":"ask"}',
]

NO_REPLIES = [
    "7",
    "[]",
    "{}",
    '{"job":"1"}',
    '{"job":1.0}',
    '{"job":18446744073709551616}',
    '{"jobs":1}',
    '{"tenant":1}',
    '{"epoch":null}',
    '{"job":1,"slot":true}',
    '{"job":1,"status":"complete"}',
    '{"job":1,"status":"Running"}',
    '{"job":1,"status":"running","value":7}',
    '{"job":1,"status":"fault","value":7}',
    '{"fault":2,"job":1,"status":"complete"}',
    '{"first":1,"job":1}',
    '{"count":2,"key":0}',
    '{"count":2,"key":0,"sum":7.5}',
    '{"priority":"urgent","reserved":1,"slots":2}',
    '{"priority":"normal","reserved":1,"slots":2,"x":1}',
    '{"code":3,"error":"bad_json"}',
    '{"code":13,"error":"bad_json"}',
    '{"code":14,"error":"connection_limit"}',
    '{"code":2,"error":"bad json"}',
    '{"code":-2,"error":"bad_json"}',
]

OTHER_REPLIES = [
    '{"tenant":"acme"}',
    '{"tenant":"no name"}',
    '{"job":1}',
    '{"job":-1}',
    '{"job":18446744073709551615}',
    '{"job":1,"slot":0}',
    '{"job":1,"slot":300}',
    '{"job":1,"status":"running"}',
    '{"job":1,"status":"canceled"}',
    '{"job":1,"status":"complete","value":55}',
    '{"job":1,"status":"complete","value":9223372036854775808}',
    '{"fault":2,"job":1,"status":"fault"}',
    '{"fault":6,"job":1,"status":"fault"}',
    '{"first":true,"job":1}',
    '{"first":false,"job":-9223372036854775808}',
    '{"count":2,"key":0,"sum":7}',
    '{"count":2,"key":9,"sum":-7}',
    '{"priority":"normal","reserved":1,"slots":1}',
    '{"priority":"low","reserved":0,"slots":1}',
    '{"priority":"normal","reserved":256,"slots":257}',
    '{"code":2,"error":"bad_json"}',
    '{"code":3,"error":"bad_request"}',
    '{"code":8,"error":"history_full"}',
    '{"code":12,"error":"busy"}',
    '{"code":13,"error":"connection_limit"}',
    '{"epoch":1}',
]

# Entries of steps that the tenant answers otherwise, with slots and rows of any size.
OTHER_MOVES = [
    '{"moved":"ran","slot":0,"step":"advance"}',
    '{"moved":"freed","slot":1,"step":"advance"}',
    '{"moved":"nested","row":1,"slot":0,"step":"advance"}',
    '{"moved":"ran","slot":256,"step":"advance"}',
    '{"moved":"ran","slot":-1,"step":"advance"}',
    '{"moved":"nested","row":-1,"slot":0,"step":"advance"}',
    '{"moved":"arrived","row":1,"slot":1,"step":"arrive"}',
    '{"moved":"arrived","row":1,"slot":18446744073709551615,"step":"arrive"}',
    '{"moved":"arrived","row":-9223372036854775808,"slot":0,"step":"arrive"}',
]

YES = ("yes\n", DONE)


def no_at(step: int) -> tuple:
    return (f"no at step {step}\n", DONE)


def bad_line(number: int) -> tuple:
    return (f"bad line {number}\n", BAD_LINE)


# A dump, what is printed of it, and the end.
DUMPS = [
    (TENANT + RIGHT, *YES),
    (TENANT + RIGHT.rstrip(), *YES),
    (TENANT, *YES),
    (TENANT + WRONG, *no_at(4)),
    (TENANT + RIGHT_ARENA + WRONG + RIGHT_ARENA, *no_at(5)),
    (TENANT + RIGHT + RIGHT_ARENA, *YES),
    (TENANT + RIGHT + RIGHT_ARENA + SPACED, *no_at(6)),
    (TENANT.replace('"steps":100', '"steps":1') + RIGHT_ARENA + replied(HISTORY_FULL), *no_at(2)),
    ("", *bad_line(1)),
    *((line + RIGHT, *bad_line(1)) for line in ("\n", "{}\n", "tenant\n", RIGHT_ARENA)),
    *((TENANT + WRONG + line + "\n" + RIGHT_ARENA, *bad_line(6)) for line in NO_ENTRIES),
    (TENANT + " " * MAX_SCRIPT_LINE + RIGHT_ARENA, *bad_line(2)),
    *((TENANT + replied(reply), *bad_line(2)) for reply in NO_REPLIES),
    *((TENANT + RIGHT_ARENA + replied(reply) + RIGHT_ARENA, *no_at(2)) for reply in OTHER_REPLIES),
    *((TENANT + line + "\n" + RIGHT_ARENA, *no_at(1)) for line in OTHER_MOVES),
]
