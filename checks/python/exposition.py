"""A strict parser of Prometheus' text exposition format, version 0.0.4, as the checks need it: without timestamps."""
import re
from dataclasses import dataclass, field

NAME = re.compile(r"[a-zA-Z_:][a-zA-Z0-9_:]*")
LABEL = re.compile(r'([a-zA-Z_][a-zA-Z0-9_]*)="((?:[^"\\\n]|\\[\\"n])*)"(,|$)')
SAMPLE = re.compile(r"([a-zA-Z_:][a-zA-Z0-9_:]*)(?:\{(.*)\})? (\S+)")
VALUE = re.compile(r"[+-]?(?:[0-9]+(?:\.[0-9]+)?(?:e[+-]?[0-9]+)?|Inf)|NaN")


@dataclass
class Metric:
    """A metric: its help, its kind, and its samples by their labels."""

    help: str
    kind: str = ""
    samples: dict[frozenset[tuple[str, str]], float] = field(default_factory=dict)


def unescaped(text: str, quoted: bool) -> str:
    """A text without its escapes: those of a label's value, or those of a help."""
    known = {"\\\\": "\\", "\\n": "\n", **({'\\"': '"'} if quoted else {})}
    return re.sub(r"\\.", lambda it: known[it[0]], text)


def labels_of(text: str) -> frozenset[tuple[str, str]]:
    """The labels between the braces of a sample."""
    found, at = {}, 0
    assert text, "braces without a label"
    while at < len(text):
        label = LABEL.match(text, at)
        assert label, f"no label: {text[at:]}"
        assert label[1] not in found and not label[1].startswith("__"), label[1]
        found[label[1]] = unescaped(label[2], quoted=True)
        at = label.end()
        assert label[3] == "," or at == len(text), text
    assert not text.endswith(","), text
    return frozenset(found.items())


def parsed(text: str) -> dict[str, Metric]:
    """The metrics of a text by their names. Raises AssertionError for all that is not as it must be."""
    assert text.endswith("\n") and "\r" not in text and "\n\n" not in text
    found, name = {}, None
    for line in text[:-1].split("\n"):
        if line.startswith("# HELP "):
            _, _, name, help = line.split(" ", 3)
            assert NAME.fullmatch(name) and name not in found and help, line
            found[name] = Metric(unescaped(help, quoted=False))
        elif line.startswith("# TYPE "):
            _, _, typed, kind = line.split(" ")
            assert typed == name and not found[name].kind and not found[name].samples, line
            assert kind in ("counter", "gauge") and (kind == "counter") == name.endswith("_total"), line
            found[name].kind = kind
        else:
            take(found, name, line)
    assert all(it.kind and it.samples for it in found.values())
    return found


def take(found: dict[str, Metric], name: str | None, line: str) -> None:
    """Takes the line of a sample, which is of the metric that was named last."""
    sample = SAMPLE.fullmatch(line)
    assert sample and sample[1] == name and found[name].kind, line
    assert VALUE.fullmatch(sample[3]), line
    labels = frozenset() if sample[2] is None else labels_of(sample[2])
    assert labels not in found[name].samples, line
    found[name].samples[labels] = float(sample[3])
    assert found[name].kind != "counter" or found[name].samples[labels] >= 0, line
