"""A parser of Prometheus' text format 0.0.4, from its description: it refuses what that does not allow."""
import re

NAME = r"[a-zA-Z_:][a-zA-Z0-9_:]*"
SAMPLE = re.compile(rf"({NAME})(?:\{{(.*)\}})? (\S+)")
LABEL = re.compile(r'([a-zA-Z_][a-zA-Z0-9_]*)="((?:[^"\\\n]|\\["\\n])*)"(?:,|$)')
KINDS = ("counter", "gauge", "histogram", "summary", "untyped")

Key = tuple[str, frozenset[tuple[str, str]]]


def samples_of(text: str) -> dict[Key, float]:
    """The samples by their names and labels. Each metric must have its help and its type once, before its samples; none comes
    twice; the buckets of a histogram only grow, up to its count. Raises AssertionError."""
    assert text.endswith("\n"), "the last line has no end"
    kinds: dict[str, str] = {}
    helps: set[str] = set()
    found: dict[Key, float] = {}
    for line in text.splitlines():
        if line.startswith("# HELP "):
            name = line.split(" ", 3)[2]
            assert name not in helps, line
            helps.add(name)
        elif line.startswith("# TYPE "):
            _, _, name, kind = line.split(" ")
            assert kind in KINDS and name not in kinds and name in helps, line
            kinds[name] = kind
        else:
            key, value = _sample(line)
            assert key not in found and _metric(key[0], kinds) in kinds, line
            found[key] = value
    for name, kind in kinds.items():
        if kind == "histogram":
            _is_histogram(name, found)
        elif kind == "counter":
            assert name.endswith("_total") and all(value >= 0 for (of, _), value in found.items() if of == name), name
    return found


def _sample(line: str) -> tuple[Key, float]:
    matched = SAMPLE.fullmatch(line)
    assert matched, line
    name, labels, value = matched.groups()
    pairs, at = [], 0
    while labels and at < len(labels):
        label = LABEL.match(labels, at)
        assert label, line
        pairs.append((label[1], label[2].replace(r"\"", '"').replace(r"\n", "\n").replace("\\\\", "\\")))
        at = label.end()
    assert len({it for it, _ in pairs}) == len(pairs), line
    return (name, frozenset(pairs)), float(value)


def _metric(name: str, kinds: dict[str, str]) -> str:
    """The metric of a sample's name."""
    for end in ("_bucket", "_sum", "_count"):
        if name.endswith(end) and kinds.get(name.removesuffix(end)) == "histogram":
            return name.removesuffix(end)
    return name


def _is_histogram(name: str, found: dict[Key, float]) -> None:
    series: dict[frozenset[tuple[str, str]], dict[float, float]] = {}
    for (of, labels), value in found.items():
        if of == f"{name}_bucket":
            bound = float(dict(labels)["le"])
            series.setdefault(frozenset(it for it in labels if it[0] != "le"), {})[bound] = value
    assert series, name
    for labels, buckets in series.items():
        counts = [buckets[it] for it in sorted(buckets)]
        assert counts == sorted(counts) and counts[-1] == found[f"{name}_count", labels], (name, buckets)
        assert max(buckets) == float("inf") and found[f"{name}_sum", labels] >= 0, name
