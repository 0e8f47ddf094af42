"""The outcomes that the folder of a host has, beside the jobs that clients were told of."""
import json
import pathlib
from collections import Counter
from collections.abc import Iterable, Iterator


def outcomes(run: str | pathlib.Path, name: str) -> list[dict]:
    """The outcomes of a tenant's jobs, by all files of results in a host's folder."""
    paths = sorted((pathlib.Path(run) / "results").glob(f"{name}.*.jsonl"))
    return [json.loads(line) for path in paths for line in path.read_text().splitlines()]


def given_twice(jobs: Iterable[int]) -> list[int]:
    """The numbers that are there more than once."""
    return [job for job, times in Counter(jobs).items() if times > 1]


def not_kept(told: list[tuple[int, dict]], kept: list[dict]) -> Iterator[str]:
    """What is wrong with jobs that were acknowledged, each with what its outcome must say beside its number, by the outcomes that
    a folder has: a job has another outcome or none, or a number comes twice."""
    for job in given_twice(job for job, _ in told):
        yield f"job {job} was acknowledged twice"
    for job in given_twice(it["job"] for it in kept):
        yield f"job {job} has two outcomes"
    found = {it["job"]: it for it in kept}
    for job, outcome in told:
        if found.get(job) != {"job": job, **outcome}:
            yield f"job {job} must have {outcome}, and has {found.get(job)}"
