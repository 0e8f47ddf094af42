"""Which request is answered by what. There are few, so they are looked up here: that takes half the time of aiohttp's own router, with
the middleware that would stand before it."""
import re
from collections.abc import Awaitable, Callable, Mapping

from aiohttp import web

Handler = Callable[[web.BaseRequest], Awaitable[web.StreamResponse]]
Paths = Mapping[str, Mapping[str, Handler]]
"""What answers each method of each path. A path may have a job's number as `{job}`."""

OF_JOB = re.compile(r"/v1/jobs/([^/]+)(/[a-z]+)?")
CONTINUE = b"HTTP/1.1 100 Continue\r\n\r\n"


def handler_of(paths: Paths, request: web.BaseRequest) -> Handler:
    """What answers a request, whose `job` is noted. Raises HTTPNotFound, HTTPMethodNotAllowed."""
    methods = paths.get(request.path)
    if methods is None and (of_job := OF_JOB.fullmatch(request.path)) is not None:
        methods = paths.get(f"/v1/jobs/{{job}}{of_job[2] or ''}")
        request["job"] = of_job[1]
    if methods is None:
        raise web.HTTPNotFound
    handler = methods.get("GET" if request.method == "HEAD" else request.method)
    if handler is None:
        raise web.HTTPMethodNotAllowed(request.method, [*methods, *(["HEAD"] if "GET" in methods else [])])
    return handler


async def let_go_on(request: web.BaseRequest) -> None:
    """Answers a client that asks whether it is to send its body. Raises HTTPExpectationFailed for one that expects something else."""
    if (expected := request.headers.get("Expect")) is None:
        return
    if expected.lower() != "100-continue":
        raise web.HTTPExpectationFailed
    await request.writer.write(CONTINUE)
