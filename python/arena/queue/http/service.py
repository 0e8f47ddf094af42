"""The requests and their answers. Whatever is refused is answered as JSON with a member `error`, but for the page."""
import asyncio
import base64
import logging
import math
import signal
import socket
import sys
from collections.abc import Callable
from typing import Any

from aiohttp import web

from arena.host.address import Address
from arena.queue.http.access import Access, Unavailable
from arena.queue.http.bodies import BadBody, compact, is_text, new_jobs, value_of, whole
from arena.queue.http.exposition import TYPE, exposed
from arena.queue.http.lines import Place, place_of
from arena.queue.http.openapi import document
from arena.queue.http.page import HEADERS, page
from arena.queue.http.processes import serve_in
from arena.queue.http.rates import Rates
from arena.queue.http.routes import Paths, handler_of, let_go_on
from arena.queue.http.view import Numbers, View
from arena.queue.model import Grant, Job, NewJob, QueueError, State, UnknownQueueJob
from arena.queue.store import Store

LOG = logging.getLogger("arena.queue.http")

LONGEST_BODY = 8 * 1024 * 1024
LONGEST_WAIT = 60.0
MOST_LISTED = 1000
GREATEST = 2**63 - 1
OPEN = ("/healthz", "/openapi.json")
"""What is answered without a token."""

PAGE = "/"
"""The page, which takes a token as the password of a browser too. Nothing that changes something does: a browser adds such a
password to whatever any page has it ask for."""

JSON = "application/json; charset=utf-8"

SWITCH = 0.001
"""For how many seconds the thread of the queue's database waits at most, each time that it goes on, while the loop is busy."""


def as_json(body: bytes, status: int = 200, **headers: str) -> web.Response:
    """An answer whose body is JSON."""
    return web.Response(body=body, status=status, headers={"Content-Type": JSON, **headers})


def answer(value: object, status: int = 200, **headers: str) -> web.Response:
    """A value as JSON."""
    return as_json(compact(value).encode(), status, **headers)


def refusal(status: int, text: str, **headers: str) -> web.Response:
    """An error."""
    return answer({"error": text}, status, **headers)


class Service:
    """The requests over a queue: `rate` a second with up to `size` bytes for each token that has no limits of its own."""

    def __init__(self, access: Access, rate: float, size: int = LONGEST_BODY) -> None:
        self.access, self.rate, self.size = access, rate, size
        self._rates = Rates()
        self.paths: Paths = {
            "/v1/jobs": {"GET": self.listing, "POST": self.submit}, "/v1/jobs/{job}": {"GET": self.job},
            "/v1/jobs/{job}/cancel": {"POST": self.cancel}, "/v1/jobs/{job}/retry": {"POST": self.retry},
            PAGE: {"GET": self.page}, "/v1/stats": {"GET": self.stats}, "/metrics": {"GET": self.metrics},
            "/openapi.json": {"GET": self.openapi}, "/healthz": {"GET": self.health}}

    async def answered(self, request: web.BaseRequest) -> web.StreamResponse:
        """The answer to a request, also to one that goes wrong."""
        try:
            if request.path not in OPEN and (refused := await self._refused(request)) is not None:
                return refused
            handler = handler_of(self.paths, request)
            await let_go_on(request)
            return await handler(request)
        except web.HTTPException as fault:
            return refusal(fault.status, fault.reason, **({"Allow": fault.headers["Allow"]} if "Allow" in fault.headers else {}))
        except BadBody as fault:
            return refusal(400, str(fault))
        except UnknownQueueJob:
            return refusal(404, "the tenant has no such job; ended ones are removed in time")
        except QueueError as fault:
            return refusal(409, str(fault))
        except Unavailable as fault:
            LOG.warning("the queue's file can't be used: %s", fault)
            return refusal(503, "the queue's file can't be used now; ask again", **{"Retry-After": "1"})

    async def _refused(self, request: web.BaseRequest) -> web.Response | None:
        """Why a request is not answered: its token is none, or has made too many. Its tenant is noted otherwise."""
        token = _token(request.headers.get("Authorization", ""), request.path == PAGE)
        grant = None if token is None else await self.access.grant(token)
        if token is None or grant is None:
            how = 'Basic realm="a token as the password", charset="UTF-8"' if request.path == PAGE else "Bearer"
            return refusal(401, "a token is wanted: Authorization: Bearer TOKEN", **{"WWW-Authenticate": how})
        if (wait := self._rates.wait(token, self.rate if grant.rate is None else grant.rate)) > 0:
            return refusal(429, "too many requests", **{"Retry-After": str(math.ceil(wait))})
        request["tenant"], request["grant"] = grant.tenant, grant
        return None

    async def _body(self, request: web.BaseRequest) -> bytes:
        """The body of a request. Raises HTTPRequestEntityTooLarge for one that is longer than its token may send, and BadBody for
        one that is not what its headers say."""
        grant: Grant = request["grant"]
        most = self.size if grant.bytes is None else grant.bytes
        body, length = bytearray(), request.content_length or 0
        try:
            while length <= most and (some := await request.content.readany()):
                body += some
                if len(body) > most:
                    break
        except web.RequestPayloadError:
            raise BadBody("the body is not what the request's headers say") from None
        if max(length, len(body)) > most:
            raise web.HTTPRequestEntityTooLarge(most, max(length, len(body)))
        return bytes(body)

    # Jobs.

    async def submit(self, request: web.BaseRequest) -> web.Response:
        """Keeps jobs."""
        tenant, value = request["tenant"], value_of(await self._body(request))
        hashes = {it["program"] for it in (value if isinstance(value, list) else [value])
                  if isinstance(it, dict) and isinstance(it.get("program"), str) and is_text(it["program"])}
        kept = await self.access.ask(lambda store: {it: store.program_of_hash(tenant, it) for it in hashes}) if hashes else {}

        def read() -> list[NewJob]:
            """Reads the jobs, which may take a while."""
            return new_jobs(value, tenant, kept.get)
        made = await self.access.submit(await asyncio.to_thread(read) if isinstance(value, list) else read())
        texts = [b'{"job":%d,"made":%b}' % (it.job, b"true" if it.made else b"false") for it in made]
        return as_json(b"[%b]" % b",".join(texts) if isinstance(value, list) else texts[0], 201)

    async def job(self, request: web.BaseRequest) -> web.Response:
        """A job."""
        job = await self.access.job(_number(request), request["tenant"], _seconds(request.query.get("wait", "0")))
        return answer(job.to_value())

    async def listing(self, request: web.BaseRequest) -> web.Response:
        """Jobs."""
        tenant, query = request["tenant"], request.query
        state, before = query.get("state"), _whole(query, "before", GREATEST)
        if state is not None and state not in [it.value for it in State]:
            raise BadBody(f"state: one of {', '.join(it.value for it in State)}")
        limit = _whole(query, "limit", MOST_LISTED)

        def found(store: Store) -> list[Job]:
            """Asks the queue."""
            return store.listed(tenant, None if state is None else State(state), before, 50 if limit is None else limit)
        return answer([it.to_value() for it in await self.access.ask(found)])

    async def cancel(self, request: web.BaseRequest) -> web.Response:
        """Cancels a job."""
        number, tenant = _number(request), request["tenant"]
        state = await self.access.ask(lambda store: store.cancel(number, tenant))
        return answer({"job": number, "state": state.value})

    async def retry(self, request: web.BaseRequest) -> web.Response:
        """Runs a job again."""
        number, tenant = _number(request), request["tenant"]
        state = await self.access.ask(lambda store: store.retry(number, tenant))
        return answer({"job": number, "state": state.value})

    # Figures.

    async def stats(self, request: web.BaseRequest) -> web.Response:
        """How many jobs of the tenant there are."""
        tenant = request["tenant"]
        counts = await self.access.ask(lambda store: store.counts_of(tenant))
        return answer({"tenant": tenant, "jobs": {state.value: count for state, count in counts.items()}})

    async def metrics(self, request: web.BaseRequest) -> web.Response:
        """The tenant's numbers for Prometheus."""
        tenant = request["tenant"]
        numbers = await self.access.ask(lambda store: Numbers.of(store, tenant))
        return web.Response(text=exposed(numbers), headers={"Content-Type": TYPE})

    async def page(self, request: web.BaseRequest) -> web.Response:
        """The tenant's page."""
        tenant = request["tenant"]
        view = await self.access.ask(lambda store: View.of(store, tenant))

        def places() -> dict[int, Place | None]:
            """Where the faults were, which may take a while."""
            return {job.job: place_of(job, procs, source) for job, procs, source in view.faults}
        text = page(view, await asyncio.to_thread(places))
        return web.Response(text=text, content_type="text/html", charset="utf-8", headers=HEADERS)

    async def openapi(self, _: web.BaseRequest) -> web.Response:
        """The description."""
        return answer(document())

    async def health(self, _: web.BaseRequest) -> web.Response:
        """Whether the queue's file can be used."""
        await self.access.ask(lambda store: store.base.first("SELECT 1"))
        return answer({"ok": True})


def _token(header: str, is_page: bool) -> str | None:
    """The token of a header `Authorization`; None if it has none."""
    kind, _, text = header.partition(" ")
    if kind.lower() == "basic" and is_page:
        try:
            text = base64.b64decode(text, validate=True).decode("ascii").partition(":")[2]
        except ValueError:
            return None
    elif kind.lower() != "bearer":
        return None
    return text.strip() if text.isascii() else None


def _number(request: web.BaseRequest) -> int:
    text = request["job"]
    if not (text.isascii() and text.isdigit() and len(text) < 20):
        raise UnknownQueueJob(text)
    return whole(int(text), "job", 0, GREATEST)


def _whole(query: Any, name: str, greatest: int) -> int | None:
    text = query.get(name)
    if text is None:
        return None
    if not (text.isascii() and text.isdigit() and len(text) < 20):
        raise BadBody(f"{name}: a whole number from 1 to {greatest}")
    return whole(int(text), name, 1, greatest)


def _seconds(text: str) -> float:
    try:
        seconds = float(text)
    except ValueError:
        seconds = math.nan
    if not 0 <= seconds <= LONGEST_WAIT:
        raise BadBody(f"wait: seconds, from 0 to {LONGEST_WAIT:g}")
    return seconds


async def served(where: str, address: Address | socket.socket, rate: float, began: Callable[[int], object], ended: asyncio.Event,
                 size: int = LONGEST_BODY) -> None:
    """Serves a queue, at an address or a socket that listens, until `ended` is set; `began` is told the port. Raises OSError,
    QueueError."""
    access = Access(where)
    runner = web.ServerRunner(web.Server(Service(access, rate, size).answered, access_log=None))
    await runner.setup()
    access.begin()
    try:
        site: web.BaseSite = (web.SockSite(runner, address, shutdown_timeout=5) if isinstance(address, socket.socket)
                              else web.TCPSite(runner, address.host, address.port, shutdown_timeout=5))
        await site.start()
        began(runner.addresses[0][1])
        await ended.wait()
    finally:
        await runner.cleanup()
        await access.end()


def serve(where: str, address: Address, rate: float, size: int, processes: int, began: Callable[[int], object]) -> bool:
    """Serves a queue until SIGTERM or Ctrl-C, by several processes, each of which has its share of a token's rate. Whether that was
    what ended it, and not one of the processes."""
    with socket.create_server((address.host, address.port), family=socket.AF_INET6 if ":" in address.host else socket.AF_INET,
                              backlog=1024) as listening:
        began(listening.getsockname()[1])

        def one(parent: int) -> None:
            """What each process does."""
            sys.setswitchinterval(SWITCH)
            asyncio.run(_until_signal(where, listening, rate / processes, size, parent))
        return serve_in(processes, one)


async def _until_signal(where: str, listening: socket.socket, rate: float, size: int, parent: int) -> None:
    ended, loop = asyncio.Event(), asyncio.get_running_loop()
    for number in (signal.SIGTERM, signal.SIGINT):
        loop.add_signal_handler(number, ended.set)
    loop.add_reader(parent, ended.set)
    try:
        await served(where, listening, rate, lambda port: None, ended, size)
    finally:
        loop.remove_reader(parent)
