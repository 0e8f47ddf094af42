"""The description of the requests, by OpenAPI 3.0."""
from typing import Any

from arena.queue.model import State
from arena.version import VERSION

_NUMBER = {"type": "integer", "format": "int64"}
_ID = {"name": "job", "in": "path", "required": True, "schema": _NUMBER}
_JOB = {
    "type": "object", "required": ["job", "tenant", "state", "program", "serial", "args", "fuel", "priority", "attempts", "failures",
                                   "run_at", "made_at"],
    "properties": {
        "job": _NUMBER, "tenant": {"type": "string"}, "key": {"type": "string"},
        "state": {"type": "string", "enum": [it.value for it in State]}, "program": {"type": "string"},
        "serial": {"type": "boolean"}, "args": {"type": "array", "items": _NUMBER, "minItems": 2, "maxItems": 2},
        "fuel": {"type": "integer"}, "priority": {"type": "integer"}, "attempts": {"type": "integer"},
        "failures": {"type": "integer"}, "value": _NUMBER, "error": {"type": "string"},
        "fault": {"type": "object", "properties": {"code": {"type": "integer"}, "text": {"type": "string"}}},
        **{name: {"type": "number", "description": "seconds since 1970"} for name in ("run_at", "made_at", "started_at", "ended_at")}}}
_NEW = {
    "type": "object", "additionalProperties": False, "description": "with one of source, procs and program",
    "properties": {
        "source": {"type": "string"}, "procs": {"type": "array", "items": {"type": "array", "items": {}}},
        "program": {"type": "string", "description": "the hash of a program that a kept job of the tenant has, or that `arena queue program` keeps"},
        "args": {"type": "array", "items": _NUMBER, "minItems": 2, "maxItems": 2}, "fuel": {"type": "integer"},
        "key": {"type": "string", "maxLength": 200}, "priority": {"type": "integer"}, "delay": {"type": "number"},
        "failures": {"type": "integer"}}}
_MADE = {"type": "object", "required": ["job", "made"], "properties": {"job": _NUMBER, "made": {"type": "boolean"}}}
_ERROR = {"type": "object", "required": ["error"], "properties": {"error": {"type": "string"}}}


def _of(name: str) -> dict[str, Any]:
    return {"$ref": f"#/components/schemas/{name}"}


def _content(schema: object, description: str) -> dict[str, Any]:
    return {"description": description, "content": {"application/json": {"schema": schema}}}


def _text(kind: str, description: str) -> dict[str, Any]:
    return {"description": description, "content": {kind: {"schema": {"type": "string"}}}}


def _operation(name: str, summary: str, answer: dict[str, Any], *errors: int, status: int = 200, **more: object) -> dict[str, Any]:
    texts = {400: "the request is wrong", 401: "no such token", 404: "the tenant has no such job",
             409: "the job is another one, or not in that state", 413: "the body is too large", 429: "too many requests",
             503: "the queue's file can't be used now"}
    answers = {str(status): answer} | {str(it): _content(_of("Error"), texts[it]) for it in (*errors, 401, 429, 503)}
    return {"operationId": name, "summary": summary, "responses": answers, **more}


def _query(name: str, schema: dict[str, Any], description: str) -> dict[str, Any]:
    return {"name": name, "in": "query", "schema": schema, "description": description}


def document() -> dict[str, Any]:
    """The whole."""
    either = [_of("NewJob"), {"type": "array", "items": _of("NewJob"), "minItems": 1, "maxItems": 1000}]
    made = {"oneOf": [_of("Made"), {"type": "array", "items": _of("Made")}]}
    job, jobs = _content(_of("Job"), "the job"), _content({"type": "array", "items": _of("Job")}, "the jobs")
    state = _content({"type": "object", "properties": {"job": _NUMBER, "state": {"type": "string"}}}, "the state that it has then")
    return {
        "openapi": "3.0.3", "info": {"title": "A durable queue before hosts", "version": VERSION},
        "security": [{"token": []}],
        "paths": {
            "/v1/jobs": {
                "post": _operation("submit", "keeps one job or up to 1,000, all or none", _content(made, "they are kept"),
                                   400, 409, 413, status=201, requestBody={
                                       "required": True, "content": {"application/json": {"schema": {"oneOf": either}}}}),
                "get": _operation("list", "jobs, the newest first", jobs, 400, parameters=[
                    _query("state", {"type": "string", "enum": [it.value for it in State]}, "only those in this state"),
                    _query("before", _NUMBER, "only those whose number is lower"),
                    _query("limit", {"type": "integer", "minimum": 1, "maximum": 1000}, "how many; 50, unless it is said")])},
            "/v1/jobs/{job}": {"get": _operation("job", "a job; with `wait`, once it has ended", job, 400, 404, parameters=[
                _ID, _query("wait", {"type": "number", "minimum": 0, "maximum": 60}, "for how many seconds at most")])},
            "/v1/jobs/{job}/cancel": {"post": _operation("cancel", "cancels a job", state, 400, 404, parameters=[_ID])},
            "/v1/jobs/{job}/retry": {"post": _operation("retry", "runs a job again that ended without a value", state, 400, 404, 409,
                                                        parameters=[_ID])},
            "/v1/stats": {"get": _operation("stats", "how many jobs there are", _content({"type": "object"}, "counts"))},
            "/metrics": {"get": _operation("metrics", "counts, rates, times and ages for Prometheus", _text("text/plain", "text"))},
            "/": {"get": _operation("page", "a page with all of this, for a browser", _text("text/html", "the page"),
                                    security=[{"token": []}, {"password": []}])},
            "/healthz": {"get": {"operationId": "health", "summary": "whether the queue's file can be used", "security": [],
                                 "responses": {"200": _content({"type": "object", "properties": {"ok": {"type": "boolean"}}}, "it can"),
                                               "503": _content(_of("Error"), "it can't")}}}},
        "components": {"securitySchemes": {"token": {"type": "http", "scheme": "bearer"},
                                           "password": {"type": "http", "scheme": "basic",
                                                        "description": "the token as the password, with any name"}},
                       "schemas": {"Job": _JOB, "NewJob": _NEW, "Made": _MADE, "Error": _ERROR}}}
