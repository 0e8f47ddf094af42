"""Whether a description is one of OpenAPI 3.0, by a validator where one is installed and by its main rules otherwise, and whether an
answer is what it says."""
import json
import re
from typing import Any

try:
    from openapi_spec_validator import validate as validate_all
except ImportError:
    validate_all = None
try:
    import jsonschema
except ImportError:
    jsonschema = None

METHODS = {"get", "put", "post", "delete", "options", "head", "patch", "trace"}


def faults_of_description(document: Any) -> str:
    """By what a description was looked at. Raises if it is wrong."""
    _is_sound(document)
    if validate_all is None:
        return "openapi-spec-validator is not installed: the description was held to its main rules alone"
    validate_all(document)
    return "the description was accepted by openapi-spec-validator"


def _is_sound(document: Any) -> None:
    """The main rules: versions, paths and their parameters, operations with names and answers, references that lead somewhere."""
    assert re.fullmatch(r"3\.0\.\d+", document["openapi"]) and {"title", "version"} <= document["info"].keys()
    names = []
    for path, item in document["paths"].items():
        assert path.startswith("/") and item and item.keys() <= METHODS, path
        for method, it in item.items():
            names.append(it["operationId"])
            assert it["responses"] and all(re.fullmatch(r"[1-5]\d\d", status) and answer["description"]
                                           for status, answer in it["responses"].items()), (path, method)
            parameters = [(one["name"], one["in"]) for one in it.get("parameters", ())]
            assert len(set(parameters)) == len(parameters), (path, method)
            assert {name for name, where in parameters if where == "path"} == set(re.findall(r"{(\w+)}", path)), (path, method)
            for of in (it.get("security", ()), document.get("security", ())):
                assert all(one.keys() <= document["components"]["securitySchemes"].keys() for one in of), (path, method)
    assert len(set(names)) == len(names), names
    _refer(document, document)


def _refer(value: Any, document: Any) -> None:
    """Looks whether all references of a value lead somewhere."""
    if isinstance(value, dict):
        if "$ref" in value:
            assert resolved(value, document) is not None, value
        for it in value.values():
            _refer(it, document)
    elif isinstance(value, list):
        for it in value:
            _refer(it, document)


def resolved(value: Any, document: Any) -> Any:
    """What a schema refers to, or itself."""
    while isinstance(value, dict) and "$ref" in value:
        at = document
        for part in value["$ref"].removeprefix("#/").split("/"):
            at = at[part]
        value = at
    return value


def faults_of_answer(document: Any, method: str, path: str, status: int, kind: str, text: str) -> list[str]:
    """What an answer has that the description does not say."""
    template = next(it for it in document["paths"] if re.fullmatch(re.sub(r"{\w+}", r"[^/]+", it), path))
    answers = document["paths"][template][method.lower()]["responses"]
    if str(status) not in answers:
        return [f"{method} {path}: no answer {status} is described: {text[:200]}"]
    content = answers[str(status)].get("content")
    bare = kind.partition(";")[0]
    if content is None or bare not in content:
        return [f"{method} {path}: {kind} is not described"]
    if bare != "application/json":
        return []
    faults = _faults_of(json.loads(text), content[bare]["schema"], document)
    return [f"{method} {path}: {status}: {it}" for it in faults]


def _faults_of(value: Any, schema: Any, document: Any) -> list[str]:
    if jsonschema is not None:
        whole = {**schema, "components": document["components"]}
        return [it.message for it in jsonschema.Draft4Validator(whole).iter_errors(value)]
    return _plain_faults(value, schema, document)


def _plain_faults(value: Any, schema: Any, document: Any) -> list[str]:
    """By the types, members and words of a schema alone."""
    schema = resolved(schema, document)
    if "oneOf" in schema:
        return [] if any(not _plain_faults(value, it, document) for it in schema["oneOf"]) else [f"{value!r} is none of them"]
    types = {"object": dict, "array": list, "string": str, "integer": int, "number": (int, float), "boolean": bool}
    if "type" in schema and not isinstance(value, types[schema["type"]]):
        return [f"{value!r} is no {schema['type']}"]
    faults = [f"{it} is missing" for it in schema.get("required", ()) if it not in value]
    if isinstance(value, dict):
        members = schema.get("properties", {})
        faults += [fault for name, it in value.items() if name in members for fault in _plain_faults(it, members[name], document)]
    if isinstance(value, list):
        faults += [fault for it in value for fault in _plain_faults(it, schema.get("items", {}), document)]
    if "enum" in schema and value not in schema["enum"]:
        faults.append(f"{value!r} is none of {schema['enum']}")
    return faults
