"""The description of the desk in api/, and whether a request or a reply fits it."""
from __future__ import annotations

import json
import pathlib
import re
from typing import Any, Iterator, NamedTuple
from urllib.parse import urldefrag, urljoin

import jsonschema

API = pathlib.Path(__file__).resolve().parent.parent / "api"
METHODS = ("get", "put", "post", "delete")


class Message(NamedTuple):
    """A request or a reply: its first line, its fields in lower case with their values, and its body."""

    line: str
    fields: list[tuple[str, str]]
    body: bytes

    def values(self, name: str) -> list[str]:
        """The values of the fields of this name."""
        return [value for given, value in self.fields if given == name]


def message(data: bytes) -> Message:
    """The message that the bytes are."""
    head, _, body = data.partition(b"\r\n\r\n")
    line, *lines = head.decode("latin-1").split("\r\n")
    fields = [(name.lower(), value.strip()) for name, _, value in (one.partition(":") for one in lines)]
    return Message(line, fields, body)


def by_ecma(validator: Any, pattern: str, instance: object, schema: object) -> Iterator[jsonschema.ValidationError]:
    """The keyword `pattern` as ECMA-262 has it, where `$` is the end alone; Python's takes a line feed before it too."""
    if isinstance(instance, str) and re.search(pattern.replace("$", r"\Z"), instance) is None:
        yield jsonschema.ValidationError(f"{instance[:100]!r} isn't of the form {pattern!r}")


Validator = jsonschema.validators.extend(jsonschema.Draft202012Validator, {"pattern": by_ecma})


class Description:
    """What api/ says; each `why` is the empty text where all fits."""

    def __init__(self, folder: pathlib.Path = API) -> None:
        self.files = {path.resolve().as_uri(): json.loads(path.read_text(encoding="utf-8")) for path in sorted(folder.glob("*.json"))}
        self.at = (folder / "openapi.json").resolve().as_uri()
        self.openapi = self.files[self.at]
        # With the dialect of its own a schema would be read by another validator than that of by_ecma.
        self.dialects = {at: content.pop("$schema", "") for at, content in self.files.items() if at != self.at}

    def found(self, value: dict[str, Any]) -> dict[str, Any]:
        """The part of openapi.json that a reference leads to; the value itself where it is none."""
        return self.part(value["$ref"]) if "$ref" in value else value

    def part(self, reference: str) -> Any:
        """What a reference from openapi.json leads to."""
        file, fragment = urldefrag(urljoin(self.at, reference))
        part = self.files[file]
        for word in filter(None, fragment.split("/")):
            part = part[word]
        return part

    def why_value(self, value: object, schema: dict[str, Any]) -> str:
        """Why a value doesn't fit a schema of openapi.json."""
        resolver = jsonschema.RefResolver(self.at, self.openapi, store=self.files)
        fault = jsonschema.exceptions.best_match(Validator(schema, resolver=resolver).iter_errors(value))
        return f"{fault.json_path}: {fault.message}"[:300] if fault else ""

    def operations(self) -> Iterator[tuple[str, str, dict[str, Any]]]:
        """The method, the path and the description of each operation."""
        for path, item in self.openapi["paths"].items():
            for method in METHODS:
                if method in item:
                    yield method.upper(), path, item[method]

    def place(self, path: str) -> tuple[str, dict[str, str]] | None:
        """The path of openapi.json that a path is one of, with the names in it; None where it is of none."""
        for described in self.openapi["paths"]:
            pattern = re.sub(r"\{(\w+)\}", r"(?P<\1>[^/]+)", described)
            if found := re.fullmatch(pattern, path):
                return described, found.groupdict()
        return None

    def has(self, path: str, method: str) -> bool:
        """Whether a path of openapi.json has a method, whose case counts."""
        return method in map(str.upper, METHODS) and method.lower() in self.openapi["paths"][path]

    def why_request(self, request: Message) -> str:
        """Why a request doesn't fit."""
        method, target, version = (request.line.split(" ") + ["", ""])[:3]
        place = self.place(target.partition("?")[0])
        if not method or version not in ("HTTP/1.1", "HTTP/1.0"):
            return "no request"
        if place is None or not self.has(place[0], method):
            return f"no operation {method} {target}"
        described, names = place
        item = self.openapi["paths"][described]
        operation = item[method.lower()]
        faults = [self.why_parameter(self.found(one), names, request) for one in (*item["parameters"], *operation["parameters"])]
        return next(filter(None, (*faults, self.why_length(method, request), self.why_body(operation, request))), "")

    def why_parameter(self, parameter: dict[str, Any], names: dict[str, str], request: Message) -> str:
        """Why a name in the path, or a field of the head, doesn't fit."""
        values = [names[parameter["name"]]] if parameter["in"] == "path" else request.values(parameter["name"])
        if len(values) != 1:
            return f"{len(values)} of {parameter['name']}"
        is_number = self.found(parameter["schema"]).get("type") == "integer"
        given = int(values[0]) if is_number and re.fullmatch("[0-9]{1,19}", values[0]) else values[0]
        return self.why_value(given, parameter["schema"])

    def why_length(self, method: str, request: Message) -> str:
        """Why the body's length isn't told as it has to be."""
        lengths = set(request.values("content-length"))
        if request.values("transfer-encoding"):
            return "a transfer-encoding"
        if not lengths and method in ("PUT", "POST"):
            return "no content-length"
        return "" if lengths <= {str(len(request.body))} else "another content-length"

    def why_body(self, operation: dict[str, Any], request: Message) -> str:
        """Why the body of a request doesn't fit; one that isn't described does."""
        if "requestBody" not in operation:
            return ""
        try:
            body = json.loads(request.body.decode("utf-8"))
        except ValueError as error:
            return f"no JSON: {error}"
        return self.why_value(body, operation["requestBody"]["content"]["application/json"]["schema"])

    def why_reply(self, request: Message, reply: Message) -> str:
        """Why a reply to a request doesn't fit."""
        method, target = (request.line.split(" ") + [""])[:2]
        place = self.place(target.partition("?")[0])
        status = reply.line.split(" ")[1]
        if place is None:
            response = self.openapi["components"]["responses"]["NoRoute"] if status == "404" else None
        elif not self.has(place[0], method):
            response = self.openapi["components"]["responses"]["WrongMethod"] if status == "405" else None
        else:
            response = self.openapi["paths"][place[0]][method.lower()]["responses"].get(status)
        return f"no reply with status {status}" if response is None else self.why_content(self.found(response), reply)

    def why_content(self, response: dict[str, Any], reply: Message) -> str:
        """Why the content of a reply doesn't fit a response."""
        media = reply.values("content-type")
        if len(media) != 1 or media[0] not in response["content"]:
            return f"content type {media}"
        text = reply.body.decode("utf-8")
        body = json.loads(text) if "json" in media[0] else text
        return self.why_value(body, response["content"][media[0]]["schema"])
