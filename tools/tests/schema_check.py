"""Checks a value of JSON against a schema, by the words that our schemas have."""
from __future__ import annotations

from collections.abc import Iterator
from typing import Any

TYPES: dict[str, Any] = {
    "object": dict,
    "array": list,
    "string": str,
    "integer": int,
    "number": (int, float),
    "boolean": bool,
    "null": type(None),
}
KNOWN = frozenset(
    "$schema $defs $ref title description type const enum required properties additionalProperties items".split()
)


def faults(value: Any, schema: dict[str, Any], root: dict[str, Any], path: str = "") -> Iterator[str]:
    """Where a value isn't as a schema says, and what is wrong there."""
    assert KNOWN.issuperset(schema), schema
    if "$ref" in schema:
        yield from faults(value, root["$defs"][schema["$ref"].removeprefix("#/$defs/")], root, path)
        return
    kinds = schema.get("type", [*TYPES])
    kinds = [kinds] if isinstance(kinds, str) else kinds
    if not any(isinstance(value, TYPES[it]) and (it == "boolean") == isinstance(value, bool) for it in kinds):
        yield f"{path}: no {kinds}: {value!r}"
    elif "const" in schema and value != schema["const"] or "enum" in schema and value not in schema["enum"]:
        yield f"{path}: {value!r}"
    elif isinstance(value, dict):
        yield from (f"{path}.{it} is missing" for it in schema.get("required", ()) if it not in value)
        for key, it in value.items():
            known = schema.get("properties", {}).get(key, schema.get("additionalProperties", {}))
            if known is False:
                yield f"{path}.{key} isn't known"
            else:
                yield from faults(it, known, root, f"{path}.{key}")
    elif isinstance(value, list):
        for at, it in enumerate(value):
            yield from faults(it, schema.get("items", {}), root, f"{path}[{at}]")
