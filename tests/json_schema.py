"""The parts of JSON Schema (draft 7) that docs/turnexplain.schema.json uses."""

import re

TYPES = {"string": str, "object": dict, "array": list, "boolean": bool, "null": type(None)}
KNOWN = {"$schema", "title", "definitions", "$ref", "anyOf", "type", "enum", "pattern", "minimum", "required", "properties", "additionalProperties", "items"}


def is_of_type(value, name):
    if name == "integer":
        return isinstance(value, int) and not isinstance(value, bool)
    return isinstance(value, TYPES[name])


def faults(value, schema, whole, where="answer"):
    """What of a value the schema refuses."""
    unknown = set(schema) - KNOWN
    if unknown:
        return [f"the schema has {sorted(unknown)}, which this checker doesn't know"]
    if "$ref" in schema:
        return faults(value, whole["definitions"][schema["$ref"].removeprefix("#/definitions/")], whole, where)
    if "anyOf" in schema:
        tried = [faults(value, one, whole, where) for one in schema["anyOf"]]
        return [] if any(not one for one in tried) else [f"{where}: none of {len(tried)} forms"] + min(tried, key=len)
    found = []
    names = schema.get("type", [])
    names = [names] if isinstance(names, str) else names
    if names and not any(is_of_type(value, name) for name in names):
        return [f"{where}: {value!r} isn't {' or '.join(names)}"]
    if "enum" in schema and value not in schema["enum"]:
        found.append(f"{where}: {value!r} isn't one of {schema['enum']}")
    if "pattern" in schema and isinstance(value, str) and not re.search(schema["pattern"], value):
        found.append(f"{where}: {value!r} isn't {schema['pattern']}")
    if "minimum" in schema and is_of_type(value, "integer") and value < schema["minimum"]:
        found.append(f"{where}: {value} is too small")
    if isinstance(value, dict):
        members = schema.get("properties", {})
        found += [f"{where}: lacks {key}" for key in schema.get("required", []) if key not in value]
        if schema.get("additionalProperties") is False:
            found += [f"{where}: has {key}" for key in value if key not in members]
        for key, one in value.items():
            if key in members:
                found += faults(one, members[key], whole, f"{where}.{key}")
    if isinstance(value, list) and "items" in schema:
        for place, one in enumerate(value):
            found += faults(one, schema["items"], whole, f"{where}[{place}]")
    return found
