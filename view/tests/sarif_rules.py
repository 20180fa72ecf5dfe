"""The rules of SARIF's schema that speak of what `view/sarif.py` writes, and whether a value keeps
them.

They are those of sarif-schema-2.1.0.json, which belongs to the OASIS Standard "Static Analysis
Results Interchange Format (SARIF) Version 2.1.0" (errata 01): for each object its required
properties, the properties that it may have, types, least values, enumerations, and which arrays
have no item twice. Properties that the layer never writes are left out, so that a new one fails
here until its rule is written down."""
from typing import Dict, List

Rule = Dict[str, object]
LEVEL: Rule = {"type": str, "enum": ["none", "note", "warning", "error"]}
POSITIVE: Rule = {"type": int, "least": 1}
TEXT: Rule = {"type": str}

OBJECTS: Dict[str, Dict[str, object]] = {
    "sarifLog": {
        "required": ["version", "runs"],
        "properties": {
            "$schema": TEXT,
            "version": {"type": str, "enum": ["2.1.0"]},
            "runs": {"type": list, "items": {"object": "run"}},
        },
    },
    "run": {
        "required": ["tool"],
        "properties": {
            "tool": {"object": "tool"},
            "invocations": {"type": list, "items": {"object": "invocation"}},
            "columnKind": {"type": str, "enum": ["utf16CodeUnits", "unicodeCodePoints"]},
            "results": {"type": list, "items": {"object": "result"}},
        },
    },
    "tool": {"required": ["driver"], "properties": {"driver": {"object": "toolComponent"}}},
    "toolComponent": {
        "required": ["name"],
        "properties": {
            "name": TEXT,
            "version": TEXT,
            "semanticVersion": TEXT,
            "rules": {"type": list, "items": {"object": "reportingDescriptor"}, "unique": True},
        },
    },
    "reportingDescriptor": {
        "required": ["id"],
        "properties": {
            "id": TEXT,
            "name": TEXT,
            "shortDescription": {"object": "multiformatMessageString"},
            "defaultConfiguration": {"object": "reportingConfiguration"},
        },
    },
    "multiformatMessageString": {"required": ["text"], "properties": {"text": TEXT}},
    "reportingConfiguration": {"required": [], "properties": {"level": LEVEL}},
    "invocation": {
        "required": ["executionSuccessful"],
        "properties": {
            "executionSuccessful": {"type": bool},
            "toolExecutionNotifications": {"type": list, "items": {"object": "notification"}},
        },
    },
    "notification": {
        "required": ["message"],
        "properties": {
            "level": LEVEL,
            "message": {"object": "message"},
            "locations": {"type": list, "items": {"object": "location"}, "unique": True},
        },
    },
    "result": {
        "required": ["message"],
        "properties": {
            "ruleId": TEXT,
            "ruleIndex": {"type": int, "least": -1},
            "level": LEVEL,
            "message": {"object": "message"},
            "locations": {"type": list, "items": {"object": "location"}},
            "relatedLocations": {"type": list, "items": {"object": "location"}, "unique": True},
            "partialFingerprints": {"texts": True},
        },
    },
    "message": {"required": ["text"], "properties": {"text": TEXT}},
    "location": {
        "required": [],
        "properties": {
            "id": {"type": int, "least": -1},
            "message": {"object": "message"},
            "physicalLocation": {"object": "physicalLocation"},
        },
    },
    "physicalLocation": {
        "required": ["artifactLocation"],
        "properties": {
            "artifactLocation": {"object": "artifactLocation"},
            "region": {"object": "region"},
        },
    },
    "artifactLocation": {"required": [], "properties": {"uri": {"type": str, "uri": True}}},
    "region": {
        "required": [],
        "properties": {it: POSITIVE for it in ("startLine", "startColumn", "endLine", "endColumn")},
    },
}
# What RFC 3986 lets a reference hold, beside letters and digits.
OF_URI = set("-._~:/?#[]@!$&'()*+,;=%")


def broken(value: object, rule: Rule, at: str = "log") -> List[str]:
    """Which rules a value breaks, each with its place."""
    if "object" in rule:
        return broken_object(value, OBJECTS[str(rule["object"])], at)
    if rule.get("texts"):
        good = isinstance(value, dict) and all(isinstance(it, str) for it in value.values())
        return [] if good else [f"{at} isn't an object of texts"]
    kind = rule["type"]
    is_one = isinstance(value, kind)  # type: ignore[arg-type]
    if not is_one or kind is int and isinstance(value, bool):
        return [f"{at} is no {kind}"]
    found = []
    if "enum" in rule and value not in rule["enum"]:  # type: ignore[operator]
        found.append(f"{at} is {value}")
    if "least" in rule and value < rule["least"]:  # type: ignore[operator]
        found.append(f"{at} is {value}")
    if rule.get("uri") and not all(
        it.isascii() and it.isalnum() or it in OF_URI for it in str(value)
    ):
        found.append(f"{at} is no URI: {value}")
    if isinstance(value, list):
        for number, it in enumerate(value):
            found += broken(it, rule["items"], f"{at}[{number}]")  # type: ignore[arg-type]
        if rule.get("unique") and any(it in value[:number] for number, it in enumerate(value)):
            found.append(f"{at} has an item twice")
    return found


def broken_object(value: object, rule: Dict[str, object], at: str) -> List[str]:
    """The same of an object."""
    if not isinstance(value, dict):
        return [f"{at} is no object"]
    required: List[str] = rule["required"]  # type: ignore[assignment]
    found = [f"{at} lacks {it}" for it in required if it not in value]
    properties: Dict[str, Rule] = rule["properties"]  # type: ignore[assignment]
    for name, it in value.items():
        if name in properties:
            found += broken(it, properties[name], f"{at}.{name}")
        else:
            found.append(f"{at} has {name}, of which no rule is known")
    return found
