#!/usr/bin/env python3
"""Spans of OpenTelemetry as a log for `./cise audit`.

    converters/opentelemetry.py SPANS.json .. > log.jsonl

It reads OTLP's JSON (`resourceSpans`) and what the Go SDK's stdouttrace exporter writes. A span
with the attribute `cise.call` is a call of this operation; its arguments are the attributes
`cise.arg.NAME`, and the calls that it links to are what it had seen. A span with the attribute
`cise.take` takes the calls that it links to. The replica is the attribute `cise.replica`, else the
resource's `service.instance.id`, else its `service.name`. All other spans are passed over. Lines
are in the order in which spans began."""
import json
import sys
from dataclasses import dataclass
from typing import Any, Dict, Iterator, List, Tuple

NOT_OF_ITS_FORM = 4
ARGUMENT = "cise.arg."


class Wrong(Exception):
    """What isn't of the form of spans."""


@dataclass
class Span:
    """A span: its id, when it began, its attributes, and the ids of the spans that it links to."""

    id: str
    began: Tuple[int, int]
    attributes: Dict[str, Any]
    links: List[str]


def values_of(text: str) -> Iterator[Any]:
    """The JSON values that stand one after the other in a text."""
    decoder, at = json.JSONDecoder(), 0
    while text[at:].strip():
        at += len(text[at:]) - len(text[at:].lstrip())
        try:
            value, at = decoder.raw_decode(text, at)
        except ValueError as error:
            raise Wrong(f"no JSON at byte {at}: {error}") from None
        yield value


def spans_of(value: Any) -> Iterator[Span]:
    """The spans of a JSON value, in either form."""
    if isinstance(value, list):
        for it in value:
            yield from spans_of(it)
    elif isinstance(value, dict) and "resourceSpans" in value:
        for resource in value["resourceSpans"]:
            own = otlp_attributes(resource.get("resource", {}).get("attributes", []))
            for scope in resource.get("scopeSpans", []):
                for it in scope.get("spans", []):
                    yield otlp_span(it, own)
    elif isinstance(value, dict) and "SpanContext" in value:
        yield stdout_span(value)
    else:
        raise Wrong("spans are needed: an object with resourceSpans, or with SpanContext")


def otlp_attributes(listed: List[Dict[str, Any]]) -> Dict[str, Any]:
    """Attributes as OTLP's JSON has them, where a whole number is a text."""
    found = {}
    for it in listed:
        ((kind, value),) = it["value"].items()
        found[it["key"]] = int(value) if kind == "intValue" else value
    return found


def otlp_span(span: Dict[str, Any], resource: Dict[str, Any]) -> Span:
    """A span of OTLP's JSON."""
    links = [f"{it['traceId']}/{it['spanId']}" for it in span.get("links", [])]
    attributes = {**resource, **otlp_attributes(span.get("attributes", []))}
    began = divmod(int(span["startTimeUnixNano"]), 10**9)
    return Span(f"{span['traceId']}/{span['spanId']}", began, attributes, links)


def stdout_span(span: Dict[str, Any]) -> Span:
    """A span as the Go SDK's stdouttrace exporter writes it."""

    def name(context: Dict[str, Any]) -> str:
        return f"{context['TraceID']}/{context['SpanID']}"

    both = [*(span.get("Resource") or []), *(span.get("Attributes") or [])]
    attributes = {it["Key"]: it["Value"]["Value"] for it in both}
    links = [name(it["SpanContext"]) for it in span.get("Links") or []]
    return Span(name(span["SpanContext"]), time_of(span["StartTime"]), attributes, links)


def time_of(text: str) -> Tuple[int, int]:
    """A time of RFC 3339 in UTC, as seconds and nanoseconds."""
    from datetime import datetime, timezone

    whole, _, part = text.rstrip("Z").partition(".")
    seconds = datetime.strptime(whole, "%Y-%m-%dT%H:%M:%S").replace(tzinfo=timezone.utc)
    return int(seconds.timestamp()), int(part.ljust(9, "0") or "0")


def lines_of(spans: List[Span]) -> Iterator[Dict[str, Any]]:
    """The lines of a log."""
    calls = {it.id for it in spans if "cise.call" in it.attributes}
    for it in sorted(spans, key=lambda span: span.began):
        replica = next(
            (
                it.attributes[key]
                for key in ("cise.replica", "service.instance.id", "service.name")
                if key in it.attributes
            ),
            None,
        )
        linked = [other for other in it.links if other in calls]
        if it.id not in calls and "cise.take" not in it.attributes:
            continue
        if replica is None:
            raise Wrong(f"span {it.id} says no replica")
        if it.id in calls:
            args = {
                key[len(ARGUMENT) :]: value
                for key, value in it.attributes.items()
                if key.startswith(ARGUMENT)
            }
            call = it.attributes["cise.call"]
            yield {"id": it.id, "replica": replica, "call": call, "args": args, "seen": linked}
        else:
            yield from ({"replica": replica, "take": other} for other in linked)


def main(paths: List[str]) -> int:
    """Writes the log of the spans of all files; 4 where a file isn't of its form."""
    spans: List[Span] = []
    for path in paths:
        try:
            with open(path, encoding="utf-8") as file:
                for value in values_of(file.read()):
                    spans += spans_of(value)
        except (Wrong, KeyError, TypeError, ValueError, AttributeError) as wrong:
            print(f"{path}: no spans of OpenTelemetry: {wrong!r}", file=sys.stderr)
            return NOT_OF_ITS_FORM
    try:
        for it in lines_of(spans):
            print(json.dumps(it))
    except Wrong as wrong:
        print(f"{paths[0]}: {wrong}", file=sys.stderr)
        return NOT_OF_ITS_FORM
    return 0


if __name__ == "__main__":
    sys.exit(main(sys.argv[1:]))
