"""A specification without some of its lines, as the user wrote the rest."""
from typing import Any, Callable, Iterable, List, Tuple


def without(
    spec: Any, is_left_out: Callable[[str, Any], bool], invariants: Iterable[str] = ()
) -> str:
    """The text without the lines of operations that `is_left_out(operation, line)` is true of, and
    without these invariants."""
    spans: List[Tuple[int, int]] = []
    for name, operation in spec.operations.items():
        spans += [
            (it.head.at, it.head.at + len(it.text))
            for it in operation.lines
            if is_left_out(str(name), it)
        ]
    gone = set(invariants)
    for head, words in spec.items:
        if head == "invariant" and words[0] in gone:
            spans.append((head.at, words[-1].end))
    text: str = spec.text
    for start, end in sorted(spans, reverse=True):
        text = text[:start] + text[end:]
    return text


def bare(spec: Any) -> str:
    """The text with its takes lines alone: what says which calls conflict, and nothing that could
    refuse a call otherwise."""
    return without(spec, lambda _, it: bool(it.head != "takes"), map(str, spec.invariants))
