"""`./cise pattern [NAME]`: the known designs of `patterns/`, one of them under one's own names."""
import os
import re
from typing import Dict, List, Optional, Tuple

from view import program
from view.output import say
from view.words import RESERVED, RESERVED_IN_2, words

TOP = os.path.dirname(os.path.dirname(os.path.abspath(__file__)))
ROW = re.compile(r"^\| \[([^\]]*)\]\((\w+)/README\.md\) \| (.*) \|$", re.M)
NAME = re.compile(r"[A-Za-z][A-Za-z0-9_]*")
OK, BAD_WORDS = 0, 2


def part(path: str) -> str:
    """A file of `patterns/`, also where the layer stands in an archive."""
    whole = os.path.join(TOP, "patterns", *path.split("/"))
    data: bytes = __loader__.get_data(whole)  # type: ignore[name-defined]
    return data.decode("utf-8")


def patterns() -> Dict[str, Tuple[str, str]]:
    """Each pattern with its title and what it is for, by the index."""
    return {name: (title, line) for title, name, line in ROW.findall(part("README.md"))}


def answer(name: Optional[str] = None, names: Optional[str] = None) -> Tuple[int, str]:
    """The list of patterns, or one of them with its names exchanged."""
    known = patterns()
    if name is None:
        return OK, listed(known)
    if name not in known:
        say(f"cise: there is no pattern of this name; there are {', '.join(known)}\n")
        return BAD_WORDS, ""
    text = part(f"{name}/accepted.cise")
    wanted = wanted_names(names or "")
    wrong = what_is_wrong(text, wanted)
    if wrong:
        say(f"cise: {wrong}\n")
        return BAD_WORDS, ""
    renamed_text = renamed(text, wanted)
    status, said = program.run_on(renamed_text, "spell")
    if status != OK:
        raise program.Stopped(["spell"], status, said)
    return OK, renamed_text


def listed(known: Dict[str, Tuple[str, str]]) -> str:
    """A line for each pattern."""
    width = max(len(it) for it in known)
    return "".join(f"{name.ljust(width)}  {line}\n" for name, (_, line) in known.items())


def wanted_names(option: str) -> List[Tuple[str, str]]:
    """The pairs of `OLD=NEW,..`."""
    pairs = (it.partition("=") for it in option.split(",") if it)
    return [(old.strip(), new.strip()) for old, _, new in pairs]


def what_is_wrong(text: str, wanted: List[Tuple[str, str]]) -> Optional[str]:
    """Why names can't be exchanged, or None."""
    there = {str(it) for it in words(text) if NAME.fullmatch(it)} - RESERVED - RESERVED_IN_2
    kept = there - {old for old, _ in wanted}
    for old, new in wanted:
        if old not in there:
            return f"the pattern has no name {old!r}; it has {', '.join(sorted(there))}"
        if not NAME.fullmatch(new) or new in RESERVED | RESERVED_IN_2:
            return f"{new!r} can't be a name: a name is a letter, then letters, digits and _"
        if new in kept or [it for _, it in wanted].count(new) > 1:
            return f"two things would be named {new!r}"
    return None


def renamed(text: str, wanted: List[Tuple[str, str]]) -> str:
    """The text with names exchanged, all at once, in its words alone and not in comments."""
    exchange, parts, done = dict(wanted), [], 0
    for word in words(text):
        parts += [text[done : word.at], exchange.get(str(word), str(word))]
        done = word.end
    return "".join(parts) + text[done:]
