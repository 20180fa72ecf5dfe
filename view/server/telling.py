"""What is said of a word when one points at it: what it declares, what an operation may run
beside, the story of a line that fails; and the places of a thing while its arguments are
written."""
from typing import Any, Dict, List, Optional

from view.explain import tell
from view.places import findings
from view.server.documents import Document, Position
from view.server.judging import Verdicts
from view.server.names import Declaration, Names
from view.server.structure import beside
from view.story import Story
from view.words import Word

# The most stories at one line.
MOST_STORIES = 3
WORDS = {
    "sort": "sort NAME: a kind of things, of which there may be any number",
    "const": "const NAME : SORT: a thing with a name; two of one sort may be the same",
    "relation": "relation NAME ( SORT , .. ): facts of things, each true or false",
    "counter": "counter NAME ( SORT , .. ): whole numbers, one for each choice of keys",
    "initially": "initially NAME VALUE: the first value at all places; without it false or 0",
    "token": "token NAME ( SORT , .. ): what calls take so that they are ordered with others",
    "conflict": "conflict t ( x ) u ( y ): calls that take these are ordered",
    "invariant": "invariant NAME FORMULA: has to be true in each state",
    "operation": "operation NAME ( x : SORT , n : int ) .. end: what a call requires and changes",
    "requires": "requires FORMULA: a call is made only where this is true",
    "observes": "observes FORMULA: is true where the call is made, and elsewhere perhaps not",
    "insert": "insert r ( x ) [when FORMULA]: makes a fact true",
    "remove": "remove r ( x ) [when FORMULA]: makes a fact false",
    "add": "add c ( x ) n [when FORMULA]: adds to a counter",
    "set": "set c ( x ) n [when FORMULA]: sets a counter",
    "takes": "takes t ( x ): the call takes this token",
    "when": "when FORMULA: the change happens only where this is true",
    "forall": "forall x : SORT .: for all things of a sort",
    "exists": "exists x : SORT .: for some thing of a sort; in requires and observes alone",
    "implies": "( a implies b ): b is true wherever a is",
    "int": "int: a parameter that is a whole number",
    "shared": "takes t ( x ) shared: two such takings aren't ordered",
    "exclusive": "takes t ( x ) exclusive: ordered with each taking that a rule names",
}


def hover(
    document: Document, names: Names, verdicts: Optional[Verdicts], at: int
) -> Optional[Dict[str, Any]]:
    """What is said of the word at a place, and the stories of what fails at its line."""
    word = names.word_at(at)
    said: List[str] = []
    if word is not None:
        meant = names.meant.get(word.at)
        if meant:
            said += ["```cise\n" + declared(meant) + "\n```", *comment_above(document, meant)]
        elif word in WORDS:
            said.append(WORDS[word])
        if (
            meant
            and meant.what == "operation"
            and verdicts
            and meant.word in verdicts.spec.operations
        ):
            said += [beside(verdicts, str(meant.word)) + ".", *pairs(verdicts, str(meant.word))]
    told = stories(document, verdicts, at)
    if not said and not told:
        return None
    found: Dict[str, Any] = {"contents": {"kind": "markdown", "value": "\n\n".join(said + told)}}
    if word is not None:
        found["range"] = document.word_range(word)
    return found


def declared(meant: Declaration) -> str:
    """A declaration as it would be written."""
    if meant.what != "operation":
        return meant.told()
    params = [f"{it.word} : {it.kind}" for it in meant.item.locals if it.what == "parameter"]
    return meant.told() + (f" ( {' , '.join(params)} )" if params else "")


def comment_above(document: Document, meant: Declaration) -> List[str]:
    """The comment above a declaration's item."""
    lines = document.text[: meant.item.head.at].split("\n")[:-1]
    found: List[str] = []
    while lines and lines[-1].lstrip().startswith("#"):
        found.insert(0, lines.pop().strip().lstrip("#").strip())
    return [" ".join(found)] if found else []


def pairs(verdicts: Verdicts, name: str) -> List[str]:
    """A line for each operation beside which this one may not run at once."""
    rows = []
    for other in verdicts.spec.operations:
        pair = verdicts.pairs[name, other]
        if pair.state() != "proved":
            rows.append(f"- beside `{other}`: {pair.says()}")
    return ["\n".join(rows)] if rows else []


def stories(document: Document, verdicts: Optional[Verdicts], at: int) -> List[str]:
    """The stories of what fails at the line of a place."""
    if verdicts is None:
        return []
    row = document.text.count("\n", 0, at) + 1
    here = [
        it
        for it in findings(document.uri, verdicts.spec, verdicts.report)
        if it.span.line <= row <= it.span.end_line
    ]
    said = []
    for number, it in enumerate(here[:MOST_STORIES], 1):
        story = Story(verdicts.spec, it.block, verdicts.report.budget)
        lines = tell(story, number, verdicts.pairs.get(it.block.pair()))
        said.append("```text\n" + "\n".join(lines).rstrip() + "\n```")
    if len(here) > MOST_STORIES:
        said.append(f"{len(here) - MOST_STORIES} more stand at this line.")
    return said


def signature(document: Document, names: Names, position: Position) -> Optional[Dict[str, Any]]:
    """The places of the relation, counter or token in whose brackets a place is."""
    before = [it for it in names.words if it.end <= document.index(position)]
    opened = open_bracket(before)
    if opened is None or opened == 0:
        return None
    meant = names.meant.get(before[opened - 1].at)
    if not meant or not meant.places or meant.word.at == before[opened - 1].at:
        return None
    label, spans = f"{meant.word} ( ", []
    for at, it in enumerate(meant.places):
        spans.append([len(label), len(label) + len(it)])
        label += it + (" , " if at + 1 < len(meant.places) else "")
    active = sum(it == "," for it in before[opened + 1 :])
    told = {
        "label": label + " )",
        "documentation": meant.told(),
        "parameters": [{"label": it} for it in spans],
    }
    return {
        "signatures": [told],
        "activeSignature": 0,
        "activeParameter": min(active, len(spans) - 1),
    }


def open_bracket(before: List[Word]) -> Optional[int]:
    """The last bracket that is open behind some words."""
    depth = 0
    for at in range(len(before) - 1, -1, -1):
        depth += (before[at] == ")") - (before[at] == "(")
        if depth < 0:
            return at
    return None
