"""The files for editors: they know the words of the language, and the places that are written."""
from __future__ import annotations

import json
import re
import unittest

from view import program, slips
from view.given import given
from view.server import completion
from view.tests.slips_table import SLIPS
from view.words import RESERVED, RESERVED_IN_2, text_of, words

ALL = RESERVED | RESERVED_IN_2


class Words(unittest.TestCase):
    def test_vim(self) -> None:
        groups = re.findall(
            r"^syntax keyword cise(?!Todo)\w+ (.*)$", text_of("editors/vim/syntax/cise.vim"), re.M
        )
        listed = [it for group in groups for it in group.split()]
        self.assertEqual(sorted(listed), sorted(ALL))

    def test_textmate(self) -> None:
        grammar = json.loads(text_of("editors/vscode/cise.tmLanguage.json"))
        listed = [
            it
            for row in grammar["patterns"]
            if not row.get("captures")
            for group in re.findall(r"\(([a-z|]+)\)", row["match"])
            for it in group.split("|")
        ]
        self.assertEqual(sorted(listed), sorted(ALL))

    def test_textmate_cuts_a_text_into_its_words(self) -> None:
        patterns = [
            re.compile(row["match"], re.M)
            for row in json.loads(text_of("editors/vscode/cise.tmLanguage.json"))["patterns"]
        ]
        text = text_of("examples/stock/by_shop.cise")
        at, found = 0, []
        while at < len(text):
            match = next(
                (
                    it
                    for it in (pattern.match(text, at) for pattern in patterns)
                    if it and it.group()
                ),
                None,
            )
            if match and not match.group().startswith("#"):
                found += match.group().split()
            at = match.end() if match else at + 1
        self.assertEqual(found, words(text))

    def test_vim_links_every_group(self) -> None:
        text = text_of("editors/vim/syntax/cise.vim")
        groups = set(re.findall(r"^syntax (?:keyword|match) (\w+)", text, re.M))
        self.assertEqual(groups, set(re.findall(r"^highlight default link (\w+)", text, re.M)))


class Places(unittest.TestCase):
    def test_the_problem_matcher_reads_what_is_written(self) -> None:
        (matcher,) = json.loads(text_of("editors/vscode/package.json"))["contributes"][
            "problemMatchers"
        ]
        pattern = matcher["pattern"]
        for text, refusal in (
            ("cise 1\nsort A\nrelation r ( B )\n", "refused specification unknown B word 7"),
            ("cise 1 sort", "refused specification syntax word 3"),
        ):
            lines = slips.tell("a folder/d.cise", text, refusal).split("\n")
            found = re.match(pattern["regexp"], lines[0])
            slip = slips.slip_of(text, refusal[len(slips.BEGIN) :])
            groups = [
                given(found).group(pattern[it]) for it in ("file", "line", "column", "message")
            ]
            self.assertEqual(
                groups, ["a folder/d.cise", str(slip.line), str(slip.column), slip.message]
            )
            self.assertFalse(any(re.match(pattern["regexp"], it) for it in lines[1:]))

    def test_the_columns_of_the_table_are_read(self) -> None:
        (matcher,) = json.loads(text_of("editors/vscode/package.json"))["contributes"][
            "problemMatchers"
        ]
        for *_, place, _, message in SLIPS:
            self.assertEqual(
                given(
                    re.match(matcher["pattern"]["regexp"], f"d.cise:{place}: {message}")
                ).groups(),
                ("d.cise", *place.split(":"), message),
            )


class Snippets(unittest.TestCase):
    """What snippets fill in is of the language, with a truth value where a formula is left out."""

    CONTEXT = "cise 1\nsort Sort\nrelation known ( Sort )\n"

    def filled(self, body: str) -> str:
        body = re.sub(r"\$\{\d+:(\w+)\}", r"\1", body)
        return re.sub(
            r"(requires|implies|\(|\.) \$\d",
            r"\1 true",
            re.sub(r"\n *\$0|\$0\Z(?<! \$0)", "", body),
        )

    def test_those_of_the_extension(self) -> None:
        for name, it in json.loads(text_of("editors/vscode/snippets.json")).items():
            with self.subTest(name):
                text = self.filled("\n".join(it["body"]))
                whole = text if text.startswith("cise") else self.CONTEXT + text
                self.assertEqual(program.run_on(whole, "spell")[0], 0, whole)

    def test_those_of_the_server(self) -> None:
        for word, body in completion.SNIPPETS.items():
            if word in ("forall", "exists"):
                body = f"operation f\n  requires {body}\nend"
            if word == "conflict":
                body = "token token_of ( Sort )\n" + body.replace("${1:token}", "token_of")
            with self.subTest(word):
                self.assertEqual(
                    program.run_on(self.CONTEXT + self.filled(body), "spell")[0],
                    0,
                    self.filled(body),
                )


if __name__ == "__main__":
    unittest.main()
