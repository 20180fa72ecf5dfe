"""What is wrong with a text, found behind each change: first what the program refuses, then its
verdicts. A text that an editor has changed meanwhile is judged no further: its job ends, with
the process that runs for it."""
import threading
from dataclasses import dataclass
from typing import Any, Callable, Dict, List, Optional

from view import order, program, slips
from view.further_slips import all_slips
from view.output import printable, say
from view.report import Report
from view.review import reviewed
from view.server import diagnostics
from view.server.documents import Document
from view.tree import Spec

Publish = Callable[[Document, List[Dict[str, Any]]], None]
# Statuses with which `check` has written a report.
JUDGED = (0, 1, 5)
REFUSED = 3
# Seconds after which an editor is told that a check goes on.
LONG = 1.0
# Seconds without a change after which a review begins, which may take many runs of the program.
IDLE = 1.0


@dataclass(frozen=True)
class Verdicts:
    """What the program said of a text."""

    document: Document
    spec: Spec
    report: Report
    pairs: Dict[Any, "order.Pair"]


class Judge:
    """Judges the texts of one document, each in the thread of the judge, the newest alone."""

    def __init__(
        self,
        publish: Publish,
        progress: Callable[[str], Callable[[], None]],
        done: Callable[[], None],
    ) -> None:
        self.publish, self.progress, self.done = publish, progress, done
        self.changed = threading.Condition()
        self.job: Optional[program.Job] = None
        self.next: Optional[Document] = None
        self.is_closed = False
        self.verdicts: Optional[Verdicts] = None
        # The last version that was judged to its end.
        self.judged: Optional[Document] = None
        self.has_diagnostics = False
        self.thread = threading.Thread(target=self.work, daemon=True)
        self.thread.start()

    def judge(self, document: Document) -> None:
        """Ends what is done for an older text, and begins with this one."""
        with self.changed:
            self.next = document
            if self.job:
                self.job.end()
            self.changed.notify_all()

    def close(self) -> None:
        """Ends the thread."""
        with self.changed:
            self.is_closed = True
            if self.job:
                self.job.end()
            self.changed.notify_all()

    def work(self) -> None:
        while True:
            with self.changed:
                while self.next is None and not self.is_closed:
                    self.changed.wait()
                if self.is_closed:
                    return
                document, self.next = self.next, None
                job = self.job = program.Job()
            try:
                with job:
                    if document is not None:
                        self.look_at(document)
            except program.Cut:
                continue
            except Exception as error:  # The next change asks again, and the thread goes on.
                say(f"cise lsp: {printable(f'{type(error).__name__}: {error}')}\n")
            with self.changed:
                self.job = None
                self.judged = document
                self.changed.notify_all()

    def look_at(self, document: Document) -> None:
        """What is wrong with a text."""
        status, said = program.run_on(document.text, "spell")
        if status == REFUSED:
            self.verdicts = None
            self.tell_slips(document, said.strip())
        elif status == 0:
            self.tell_verdicts(document)

    def tell_slips(self, document: Document, refusal: str) -> None:
        """The place that the program names at once, and the others as soon as they are found."""
        first = slips.slip_of(document.text, refusal[len(slips.BEGIN) :])
        self.tell(document, diagnostics.of_slips(document, [first], refusal))
        found = all_slips(document.text, refusal)
        if len(found) > 1:
            self.tell(document, diagnostics.of_slips(document, found, refusal))

    def tell_verdicts(self, document: Document) -> None:
        """The refuted and undecided obligations."""
        if self.has_diagnostics and self.verdicts is None:
            # The slips are gone, and the verdicts come.
            self.tell(document, [])
        ended = self.progress(f"check {document.uri.rpartition('/')[2]}")
        try:
            status, said = program.run_on(document.text, "check")
        finally:
            ended()
        if status not in JUDGED:
            return
        spec, report = Spec(document.text), Report(said)
        self.verdicts = Verdicts(document, spec, report, order.pairs(spec, report.blocks))
        found = diagnostics.of_verdicts(document, spec, report)
        self.tell(document, found)
        self.done()
        self.rest()
        hints = diagnostics.of_review(document, *reviewed(spec, report))
        if hints:
            self.tell(document, found + hints)

    def rest(self) -> None:
        """Waits until nobody types any more."""
        with self.changed:
            self.changed.wait_for(lambda: self.next is not None or self.is_closed, IDLE)
            if self.next is not None or self.is_closed:
                raise program.Cut()

    def tell(self, document: Document, found: List[Dict[str, Any]]) -> None:
        """Publishes diagnostics, unless the text has changed."""
        with self.changed:
            if self.next is not None or self.is_closed:
                raise program.Cut()
            self.has_diagnostics = bool(found)
            self.publish(document, found)

    def verdicts_of(self, document: Document, seconds: float) -> Optional[Verdicts]:
        """The verdicts of a text, waited for; None where it is refused, or has been changed, or
        where they take longer."""
        with self.changed:
            self.changed.wait_for(lambda: self.is_settled(document), seconds)
            found = self.verdicts
            return found if found and found.document is document else None

    def is_settled(self, document: Document) -> bool:
        """Whether there are verdicts of a text, or will be none."""
        is_there = self.verdicts is not None and self.verdicts.document is document
        return is_there or self.judged is document or self.next is not None or self.is_closed
