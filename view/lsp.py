"""`./cise lsp`: a language server over standard input and output, for editors."""
import sys
from typing import Tuple

from view.server.session import Session


def answer(stdio: bool = False) -> Tuple[int, str]:
    """The status of the session. What is written is the server's. `stdio` is what some editors say;
    there is no other way."""
    del stdio
    return Session(sys.stdin.buffer, sys.stdout.buffer).run(), ""
