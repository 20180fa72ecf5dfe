"""Messages of the protocol on a stream of bytes: a head with their length, an empty line, and
JSON. Whatever comes in, reading goes on or ends, and never fails otherwise."""
import json
import threading
from typing import Any, BinaryIO, Dict, Optional

Message = Dict[str, Any]
# A message is no longer than this: a text of 65,536 bytes, written as JSON with all that comes
# with it, is far below.
MOST_BYTES = 1 << 24
# No line of a head is longer.
MOST_LINE = 4096


class NotJson(Exception):
    """The bytes of a message are no JSON, or no object."""


class Reader:
    """Reads messages from a stream."""

    def __init__(self, stream: BinaryIO) -> None:
        self.stream = stream

    def next(self) -> Optional[Message]:
        """The next message; None at the end of the stream, and where no next message can be
        found in it. `NotJson` for one that can't be read."""
        length = self.length()
        if length is None:
            return None
        body = self.stream.read(length)
        if len(body) < length:
            return None
        try:
            found = json.loads(body.decode("utf-8"))
        except (ValueError, RecursionError) as error:
            raise NotJson() from error
        if not isinstance(found, dict):
            raise NotJson()
        return found

    def length(self) -> Optional[int]:
        """The length that the next head says."""
        found = None
        while True:
            line = self.stream.readline(MOST_LINE)
            if not line.endswith(b"\n"):
                return None
            if not line.strip():
                if found is not None:
                    return found
                continue
            name, _, value = line.partition(b":")
            if name.strip().lower() == b"content-length":
                digits = value.strip()
                if not digits.isdigit() or int(digits) > MOST_BYTES:
                    return None
                found = int(digits)


class Writer:
    """Writes messages on a stream, from any thread."""

    def __init__(self, stream: BinaryIO) -> None:
        self.stream, self.lock, self.is_closed = stream, threading.Lock(), False

    def send(self, message: Message) -> None:
        """Writes a message whole. Where the client has gone, there is nobody to be told."""
        body = json.dumps({"jsonrpc": "2.0", **message}, separators=(",", ":")).encode("utf-8")
        with self.lock:
            if self.is_closed:
                return
            try:
                self.stream.write(b"Content-Length: %d\r\n\r\n" % len(body) + body)
                self.stream.flush()
            except (OSError, ValueError):
                self.is_closed = True
