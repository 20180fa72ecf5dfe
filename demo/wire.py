"""A client of PostgreSQL in Python's standard library: simple queries over a unix socket, without a
password."""
import socket
import struct
from typing import Iterator, List, Optional, Tuple

Row = List[Optional[str]]
VERSION = 196608
# The code of the field of an error with its class, as `55P03` for a lock that wasn't got in time.
CODE = b"C"


class Refused(Exception):
    """The server refused a statement: its code and its message."""

    def __init__(self, code: str, message: str) -> None:
        super().__init__(f"{code}: {message}")
        self.code = code


def literal(value: object) -> str:
    """A text or a number as SQL has it."""
    return str(value) if isinstance(value, int) else "'" + str(value).replace("'", "''") + "'"


class Connection:
    """A connection to a database over a socket."""

    def __init__(self, path: str, database: str = "postgres", user: str = "postgres") -> None:
        self.socket = socket.socket(socket.AF_UNIX)
        self.socket.connect(path)
        self.left = b""
        body = struct.pack("!i", VERSION) + f"user\0{user}\0database\0{database}\0\0".encode()
        self.socket.sendall(struct.pack("!i", len(body) + 4) + body)
        self.answer()

    def close(self) -> None:
        """Ends the connection; the server rolls back what it had begun."""
        self.socket.sendall(b"X" + struct.pack("!i", 4))
        self.socket.close()

    def messages(self) -> Iterator[Tuple[bytes, bytes]]:
        """The kinds and the bodies of what the server says, one after the other."""
        while True:
            while len(self.left) < 5 or len(self.left) < 1 + struct.unpack("!i", self.left[1:5])[0]:
                more = self.socket.recv(1 << 16)
                if not more:
                    raise EOFError("the server closed the connection")
                self.left += more
            size = 1 + struct.unpack("!i", self.left[1:5])[0]
            message, self.left = self.left[:size], self.left[size:]
            yield message[:1], message[5:]

    def answer(self) -> List[Row]:
        """The rows up to where the server is ready again; `Refused` where it refused the
        statement."""
        rows: List[Row] = []
        refusal: Optional[Refused] = None
        for kind, body in self.messages():
            if kind == b"D":
                rows.append(row_of(body))
            elif kind == b"E":
                refusal = refusal_of(body)
            elif kind == b"Z":
                break
        if refusal:
            raise refusal
        return rows

    def ask(self, statement: str) -> List[Row]:
        """The rows of a statement."""
        body = statement.encode() + b"\0"
        self.socket.sendall(b"Q" + struct.pack("!i", len(body) + 4) + body)
        return self.answer()

    def value(self, statement: str) -> str:
        """The one value of a statement."""
        return str(self.ask(statement)[0][0])

    def column(self, statement: str) -> List[str]:
        """The first column of a statement's rows."""
        return [str(it[0]) for it in self.ask(statement)]


def row_of(body: bytes) -> Row:
    """The values of a row."""
    row: Row = []
    at = 2
    for _ in range(struct.unpack("!h", body[:2])[0]):
        size = struct.unpack("!i", body[at : at + 4])[0]
        at += 4
        row.append(None if size < 0 else body[at : at + size].decode())
        at += max(size, 0)
    return row


def refusal_of(body: bytes) -> Refused:
    """What an error says."""
    fields = {it[:1]: it[1:].decode(errors="replace") for it in body.split(b"\0") if it}
    return Refused(fields.get(CODE, ""), fields.get(b"M", ""))
