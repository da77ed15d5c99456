"""Dossiers put together from records and from pieces, for tests."""

from typing import NamedTuple, Optional


class Corner(NamedTuple):
    """A dossier in pieces, each some bytes and how often; and its line, where that is written down by hand."""
    name: str
    pieces: list
    known: Optional[str] = None

    def data(self):
        """The whole dossier."""
        return b"".join(piece * times for piece, times in self.pieces)

    def shown(self):
        """The dossier as it is printed: pieces in hexadecimal joined by +, HEX*N for one N times over, - for none."""
        pieces = [piece.hex() + (f"*{times}" if times != 1 else "") for piece, times in self.pieces if piece and times]
        return "+".join(pieces) or "-"


def shown_data(text):
    """The bytes that a shown dossier stands for."""
    if text == "-":
        return b""
    parts = [piece.partition("*") for piece in text.split("+")]
    return b"".join(bytes.fromhex(piece) * int(times or 1) for piece, _, times in parts)


def corner(name, data, known=None):
    """A corner in one piece."""
    return Corner(name, [(data, 1)], known)


def record(kind, body=b""):
    """The bytes of one record."""
    return len(body).to_bytes(2, "little") + kind.to_bytes(2, "little") + bytes(body)


def joined(records):
    """The bytes of a list of records, each a kind and a body."""
    return b"".join(record(kind, body) for kind, body in records)


def parted(data):
    """The records of a dossier in form."""
    records = []
    while data:
        length = int.from_bytes(data[:2], "little")
        records.append((int.from_bytes(data[2:4], "little"), data[4:4 + length]))
        data = data[4 + length:]
    return records


def place_of(records, index):
    """Where a record begins."""
    return len(joined(records[:index]))


def with_body(records, index, body):
    """The bytes of the records with another body for one of them."""
    return joined(records[:index] + [(records[index][0], bytes(body))] + records[index + 1:])


def with_kind(records, index, kind):
    """The bytes of the records with another kind for one of them."""
    return joined(records[:index] + [(kind, records[index][1])] + records[index + 1:])
