"""Image resource blocks of Photoshop documents: judged, read, found and written."""

from __future__ import annotations

from array import array
from typing import Iterable, NamedTuple, Tuple

from . import raw
from ._lent import Buffer, Lent, Text, lend, place, room, run, whole
from ._records import Records
from .refusal import Refusal

__all__ = [
    "Block",
    "Extent",
    "Section",
    "find",
    "judge",
    "place_in",
    "read",
    "record_at",
    "section_of",
    "write",
    "write_length",
]

_WIDTH = raw.KHUYUREK_RESOURCE_WIDTH


class Block(NamedTuple):
    """A resource block."""

    #: Its ID, which another block may have too.
    id: int
    #: Its name, bytes in no stated encoding.
    name: bytes
    #: Its data.
    data: bytes


class Extent(NamedTuple):
    """Where something lies: its first byte, and how many bytes it has."""

    first: int
    length: int


class Section(Records[Block]):
    """The blocks of an accepted section."""

    __slots__ = ()

    def write(self) -> bytes:
        """The section written back: the same bytes."""
        return write(self)


def judge(section: Buffer) -> int:
    """Judges a section: the number of its blocks."""
    with Lent(section) as lent:
        return _blocks(lent.calls.khuyurek_resource_judge(lent.at, lent.length))


def read(section: Buffer) -> Section:
    """Reads a section."""
    with Lent(section) as lent:
        table = run(_WIDTH * _blocks(lent.calls.khuyurek_resource_judge(lent.at, lent.length)))
        _blocks(lent.calls.khuyurek_resource_read(lent.at, lent.length, *lend(table)))
        numbers = [iter(table)] * _WIDTH
        return Section(
            Block(id, lent.part(name, name_length), lent.part(data, data_length))
            for id, name, name_length, data, data_length in zip(*numbers)
        )


def record_at(section: Buffer, index: int) -> Block:
    """A block by its number, from 0. The whole section is judged first."""
    with Lent(section) as lent:
        found = lent.calls.khuyurek_resource_record_at(
            lent.at, lent.length, place(index, "index")
        )
        if found.number:
            raise Refusal(found.number, found.place)
        name = lent.part(found.name, found.name_length)
        return Block(found.id, name, lent.part(found.data, found.data_length))


def find(section: Buffer, id: int) -> int:
    """The number of the first block with an ID: refused by 12 where none has it."""
    with Lent(section) as lent:
        found = lent.calls.khuyurek_resource_find(lent.at, lent.length, whole(id, 16, "id"))
    if found.number:
        raise Refusal(found.number, found.place)
    return found.index


def place_in(document: Buffer) -> Extent:
    """Where the resource section of a Photoshop document lies, from its first bytes, as many as
    reach the section's end or more."""
    with Lent(document) as lent:
        found = lent.calls.khuyurek_document_resources(lent.at, lent.length)
    if found.number:
        raise Refusal(found.number, found.place)
    return Extent(found.first, found.length)


def section_of(document: Buffer) -> bytes:
    """The resource section of a Photoshop document, from its first bytes."""
    first, length = place_in(document)
    with Lent(document) as lent:
        return lent.part(first, length)


def write_length(blocks: Iterable[Block]) -> int:
    """How many bytes writing takes."""
    numbers, text = _laid_out(blocks)
    return _length(raw.calls.khuyurek_resource_length(*lend(numbers), text, len(text)))


def write(blocks: Iterable[Block]) -> bytes:
    """Writes a section."""
    numbers, text = _laid_out(blocks)
    lent = (*lend(numbers), text, len(text))
    out = room(_length(raw.calls.khuyurek_resource_length(*lent)))
    _length(raw.calls.khuyurek_resource_write(*lent, *lend(out)))
    return out.tobytes()


def _laid_out(blocks: Iterable[Block]) -> Tuple[array, bytes]:
    numbers, text = array("I"), Text()
    for id, name, data in blocks:
        with Lent(name) as a, Lent(data) as b:
            name, data = a.part(0, a.length), b.part(0, b.length)
        numbers.extend((id, text.add(name), len(name), text.add(data), len(data)))
    return numbers, text.joined()


def _blocks(answer: raw.khuyurek_resource_answer) -> int:
    if answer.number:
        raise Refusal(answer.number, answer.place)
    return answer.blocks


def _length(written: raw.khuyurek_length) -> int:
    if written.number:
        raise Refusal(written.number)
    return written.length
