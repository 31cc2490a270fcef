"""ACB colour books: judged, read, searched, shown and written."""

from __future__ import annotations

from array import array
from enum import IntEnum
from typing import Iterable, Iterator, NamedTuple, Optional, Sequence, Tuple

from . import raw
from ._lent import Buffer, Lent, Text, decoded, encoded, lend, place, room, run, whole
from ._records import Records
from .numbers import INKS, SPACES, Ink, Space
from .refusal import Refusal

__all__ = [
    "Book",
    "Header",
    "Swatch",
    "Tag",
    "find",
    "full_length",
    "full_name",
    "index",
    "judge",
    "page_at",
    "read",
    "record_at",
    "shown_at",
    "shown_component",
    "shown_text",
    "write",
    "write_length",
]

_WIDTH = raw.KHUYUREK_ACB_WIDTH


class Tag(IntEnum):
    """The closing tag of a book."""

    NONE = 0
    #: ``spflspot``
    SPOT = 1
    #: ``spflproc``
    PROCESS = 2


_TAGS = {int(tag): tag for tag in Tag}


class Header(NamedTuple):
    """What stands before the records, and the closing tag. Strings are whole; `shown_text` gives
    the part to show."""

    #: The book's identifier.
    identifier: int
    #: How many records a page has.
    page_size: int
    #: Which record of a page is its sample.
    page_offset: int
    #: The space of all records: RGB, CMYK or Lab.
    space: int
    #: The closing tag.
    tag: int = Tag.NONE
    #: The title.
    title: str = ""
    #: What stands before each name.
    prefix: str = ""
    #: What stands after each name.
    suffix: str = ""
    #: The description.
    description: str = ""


class Swatch(NamedTuple):
    """A record: a dummy where its name is empty."""

    #: The name, without prefix and suffix.
    name: str
    #: Six code bytes.
    code: bytes
    #: Four components as stored; the fourth is 0 save in CMYK, and may be left out there.
    components: Sequence[int]
    #: The ink that the book's closing tag states.
    ink: int = Ink.NOT_STATED

    @property
    def is_dummy(self) -> bool:
        """Whether it only fills a place on its page."""
        return not self.name


class Book(Records[Swatch]):
    """The records of an accepted book. What is asked of it does not judge the file again."""

    __slots__ = ("header", "_table", "_around")

    #: What stands before the records, and the closing tag.
    header: Header

    def __init__(self, header: Header, swatches: Iterable[Swatch], table: Sequence[int]) -> None:
        super().__init__(swatches)
        self.header = header
        # A copy, which is one of numbers of 32 bits and which nobody else has.
        self._table = array("I", table)
        self._around = (shown_text(header.prefix), shown_text(header.suffix))

    @property
    def pages(self) -> int:
        """How many pages there are."""
        return -(-len(self) // self.header.page_size)

    def shown(self, swatch: Swatch) -> Tuple[int, ...]:
        """What the components of a record show: percents in CMYK, the lightness in percent and
        signed a and b in Lab, the bytes in RGB."""
        space = self.header.space
        count = 4 if space == Space.CMYK else 3
        return tuple(
            shown_component(space, at, byte) for at, byte in enumerate(swatch.components[:count])
        )

    def full_name(self, swatch: Swatch) -> str:
        """The prefix's text, a record's name and the suffix's text."""
        prefix, suffix = self._around
        # Halves of a pair may stand in two of the parts.
        return decoded(encoded(prefix) + encoded(swatch.name) + encoded(suffix))

    def sample(self, page: int) -> Optional[int]:
        """The number of the record that a page shows: None where there is no such page, or where
        it holds dummies alone."""
        header = self.header
        found = raw.calls.khuyurek_acb_page_in(
            *lend(self._table), len(self), header.page_size, header.page_offset, place(page, "page")
        )
        return None if found.number else found.record

    def samples(self) -> Iterator[Optional[int]]:
        """The samples of all pages, in their order."""
        return (self.sample(page) for page in range(self.pages))

    def write(self) -> bytes:
        """The file written back: the same bytes."""
        return write(self.header, self)

    def __eq__(self, other: object) -> bool:
        if not isinstance(other, Book):
            return NotImplemented
        return self.header == other.header and self._records == other._records

    def __hash__(self) -> int:
        return hash((self.header, self._records))


def judge(file: Buffer) -> Tuple[int, Header]:
    """Judges a file: the number of its records, dummies too, and its header."""
    with Lent(file) as lent:
        return _accepted(lent, lent.calls.khuyurek_acb_judge(lent.at, lent.length))


def read(file: Buffer) -> Book:
    """Reads a file."""
    with Lent(file) as lent:
        count, _ = _accepted(lent, lent.calls.khuyurek_acb_judge(lent.at, lent.length))
        table = run(_WIDTH * count)
        answer = lent.calls.khuyurek_acb_read(lent.at, lent.length, *lend(table))
        _, header = _accepted(lent, answer)
        numbers = [iter(table)] * _WIDTH
        swatches = [
            Swatch(lent.units(row[0], row[1]), bytes(row[2:8]), row[8:12], INKS[row[12]])
            for row in zip(*numbers)
        ]
    return Book(header, swatches, table)


def record_at(file: Buffer, index: int) -> Swatch:
    """A record by its number, from 0. The whole file is judged first."""
    with Lent(file) as lent:
        found = lent.calls.khuyurek_acb_record_at(lent.at, lent.length, place(index, "index"))
        if found.number:
            raise Refusal(found.number, found.place)
        name = lent.units(found.name, found.units)
        return Swatch(name, bytes(found.code), tuple(found.components), INKS[found.ink])


def shown_at(file: Buffer, index: int) -> Tuple[int, ...]:
    """What the components of a record show. The whole file is judged first; of a book that was
    read, `Book.shown` gives the same."""
    with Lent(file) as lent:
        shown = lent.calls.khuyurek_acb_shown_at(lent.at, lent.length, place(index, "index"))
    if shown.number:
        raise Refusal(shown.number, shown.place)
    return tuple(shown.values[: shown.count])


def shown_component(space: int, position: int, byte: int) -> int:
    """What the byte of one component shows, by the header's space and the component's position
    in its record, from 0."""
    return raw.calls.khuyurek_acb_shown_component(
        whole(space, 16, "space"), place(position, "position"), whole(byte, 8, "byte")
    )


def shown_text(string: str) -> str:
    """The part of a header's string that is shown: what stands after the first ``=`` where it
    begins with ``$$$/`` and holds one, else all of it."""
    units = encoded(string)
    return decoded(units[raw.calls.khuyurek_acb_shown_start(units, len(units)) :])


def full_length(file: Buffer, index: int) -> int:
    """The length in bytes of a record's full name, two a unit. The whole file is judged first."""
    with Lent(file) as lent:
        full = lent.calls.khuyurek_acb_full_length(lent.at, lent.length, place(index, "index"))
    return _full(full)


def full_name(file: Buffer, index: int) -> str:
    """A record's full name: the prefix's text, the name and the suffix's text. The whole file is
    judged first; of a book that was read, `Book.full_name` gives the same."""
    with Lent(file) as lent:
        asked = (lent.at, lent.length, place(index, "index"))
        out = room(_full(lent.calls.khuyurek_acb_full_length(*asked)))
        _full(lent.calls.khuyurek_acb_full_name(*asked, *lend(out)))
    return decoded(out.tobytes())


def page_at(file: Buffer, page: int) -> int:
    """The number of the record that a page shows: refused by 12 where there is no such page, or
    where it holds dummies alone. The whole file is judged first."""
    with Lent(file) as lent:
        found = lent.calls.khuyurek_acb_page_at(lent.at, lent.length, place(page, "page"))
    if found.number:
        raise Refusal(found.number, found.place)
    return found.record


def index(file: Buffer) -> array:
    """The index of a book by the names of its records: the numbers of those that are no dummies,
    in the order of their names, unit by unit as numbers, a shorter name before a longer one that
    begins with it, and equal names by number."""
    with Lent(file) as lent:
        judged = lent.calls.khuyurek_acb_judge(lent.at, lent.length)
        entries = run(judged.count)
        built = lent.calls.khuyurek_acb_index(lent.at, lent.length, *lend(entries))
    if built.number:
        raise Refusal(built.number, built.place)
    return entries[: built.shown]


def find(file: Buffer, entries: Iterable[int], name: str) -> int:
    """The lowest record of a name, without prefix and suffix, that is no dummy: refused by 12
    where none has it. The whole file is judged first, and the index compared with it: refused
    by 5 unless it begins with the file's."""
    # A copy, since an array may be changed by another thread.
    numbers = array("I", iter(entries))
    units = array("H", encoded(name))
    # They are big-endian, and the machine is not.
    units.byteswap()
    with Lent(file) as lent:
        found = lent.calls.khuyurek_acb_find(lent.at, lent.length, *lend(numbers), *lend(units))
    if found.number:
        raise Refusal(found.number, found.place)
    return found.record


def write_length(header: Header, swatches: Iterable[Swatch]) -> int:
    """How many bytes writing takes."""
    lies, numbers, text = _laid_out(header, swatches)
    return _length(raw.calls.khuyurek_acb_length(lies, *lend(numbers), text, len(text)))


def write(header: Header, swatches: Iterable[Swatch]) -> bytes:
    """Writes a book."""
    lies, numbers, text = _laid_out(header, swatches)
    lent = (lies, *lend(numbers), text, len(text))
    out = room(_length(raw.calls.khuyurek_acb_length(*lent)))
    _length(raw.calls.khuyurek_acb_write(*lent, *lend(out)))
    return out.tobytes()


def _laid_out(header: Header, swatches: Iterable[Swatch]):
    identifier, page_size, page_offset, space, tag, *strings = header
    if len(strings) != 4:
        raise ValueError(f"{len(strings)} strings of a header in place of 4")
    numbers, text = array("I"), Text()
    lies = raw.khuyurek_acb_header(
        whole(identifier, 16, "identifier"),
        whole(page_size, 16, "page_size"),
        whole(page_offset, 16, "page_offset"),
        whole(space, 16, "space"),
        whole(tag, 32, "tag"),
        *(raw.khuyurek_text(*text.name(string)) for string in strings),
    )
    for name, code, components, ink in swatches:
        if len(code) != 6:
            raise ValueError(f"{len(code)} code bytes in place of 6")
        if len(components) not in (3, 4):
            raise ValueError(f"{len(components)} components in place of 3 or 4")
        spare = (0,) * (4 - len(components))
        numbers.extend((*text.name(name), *code, *components, *spare, ink))
    return lies, numbers, text.joined()


def _accepted(lent: Lent, answer: raw.khuyurek_acb_answer) -> Tuple[int, Header]:
    if answer.number:
        raise Refusal(answer.number, answer.place)
    lies = answer.header
    strings = (lies.title, lies.prefix, lies.suffix, lies.description)
    header = Header(
        lies.identifier,
        lies.page_size,
        lies.page_offset,
        SPACES[lies.space],
        _TAGS[lies.tag],
        *(lent.units(string.place, string.units) for string in strings),
    )
    return answer.count, header


def _full(full: raw.khuyurek_acb_full) -> int:
    if full.number:
        raise Refusal(full.number, full.place)
    return full.length


def _length(written: raw.khuyurek_length) -> int:
    if written.number:
        raise Refusal(written.number)
    return written.length
