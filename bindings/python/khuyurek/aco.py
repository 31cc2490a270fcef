"""ACO swatches: judged, read, walked, written, and taken in chunks."""

from __future__ import annotations

from array import array
from struct import iter_unpack
from typing import Iterable, Iterator, NamedTuple, Optional, Tuple

from . import raw
from ._lent import Buffer, Lent, Text, lend, place, room, run
from ._records import Records
from .numbers import INKS, SPACES, Ink
from .refusal import Refusal

__all__ = [
    "Arrived",
    "Colour",
    "Counts",
    "Palette",
    "Stream",
    "Swatch",
    "judge",
    "read",
    "read_chunks",
    "record_at",
    "start_at",
    "step_at",
    "walk",
    "write",
    "write_length",
]

_WIDTH = raw.KHUYUREK_ACO_WIDTH


class Counts(NamedTuple):
    """What an accepted file holds."""

    #: How many colours.
    colours: int
    #: How many lists: 2 where the colours have names, else 1.
    lists: int


class Swatch(NamedTuple):
    """A colour and its name."""

    #: The space of the samples.
    space: int
    #: Four samples; those that the space does not use are 0. Lab's two chrominances are
    #: signed, and given as unsigned 16 bits.
    samples: Tuple[int, int, int, int]
    #: The name, empty in a file of one list.
    name: str = ""
    #: Its ink, which a file does not state.
    ink: int = Ink.NOT_STATED


class Colour(NamedTuple):
    """A colour of list 1, which has no name."""

    #: The space of the samples.
    space: int
    #: Four samples, as in `Swatch`.
    samples: Tuple[int, int, int, int]


class Palette(Records[Swatch]):
    """The swatches of an accepted file."""

    __slots__ = ("lists",)

    #: How many lists the file has: 2 where the colours have names, else 1.
    lists: int

    def __init__(self, swatches: Iterable[Swatch], lists: int) -> None:
        super().__init__(swatches)
        self.lists = lists

    def write(self) -> bytes:
        """The file written back, with both lists: of a file of two lists the same bytes."""
        return write(self)


def judge(file: Buffer) -> Counts:
    """Judges a file."""
    with Lent(file) as lent:
        return _counts(lent.calls.khuyurek_aco_judge(lent.at, lent.length))


def read(file: Buffer) -> Palette:
    """Reads a file."""
    with Lent(file) as lent:
        counts = _counts(lent.calls.khuyurek_aco_judge(lent.at, lent.length))
        table = run(_WIDTH * counts.colours)
        answer = lent.calls.khuyurek_aco_read(lent.at, lent.length, *lend(table))
        _counts(answer)
        numbers = [iter(table)] * _WIDTH
        swatches = [
            Swatch(SPACES[space], (a, b, c, d), lent.units(name, units), INKS[ink])
            for space, a, b, c, d, name, units, ink in zip(*numbers)
        ]
    return Palette(swatches, answer.lists)


def record_at(file: Buffer, index: int) -> Swatch:
    """A swatch by its number, from 0. The whole file is judged first."""
    with Lent(file) as lent:
        found = lent.calls.khuyurek_aco_record_at(lent.at, lent.length, place(index, "index"))
        if found.number:
            raise Refusal(found.number, found.place, found.record, found.field)
        return _swatch(lent, found)


def start_at(file: Buffer) -> int:
    """The place where a walk starts. The whole file is judged."""
    with Lent(file) as lent:
        start = lent.calls.khuyurek_aco_walk_start(lent.at, lent.length)
    if start.number:
        raise Refusal(start.number, start.place, start.record, start.field)
    return start.at


def step_at(file: Buffer, at: int) -> Optional[Tuple[Swatch, int]]:
    """The swatch at a place and the place of the next, or None at the end. A place where no
    colour stands that the layout allows is refused by 5."""
    with Lent(file) as lent:
        step = lent.calls.khuyurek_aco_walk(lent.at, lent.length, place(at, "at"))
        if step.number:
            raise Refusal(step.number)
        return None if step.done else (_swatch(lent, step), step.next)


def walk(file: Buffer) -> Iterator[Swatch]:
    """The swatches one after the other, without a table. The whole file is judged first, here,
    and each step lends the file anew: it may be changed in between, and a step that then finds
    no colour is refused by 5."""
    return _walk(file, start_at(file))


def _walk(file: Buffer, at: int) -> Iterator[Swatch]:
    step = step_at(file, at)
    while step is not None:
        swatch, at = step
        yield swatch
        step = step_at(file, at)


def write_length(swatches: Iterable[Swatch]) -> int:
    """How many bytes writing takes."""
    numbers, text = _laid_out(swatches)
    return _length(raw.calls.khuyurek_aco_length(*lend(numbers), text, len(text)))


def write(swatches: Iterable[Swatch]) -> bytes:
    """Writes a file of both lists."""
    numbers, text = _laid_out(swatches)
    lent = (*lend(numbers), text, len(text))
    out = room(_length(raw.calls.khuyurek_aco_length(*lent)))
    _length(raw.calls.khuyurek_aco_write(*lent, *lend(out)))
    return out.tobytes()


def _laid_out(swatches: Iterable[Swatch]) -> Tuple[array, bytes]:
    numbers, text = array("I"), Text()
    for space, (a, b, c, d), name, ink in swatches:
        numbers.extend((space, a, b, c, d, *text.name(name), ink))
    return numbers, text.joined()


def _counts(answer: raw.khuyurek_aco_answer) -> Counts:
    if answer.number:
        raise Refusal(answer.number, answer.place, answer.record, answer.field)
    return Counts(answer.colours, answer.lists)


def _length(written: raw.khuyurek_length) -> int:
    if written.number:
        raise Refusal(written.number)
    return written.length


def _swatch(lent: Lent, found) -> Swatch:
    name = lent.units(found.name, found.units)
    return Swatch(SPACES[found.space], tuple(found.samples), name, INKS[found.ink])


# ---- chunks


class Arrived(NamedTuple):
    """An accepted file that arrived in chunks."""

    #: The colours of list 1, without their names.
    colours: Tuple[Colour, ...]
    #: How many lists the file has.
    lists: int


class Stream:
    """A file that arrives in chunks, cut anywhere, chunks of no bytes among them.

    >>> stream = Stream()
    >>> stream.feed(bytes([0, 1, 0, 1, 0, 8, 39]))
    >>> stream.feed(bytes([16, 0, 0, 0, 0, 0, 0]))
    >>> stream.finish().colours
    (Colour(space=<Space.GRAY: 8>, samples=(10000, 0, 0, 0)),)
    """

    __slots__ = ("_stream", "_store")

    def __init__(self) -> None:
        self._store = room(raw.KHUYUREK_ACO_STORE)
        self._stream = raw.held.khuyurek_aco_stream_start(*lend(self._store)).stream

    @property
    def total(self) -> int:
        """How many bytes came; past the limit it stops."""
        return self._stream.total

    @property
    def store(self) -> bytes:
        """The colours of list 1 that stand whole before the first fault, ten bytes each as sent,
        and zeros behind them."""
        return self._store.tobytes()

    def feed(self, chunk: Buffer) -> None:
        """Takes a chunk, whatever stands in it. Refused by 5 once the stream has ended."""
        with Lent(chunk) as lent:
            # Held, since two threads may feed one stream.
            fed = raw.held.khuyurek_aco_stream_feed(
                self._stream, *lend(self._store), lent.at, lent.length
            )
        self._stream = fed.stream
        if fed.number:
            raise Refusal(fed.number)

    def finish(self) -> Arrived:
        """The end of the file: what reading it whole answers. Every later call is refused by 5."""
        finished = raw.held.khuyurek_aco_stream_finish(self._stream, *lend(self._store))
        self._stream = finished.stream
        counts = _counts(finished.answer)
        colours = iter_unpack(">5H", self._store[: 10 * counts.colours])
        arrived = (Colour(SPACES[space], (a, b, c, d)) for space, a, b, c, d in colours)
        return Arrived(tuple(arrived), counts.lists)


def read_chunks(chunks: Iterable[Buffer]) -> Arrived:
    """Reads a file that arrives in chunks, from any iterable of them, such as
    ``iter(lambda: connection.recv(4096), b"")``."""
    stream = Stream()
    for chunk in chunks:
        stream.feed(chunk)
    return stream.finish()
