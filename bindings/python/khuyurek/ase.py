"""ASE palettes: judged, read, walked and written."""

from __future__ import annotations

from array import array
from struct import pack, unpack
from typing import Iterable, Iterator, NamedTuple, Optional, Sequence, Tuple, Union

from . import raw
from ._lent import Buffer, Lent, Text, lend, place, reals, room, run
from ._records import Records
from .numbers import CHANNELS, INKS, MODELS, Ink
from .refusal import Refusal

__all__ = [
    "Block",
    "Colour",
    "Counts",
    "Palette",
    "Start",
    "Stop",
    "block_at",
    "judge",
    "read",
    "record_at",
    "start_at",
    "step_at",
    "walk",
    "walk_blocks",
    "write",
    "write_length",
]

_WIDTH = raw.KHUYUREK_ASE_WIDTH


class Counts(NamedTuple):
    """What an accepted file holds."""

    #: How many blocks: group starts, group ends and colours.
    blocks: int
    #: How many of them are colours.
    colours: int


class Start(NamedTuple):
    """A group starts."""

    #: The group's name.
    name: str


class Stop(NamedTuple):
    """The innermost group ends."""


class Colour(NamedTuple):
    """A colour and its name."""

    #: The name.
    name: str
    #: The model, by its tag.
    model: int
    #: As many channels as the model has, 3 in RGB and Lab, 4 in CMYK, 1 in gray. Those of a file
    #: are exact; in a colour to be written each is rounded to the nearest float of 32 bits.
    channels: Sequence[float]
    #: Its ink: global, spot or normal in a file.
    ink: int = Ink.GLOBAL


#: A block of a palette.
Block = Union[Start, Stop, Colour]


class Palette(Records[Block]):
    """The blocks of an accepted file."""

    __slots__ = ()

    def colours(self) -> Iterator[Colour]:
        """The colours among them."""
        return (block for block in self if isinstance(block, Colour))

    def write(self) -> bytes:
        """The file written back: the same bytes."""
        return write(self)


def judge(file: Buffer) -> Counts:
    """Judges a file."""
    with Lent(file) as lent:
        return _counts(lent.calls.khuyurek_ase_judge(lent.at, lent.length))


def read(file: Buffer) -> Palette:
    """Reads a file."""
    with Lent(file) as lent:
        counts = _counts(lent.calls.khuyurek_ase_judge(lent.at, lent.length))
        table = run(_WIDTH * counts.blocks)
        _counts(lent.calls.khuyurek_ase_read(lent.at, lent.length, *lend(table)))
        numbers = [iter(table)] * _WIDTH
        return Palette(
            _block(lent, kind, name, units, model, channels, ink)
            for kind, name, units, model, *channels, ink in zip(*numbers)
        )


def record_at(file: Buffer, index: int) -> Block:
    """A block by its number, from 0. The whole file is judged first."""
    with Lent(file) as lent:
        found = lent.calls.khuyurek_ase_record_at(lent.at, lent.length, place(index, "index"))
        if found.number:
            raise Refusal(found.number, found.place)
        return _found(lent, found)


def start_at(file: Buffer) -> int:
    """The place where a walk starts. The whole file is judged."""
    with Lent(file) as lent:
        start = lent.calls.khuyurek_ase_walk_start(lent.at, lent.length)
    if start.number:
        raise Refusal(start.number, start.place)
    return start.at


def step_at(file: Buffer, at: int) -> Optional[Tuple[Colour, int]]:
    """The first colour from a place on and the place behind it, or None where the blocks end;
    groups are passed over. A place where no block stands that the layout allows is refused by
    5."""
    with Lent(file) as lent:
        return _stepped(lent, lent.calls.khuyurek_ase_walk(lent.at, lent.length, place(at, "at")))


def block_at(file: Buffer, at: int) -> Optional[Tuple[Block, int]]:
    """The block at a place and the place behind it, or None at the end. A place where no block
    stands that the layout allows is refused by 5."""
    with Lent(file) as lent:
        step = lent.calls.khuyurek_ase_walk_block(lent.at, lent.length, place(at, "at"))
        return _stepped(lent, step)


def walk(file: Buffer) -> Iterator[Colour]:
    """The colours one after the other, without a table; groups are passed over. The whole file
    is judged first, here, and each step lends the file anew: it may be changed in between, and
    a step that then finds no block is refused by 5."""
    return _walk(step_at, file, start_at(file))


def walk_blocks(file: Buffer) -> Iterator[Block]:
    """The blocks one after the other, as `walk` gives the colours."""
    return _walk(block_at, file, start_at(file))


def _walk(step_from, file: Buffer, at: int) -> Iterator:
    step = step_from(file, at)
    while step is not None:
        found, at = step
        yield found
        step = step_from(file, at)


def write_length(blocks: Iterable[Block]) -> int:
    """How many bytes writing takes."""
    numbers, text = _laid_out(blocks)
    return _length(raw.calls.khuyurek_ase_length(*lend(numbers), text, len(text)))


def write(blocks: Iterable[Block]) -> bytes:
    """Writes a file."""
    numbers, text = _laid_out(blocks)
    lent = (*lend(numbers), text, len(text))
    out = room(_length(raw.calls.khuyurek_ase_length(*lent)))
    _length(raw.calls.khuyurek_ase_write(*lent, *lend(out)))
    return out.tobytes()


def _laid_out(blocks: Iterable[Block]) -> Tuple[array, bytes]:
    numbers, text = array("I"), Text()
    for block in blocks:
        if isinstance(block, Colour):
            name, model, channels, ink = block
            name_place, units = text.name(name)
            bits = _bits(model, channels)
            numbers.extend((raw.KHUYUREK_ASE_COLOUR, name_place, units, model, *bits, ink))
        elif isinstance(block, Start):
            numbers.extend((raw.KHUYUREK_ASE_START, *text.name(block.name), 0, 0, 0, 0, 0, 0))
        elif isinstance(block, Stop):
            numbers.extend((raw.KHUYUREK_ASE_STOP, 0, 0, 0, 0, 0, 0, 0, 0))
        else:
            raise TypeError(f"a block is a Start, a Stop or a Colour, not {type(block).__name__}")
    return numbers, text.joined()


def _bits(model: int, channels: Sequence[float]) -> Tuple[int, ...]:
    given = reals(channels)
    # Of an unknown model, which the library refuses, none is used.
    wanted = CHANNELS.get(model, len(given))
    if len(given) != wanted or wanted > 4:
        raise ValueError(f"{len(given)} channels in place of {min(wanted, 4)}")
    # OverflowError where a float of 32 bits cannot hold one.
    return unpack(f"<{wanted}I", pack(f"<{wanted}f", *given)) + (0,) * (4 - wanted)


def _counts(answer: raw.khuyurek_ase_answer) -> Counts:
    if answer.number:
        raise Refusal(answer.number, answer.place)
    return Counts(answer.blocks, answer.colours)


def _length(written: raw.khuyurek_length) -> int:
    if written.number:
        raise Refusal(written.number)
    return written.length


def _block(lent: Lent, kind: int, name: int, units: int, model: int, bits, ink: int) -> Block:
    if kind == raw.KHUYUREK_ASE_COLOUR:
        known = MODELS[model]
        channels = unpack("<4f", pack("<4I", *bits))[: CHANNELS[known]]
        return Colour(lent.units(name, units), known, channels, INKS[ink])
    if kind == raw.KHUYUREK_ASE_START:
        return Start(lent.units(name, units))
    return Stop()


def _found(lent: Lent, found) -> Block:
    bits = tuple(found.channels)
    return _block(lent, found.block, found.name, found.units, found.model, bits, found.ink)


def _stepped(lent: Lent, step: raw.khuyurek_ase_step):
    if step.number:
        raise Refusal(step.number)
    return None if step.done else (_found(lent, step), step.next)
