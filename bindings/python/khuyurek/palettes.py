"""Two palettes compared by position."""

from __future__ import annotations

from enum import IntEnum
from typing import NamedTuple

from . import raw
from ._lent import Buffer, Lent, calls_with, lend, run, whole
from ._records import Records
from .numbers import Kind
from .refusal import Refusal

__all__ = ["Comparison", "Difference", "Position", "compare"]


class Difference(IntEnum):
    """What a position shows."""

    SAME = raw.KHUYUREK_SAME
    NAME = raw.KHUYUREK_NAME_DIFFERS
    COLOUR = raw.KHUYUREK_COLOUR_DIFFERS
    BOTH = raw.KHUYUREK_BOTH_DIFFER
    ONLY_FIRST = raw.KHUYUREK_ONLY_FIRST
    ONLY_SECOND = raw.KHUYUREK_ONLY_SECOND


_DIFFERENCES = {int(difference): difference for difference in Difference}


class Position(NamedTuple):
    """A position, from 0, and what it shows."""

    position: int
    difference: Difference


class Comparison(Records[Position]):
    """The positions of the longer palette, in their order."""

    __slots__ = ("differences",)

    #: How many positions are not the same.
    differences: int

    def __init__(self, positions, differences: int) -> None:
        super().__init__(positions)
        self.differences = differences


def compare(first_kind: int, first: Buffer, second_kind: int, second: Buffer) -> Comparison:
    """Compares two palettes, each of the kind ACO or ASE, by position; groups are left aside.

    Colours of one format are equal when their numbers are, of two formats when the ACO colour
    converts to the very same bits. A refusal says by ``file`` which palette is refused.
    """
    first_kind = whole(first_kind, 32, "kind")
    second_kind = whole(second_kind, 32, "kind")
    with Lent(first) as one, Lent(second) as other:
        calls = calls_with(one, other)
        colours = max(_colours(calls, first_kind, one), _colours(calls, second_kind, other))
        table = run(raw.KHUYUREK_COMPARE_WIDTH * colours)
        answer = calls.khuyurek_compare(
            first_kind, one.at, one.length, second_kind, other.at, other.length, *lend(table)
        )
    if answer.number:
        raise Refusal(answer.number, answer.place, answer.record, answer.field, answer.file)
    numbers = iter(table)
    positions = (Position(at, _DIFFERENCES[kind]) for at, kind in zip(numbers, numbers))
    return Comparison(positions, answer.differences)


def _colours(calls, kind: int, lent: Lent) -> int:
    """How many colours a palette has: none where it is refused, or no palette."""
    if kind == Kind.ACO:
        return calls.khuyurek_aco_judge(lent.at, lent.length).colours
    if kind == Kind.ASE:
        return calls.khuyurek_ase_judge(lent.at, lent.length).colours
    return 0
