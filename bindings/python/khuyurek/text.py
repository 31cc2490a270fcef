"""Names as text for people."""

from __future__ import annotations

from array import array

from . import raw
from ._lent import Buffer, Lent, encoded, lend, place, room
from .refusal import Refusal

__all__ = ["name_at", "printable"]


def printable(name: str) -> str:
    """A name with U+FFFD for each surrogate that is not one of a pair, so that it can be encoded
    as UTF-8."""
    units = array("H", encoded(name))
    # They are big-endian, and the machine is not.
    units.byteswap()
    # As much as the units can need, so that they are read once.
    out = room(3 * len(units))
    return _utf8(raw.calls.khuyurek_utf8(*lend(units), *lend(out)), out)


def name_at(file: Buffer, at: int, units: int) -> str:
    """So many units of a file from a place on, as `printable` would have them: for names whose
    places `raw` gave. Refused by 2 where the file does not have them."""
    at, units = place(at, "at"), place(units, "units")
    with Lent(file) as lent:
        needed = lent.calls.khuyurek_name_utf8_length(lent.at, lent.length, at, units)
        if needed.number:
            raise Refusal(needed.number)
        out = room(needed.length)
        return _utf8(
            lent.calls.khuyurek_name_utf8(lent.at, lent.length, at, units, *lend(out)), out
        )


def _utf8(written: raw.khuyurek_length, out: array) -> str:
    if written.number:
        raise Refusal(written.number)
    return out[: written.length].tobytes().decode("utf-8")
