"""Refusals."""

from __future__ import annotations

from . import raw
from ._lent import lend, room

def _sentence(number: int) -> str:
    out = room(raw.KHUYUREK_SENTENCE)
    written = raw.calls.khuyurek_refusal_sentence(number, *lend(out))
    if written.number:
        raise ImportError(f"the library has no sentence for the refusal {number}")
    return out[: written.length].tobytes().decode("ascii")


#: What the table of refusals says of each number, 0 to 14: the library's own sentences.
SENTENCES = tuple(map(_sentence, range(15)))


class Refusal(Exception):
    """Why a call was refused. Nothing that was handed over has changed.

    It is no ``ValueError``: those, ``TypeError`` and ``OverflowError`` come of arguments that
    no file or record could have, and a refusal of what stands in one.
    """

    #: The number in the table of refusals, 1 to 14.
    number: int
    #: Where the offending field begins, in bytes from 0; of a run that is converted the
    #: position of the refused element. 0 for 1, 11, 12 and 14, and of a writer.
    place: int
    #: For 7 the first differing record of the two lists of an ACO file, from 0; else 0.
    record: int
    #: For 7 the first differing field of that record: 0 the space, 1 to 4 the samples; 5 is the
    #: count of list 2. Else 0.
    field: int
    #: Of two palettes that are compared the refused one, 1 or 2; else 0.
    file: int
    #: Whether ``place`` is one of the keys that were looked for, and not of the file.
    in_keys: bool

    def __init__(
        self,
        number: int,
        place: int = 0,
        record: int = 0,
        field: int = 0,
        file: int = 0,
        in_keys: bool = False,
    ) -> None:
        super().__init__(number, place, record, field, file, in_keys)
        self.number = number
        self.place = place
        self.record = record
        self.field = field
        self.file = file
        self.in_keys = in_keys

    @property
    def sentence(self) -> str:
        """What the table of refusals says of the number."""
        return SENTENCES[self.number]

    def __str__(self) -> str:
        which = {0: "", 1: "first file: ", 2: "second file: "}[self.file]
        where = " of the keys" if self.in_keys else ""
        shown = f"{which}refused {self.number} at {self.place}{where}: {self.sentence}"
        if self.number == 7:
            shown += f" (record {self.record}, field {self.field})"
        return shown

    def __repr__(self) -> str:
        return f"<{type(self).__name__} {self}>"

    def __eq__(self, other: object) -> bool:
        return self.args == other.args if isinstance(other, Refusal) else NotImplemented

    def __hash__(self) -> int:
        return hash(self.args)
