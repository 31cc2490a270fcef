"""Totals over files of every kind."""

from __future__ import annotations

from typing import Iterable, NamedTuple, Optional, Tuple

from . import raw
from ._lent import Buffer, Lent, whole
from .refusal import Refusal

__all__ = ["Report", "Totals", "report"]


class Totals(NamedTuple):
    """Exact totals over files. A dummy of a book counts as a dummy alone."""

    accepted: int = 0
    refused_1: int = 0
    refused_2: int = 0
    refused_3: int = 0
    refused_4: int = 0
    refused_5: int = 0
    refused_6: int = 0
    refused_7: int = 0
    refused_8: int = 0
    refused_9: int = 0
    refused_10: int = 0
    refused_11: int = 0
    refused_12: int = 0
    refused_13: int = 0
    refused_14: int = 0
    aco_rgb: int = 0
    aco_hsb: int = 0
    aco_cmyk: int = 0
    aco_lab: int = 0
    aco_gray: int = 0
    ase_rgb: int = 0
    ase_cmyk: int = 0
    ase_lab: int = 0
    ase_gray: int = 0
    acb_rgb: int = 0
    acb_cmyk: int = 0
    acb_lab: int = 0
    named: int = 0
    unnamed: int = 0
    dummies: int = 0
    descriptor_rows: int = 0

    @property
    def refused(self) -> int:
        """How many files were refused, by whatever number."""
        return sum(self[1:15])


class Report:
    """A report, which begins with zeros, or with the totals given.

    >>> season = Report()
    >>> season.add(Kind.ACO, bytes([0, 1, 0, 1, 0, 8, 39, 16, 0, 0, 0, 0, 0, 0]))
    >>> season.add(Kind.ACO, b"")
    <Refusal refused 2 at 0: a field needs more bytes than remain>
    >>> season.totals.accepted, season.totals.refused, season.totals.aco_gray
    (1, 1, 1)
    """

    __slots__ = ("_report",)

    def __init__(self, totals: Iterable[int] = Totals()) -> None:
        numbers = [whole(total, 32, "total") for total in totals]
        if len(numbers) != len(Totals._fields):
            raise ValueError(f"{len(numbers)} totals in place of {len(Totals._fields)}")
        self._report = raw.khuyurek_report(type(raw.khuyurek_report().totals)(*numbers))

    @property
    def totals(self) -> Totals:
        """The totals so far."""
        return Totals(*self._report.totals)

    def add(self, kind: int, file: Buffer) -> Optional[Refusal]:
        """Adds a file's report, and gives the file's own refusal where it has one: a refused
        file adds one to its number and is no refusal of this call. That is refused by 4 for an
        unknown kind and by 5 where a total would pass 4,294,967,295; the totals then stay."""
        kind = whole(kind, 32, "kind")
        with Lent(file) as lent:
            # The report goes by value: two threads that add at once lose one file's totals.
            reported = lent.calls.khuyurek_report_add(self._report, kind, lent.at, lent.length)
        if reported.number:
            raise Refusal(reported.number)
        self._report = reported.report
        if reported.file_number:
            return Refusal(reported.file_number, reported.file_place)
        return None

    def merge(self, other: "Report") -> None:
        """Adds another report: refused by 5 where a total would pass 4,294,967,295; the totals
        then stay."""
        if not isinstance(other, Report):
            raise TypeError(f"a Report is asked for, not {type(other).__name__}")
        merged = raw.calls.khuyurek_report_merge(self._report, other._report)
        if merged.number:
            raise Refusal(merged.number)
        self._report = merged.report

    def __eq__(self, other: object) -> bool:
        return self.totals == other.totals if isinstance(other, Report) else NotImplemented

    __hash__ = None  # type: ignore[assignment]

    def __repr__(self) -> str:
        shown = (f"{name}={total}" for name, total in zip(Totals._fields, self.totals) if total)
        return f"<Report {' '.join(shown) or 'of no file'}>"


def report(files: Iterable[Tuple[int, Buffer]]) -> Totals:
    """The totals over files, each with its kind."""
    whole_report = Report()
    for kind, file in files:
        whole_report.add(kind, file)
    return whole_report.totals
