"""Colour files judged, read and written by a proved library.

ACO swatches (`aco`), ASE palettes (`ase`), ACB colour books (`acb`), serialized descriptors
(`descriptor`) and image resource blocks (`resource`); two palettes compared (`palettes`), totals
over files (`report`), samples and channels converted. ``docs/PYTHON.md`` has examples.

A file is ``bytes``, or any object with a contiguous buffer, such as ``bytearray``, ``memoryview``
and ``mmap``; it is not copied, and not kept. Records are named tuples of plain values, and keep
nothing of the file. Where a file or a record is refused, `Refusal` is raised, and nothing that
was handed over has changed.

Names are ``str``. Files hold UTF-16 units, in which surrogates need not be paired: one that is
not stays in the ``str`` as it is, so that each name is written back as the same units. Such a
text cannot be encoded as UTF-8; `printable` puts U+FFFD in its place.
"""

from __future__ import annotations

from . import acb, aco, ase, descriptor, palettes, report, resource
from .convert import to_channel, to_channels, to_sample, to_samples
from .numbers import Ink, Kind, Model, Space
from .raw import KHUYUREK_LIMIT as LIMIT
from .refusal import SENTENCES, Refusal
from .text import name_at, printable

__all__ = [
    "Ink",
    "Kind",
    "LIMIT",
    "Model",
    "Refusal",
    "SENTENCES",
    "Space",
    "acb",
    "aco",
    "ase",
    "descriptor",
    "name_at",
    "palettes",
    "printable",
    "report",
    "resource",
    "to_channel",
    "to_channels",
    "to_sample",
    "to_samples",
]
