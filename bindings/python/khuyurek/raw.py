"""The calls of ``include/khuyurek.h`` as they are: for a program that lends its own tables.

Names, fields and numbers are the header's. What a caller owes there a caller owes here: so
many elements are there for the whole call, nothing that is written overlaps anything else,
and no other thread changes what is lent. A buffer is handed over as ``bytes`` (to be read
only), as an array of ctypes, or by its address, such as ``array.buffer_info()[0]``. Numbers are
cut to their fields' bits by ctypes, without a word.

The modules beside this one owe nothing, and use these calls with care.
"""

from __future__ import annotations

import ctypes
import ctypes.util
import os
from ctypes import (
    Structure,
    c_int32,
    c_size_t,
    c_uint8,
    c_uint16,
    c_uint32,
    c_uint64,
    c_void_p,
)
from pathlib import Path
from types import SimpleNamespace
from typing import Dict, List, Tuple

# ---- numbers of the header

KHUYUREK_ACCEPTED = 0
KHUYUREK_TOO_LONG = 1
KHUYUREK_CUT = 2
KHUYUREK_WRONG_MARK = 3
KHUYUREK_UNKNOWN = 4
KHUYUREK_OUT_OF_RANGE = 5
KHUYUREK_LEFT_OVER = 6
KHUYUREK_LISTS_DISAGREE = 7
KHUYUREK_BADLY_CLOSED = 8
KHUYUREK_UNBALANCED = 9
KHUYUREK_TOO_DEEP = 10
KHUYUREK_NO_ROOM = 11
KHUYUREK_NO_RECORD = 12
KHUYUREK_LENGTH_DISAGREES = 13
KHUYUREK_NO_COUNTERPART = 14

KHUYUREK_LIMIT = 16_777_216
KHUYUREK_VERSION = 3

KHUYUREK_INK_GLOBAL = 0
KHUYUREK_INK_SPOT = 1
KHUYUREK_INK_NORMAL = 2
KHUYUREK_INK_PROCESS = 3
KHUYUREK_INK_NOT_STATED = 4

KHUYUREK_ACO_WIDTH = 8
KHUYUREK_ACO_STORE = 40_960
KHUYUREK_ASE_WIDTH = 9
KHUYUREK_ASE_START = 0xC001
KHUYUREK_ASE_STOP = 0xC002
KHUYUREK_ASE_COLOUR = 0x0001
KHUYUREK_ACB_WIDTH = 13
KHUYUREK_ACB_INDEX_WIDTH = 1
KHUYUREK_RESOURCE_WIDTH = 5
KHUYUREK_DESCRIPTOR_ENTRY = 16

KHUYUREK_RGB = 0x5247_4220
KHUYUREK_CMYK = 0x434D_594B
KHUYUREK_LAB = 0x4C41_4220
KHUYUREK_GRAY = 0x4772_6179

KHUYUREK_SENTENCE = 68

KHUYUREK_ACO = 0
KHUYUREK_ASE = 1
KHUYUREK_ACB = 2
KHUYUREK_DESCRIPTOR = 3

KHUYUREK_COMPARE_WIDTH = 2
KHUYUREK_SAME = 0
KHUYUREK_NAME_DIFFERS = 1
KHUYUREK_COLOUR_DIFFERS = 2
KHUYUREK_BOTH_DIFFER = 3
KHUYUREK_ONLY_FIRST = 4
KHUYUREK_ONLY_SECOND = 5

# ---- pointers


class _Read(c_void_p):
    """A buffer that is only read."""

    @classmethod
    def from_param(cls, value):
        if value is None or isinstance(value, str):
            raise TypeError(f"a buffer is asked for, not {value!r}")
        return super().from_param(value)


class _Written(c_void_p):
    """A buffer that is written."""

    @classmethod
    def from_param(cls, value):
        if value is None or isinstance(value, (str, bytes)):
            raise TypeError(f"a buffer to be written is asked for, not {type(value).__name__}")
        return super().from_param(value)


class const_uint8_p(_Read):
    """``const uint8_t *``"""


class const_uint16_p(_Read):
    """``const uint16_t *``"""


class const_uint32_p(_Read):
    """``const uint32_t *``"""


class uint8_p(_Written):
    """``uint8_t *``"""


class uint16_p(_Written):
    """``uint16_t *``"""


class uint32_p(_Written):
    """``uint32_t *``"""


# ---- structs


class khuyurek_length(Structure):
    _fields_ = [("number", c_uint32), ("length", c_size_t)]


class khuyurek_aco_answer(Structure):
    _fields_ = [
        ("number", c_uint32),
        ("place", c_size_t),
        ("record", c_size_t),
        ("field", c_size_t),
        ("colours", c_size_t),
        ("lists", c_size_t),
    ]


class khuyurek_aco_record(Structure):
    _fields_ = [
        ("number", c_uint32),
        ("units", c_uint32),
        ("place", c_size_t),
        ("record", c_size_t),
        ("field", c_size_t),
        ("name", c_size_t),
        ("space", c_uint16),
        ("samples", c_uint16 * 4),
        ("ink", c_uint32),
    ]


class khuyurek_channel(Structure):
    _fields_ = [("number", c_uint32), ("bits", c_uint32)]


class khuyurek_sample(Structure):
    _fields_ = [("number", c_uint32), ("sample", c_uint16)]


class khuyurek_aco_stream(Structure):
    _fields_ = [
        ("total", c_size_t),
        ("got", c_size_t),
        ("place", c_size_t),
        ("stage", c_uint32),
        ("ended", c_uint32),
        ("number", c_uint32),
        ("at", c_uint32),
        ("left", c_uint32),
        ("zero", c_uint32),
        ("count", c_uint16),
        ("index", c_uint16),
        ("record", c_uint16),
        ("field", c_uint16),
        ("carry", c_uint8 * 16),
    ]


class khuyurek_aco_fed(Structure):
    _fields_ = [("number", c_uint32), ("stream", khuyurek_aco_stream)]


class khuyurek_aco_finished(Structure):
    _fields_ = [("answer", khuyurek_aco_answer), ("stream", khuyurek_aco_stream)]


class khuyurek_ase_answer(Structure):
    _fields_ = [
        ("number", c_uint32),
        ("place", c_size_t),
        ("blocks", c_size_t),
        ("colours", c_size_t),
    ]


class khuyurek_ase_record(Structure):
    _fields_ = [
        ("number", c_uint32),
        ("block", c_uint32),
        ("place", c_size_t),
        ("name", c_size_t),
        ("units", c_uint32),
        ("model", c_uint32),
        ("channels", c_uint32 * 4),
        ("ink", c_uint32),
    ]


class khuyurek_text(Structure):
    _fields_ = [("place", c_size_t), ("units", c_uint32)]


class khuyurek_acb_header(Structure):
    _fields_ = [
        ("identifier", c_uint16),
        ("page_size", c_uint16),
        ("page_offset", c_uint16),
        ("space", c_uint16),
        ("tag", c_uint32),
        ("title", khuyurek_text),
        ("prefix", khuyurek_text),
        ("suffix", khuyurek_text),
        ("description", khuyurek_text),
    ]


class khuyurek_acb_answer(Structure):
    _fields_ = [
        ("number", c_uint32),
        ("place", c_size_t),
        ("count", c_size_t),
        ("header", khuyurek_acb_header),
    ]


class khuyurek_acb_record(Structure):
    _fields_ = [
        ("number", c_uint32),
        ("units", c_uint32),
        ("place", c_size_t),
        ("name", c_size_t),
        ("code", c_uint8 * 6),
        ("components", c_uint8 * 4),
        ("ink", c_uint32),
    ]


class khuyurek_acb_shown(Structure):
    _fields_ = [
        ("number", c_uint32),
        ("count", c_uint32),
        ("place", c_size_t),
        ("values", c_int32 * 4),
    ]


class khuyurek_acb_full(Structure):
    _fields_ = [("number", c_uint32), ("length", c_size_t), ("place", c_size_t)]


class khuyurek_acb_page(Structure):
    _fields_ = [("number", c_uint32), ("record", c_size_t), ("place", c_size_t)]


class khuyurek_acb_indexed(Structure):
    _fields_ = [("number", c_uint32), ("place", c_size_t), ("shown", c_size_t)]


class khuyurek_acb_found(Structure):
    _fields_ = [("number", c_uint32), ("place", c_size_t), ("record", c_size_t)]


class khuyurek_resource_answer(Structure):
    _fields_ = [("number", c_uint32), ("place", c_size_t), ("blocks", c_size_t)]


class khuyurek_resource_record(Structure):
    _fields_ = [
        ("number", c_uint32),
        ("id", c_uint32),
        ("place", c_size_t),
        ("name", c_size_t),
        ("name_length", c_size_t),
        ("data", c_size_t),
        ("data_length", c_size_t),
    ]


class khuyurek_resource_found(Structure):
    _fields_ = [("number", c_uint32), ("place", c_size_t), ("index", c_size_t)]


class khuyurek_section(Structure):
    _fields_ = [
        ("number", c_uint32),
        ("place", c_size_t),
        ("first", c_size_t),
        ("length", c_size_t),
    ]


class khuyurek_descriptor_answer(Structure):
    _fields_ = [("number", c_uint32), ("place", c_size_t), ("rows", c_size_t)]


class khuyurek_descriptor_value(Structure):
    _fields_ = [
        ("number", c_uint32),
        ("place", c_size_t),
        ("first", c_size_t),
        ("length", c_size_t),
    ]


class khuyurek_descriptor_typed(Structure):
    _fields_ = [
        ("number", c_uint32),
        ("kind", c_uint32),
        ("place", c_size_t),
        ("unit", c_uint32),
        ("bits", c_uint64),
    ]


class khuyurek_parents(Structure):
    _fields_ = [("number", c_uint32), ("rows", c_size_t)]


class khuyurek_found(Structure):
    _fields_ = [
        ("number", c_uint32),
        ("in_keys", c_uint32),
        ("place", c_size_t),
        ("keys", c_size_t),
    ]


class khuyurek_aco_start(Structure):
    _fields_ = [
        ("number", c_uint32),
        ("place", c_size_t),
        ("record", c_size_t),
        ("field", c_size_t),
        ("at", c_size_t),
    ]


class khuyurek_aco_step(Structure):
    _fields_ = [
        ("number", c_uint32),
        ("done", c_uint32),
        ("next", c_size_t),
        ("name", c_size_t),
        ("units", c_uint32),
        ("space", c_uint16),
        ("samples", c_uint16 * 4),
        ("ink", c_uint32),
    ]


class khuyurek_ase_start(Structure):
    _fields_ = [("number", c_uint32), ("place", c_size_t), ("at", c_size_t)]


class khuyurek_ase_step(Structure):
    _fields_ = [
        ("number", c_uint32),
        ("done", c_uint32),
        ("block", c_uint32),
        ("units", c_uint32),
        ("next", c_size_t),
        ("name", c_size_t),
        ("model", c_uint32),
        ("channels", c_uint32 * 4),
        ("ink", c_uint32),
    ]


class khuyurek_tray(Structure):
    _fields_ = [("number", c_uint32), ("position", c_size_t)]


class khuyurek_compared(Structure):
    _fields_ = [
        ("number", c_uint32),
        ("file", c_uint32),
        ("place", c_size_t),
        ("record", c_size_t),
        ("field", c_size_t),
        ("positions", c_size_t),
        ("differences", c_size_t),
    ]


class khuyurek_report(Structure):
    _fields_ = [("totals", c_uint32 * 31)]


class khuyurek_reported(Structure):
    _fields_ = [
        ("number", c_uint32),
        ("file_number", c_uint32),
        ("file_place", c_size_t),
        ("report", khuyurek_report),
    ]


class khuyurek_merged(Structure):
    _fields_ = [("number", c_uint32), ("report", khuyurek_report)]


# ---- functions: what each answers and takes

_BYTES = (const_uint8_p, c_size_t)
_UNITS = (const_uint16_p, c_size_t)
_RUN = (const_uint32_p, c_size_t)
_BYTES_OUT = (uint8_p, c_size_t)
_UNITS_OUT = (uint16_p, c_size_t)
_RUN_OUT = (uint32_p, c_size_t)

FUNCTIONS: Dict[str, Tuple[type, Tuple[type, ...]]] = {
    "khuyurek_aco_judge": (khuyurek_aco_answer, _BYTES),
    "khuyurek_aco_read": (khuyurek_aco_answer, _BYTES + _RUN_OUT),
    "khuyurek_aco_record_at": (khuyurek_aco_record, _BYTES + (c_size_t,)),
    "khuyurek_aco_length": (khuyurek_length, _RUN + _BYTES),
    "khuyurek_aco_write": (khuyurek_length, _RUN + _BYTES + _BYTES_OUT),
    "khuyurek_aco_stream_start": (khuyurek_aco_fed, _BYTES),
    "khuyurek_aco_stream_feed": (
        khuyurek_aco_fed,
        (khuyurek_aco_stream,) + _BYTES_OUT + _BYTES,
    ),
    "khuyurek_aco_stream_finish": (khuyurek_aco_finished, (khuyurek_aco_stream,) + _BYTES),
    "khuyurek_ase_judge": (khuyurek_ase_answer, _BYTES),
    "khuyurek_ase_read": (khuyurek_ase_answer, _BYTES + _RUN_OUT),
    "khuyurek_ase_record_at": (khuyurek_ase_record, _BYTES + (c_size_t,)),
    "khuyurek_ase_length": (khuyurek_length, _RUN + _BYTES),
    "khuyurek_ase_write": (khuyurek_length, _RUN + _BYTES + _BYTES_OUT),
    "khuyurek_acb_judge": (khuyurek_acb_answer, _BYTES),
    "khuyurek_acb_read": (khuyurek_acb_answer, _BYTES + _RUN_OUT),
    "khuyurek_acb_record_at": (khuyurek_acb_record, _BYTES + (c_size_t,)),
    "khuyurek_acb_shown_start": (c_size_t, _BYTES),
    "khuyurek_acb_shown_at": (khuyurek_acb_shown, _BYTES + (c_size_t,)),
    "khuyurek_acb_full_length": (khuyurek_acb_full, _BYTES + (c_size_t,)),
    "khuyurek_acb_full_name": (khuyurek_acb_full, _BYTES + (c_size_t,) + _BYTES_OUT),
    "khuyurek_acb_page_at": (khuyurek_acb_page, _BYTES + (c_size_t,)),
    "khuyurek_acb_shown_component": (c_int32, (c_uint16, c_size_t, c_uint8)),
    "khuyurek_acb_page_in": (
        khuyurek_acb_page,
        _RUN + (c_size_t, c_uint16, c_uint16, c_size_t),
    ),
    "khuyurek_acb_index": (khuyurek_acb_indexed, _BYTES + _RUN_OUT),
    "khuyurek_acb_find": (khuyurek_acb_found, _BYTES + _RUN + _UNITS),
    "khuyurek_acb_length": (khuyurek_length, (khuyurek_acb_header,) + _RUN + _BYTES),
    "khuyurek_acb_write": (
        khuyurek_length,
        (khuyurek_acb_header,) + _RUN + _BYTES + _BYTES_OUT,
    ),
    "khuyurek_resource_judge": (khuyurek_resource_answer, _BYTES),
    "khuyurek_resource_read": (khuyurek_resource_answer, _BYTES + _RUN_OUT),
    "khuyurek_resource_record_at": (khuyurek_resource_record, _BYTES + (c_size_t,)),
    "khuyurek_resource_find": (khuyurek_resource_found, _BYTES + (c_uint16,)),
    "khuyurek_resource_length": (khuyurek_length, _RUN + _BYTES),
    "khuyurek_resource_write": (khuyurek_length, _RUN + _BYTES + _BYTES_OUT),
    "khuyurek_document_resources": (khuyurek_section, _BYTES),
    "khuyurek_descriptor_judge": (khuyurek_descriptor_answer, _BYTES),
    "khuyurek_descriptor_read": (khuyurek_descriptor_answer, _BYTES + 5 * _RUN_OUT),
    "khuyurek_descriptor_values": (khuyurek_descriptor_answer, _BYTES + _RUN_OUT),
    "khuyurek_descriptor_parents": (khuyurek_parents, _RUN + _RUN_OUT),
    "khuyurek_descriptor_find": (khuyurek_found, _BYTES + 5 * _RUN + _BYTES + _RUN_OUT),
    "khuyurek_descriptor_replace": (
        khuyurek_length,
        _BYTES + 5 * _RUN + (c_size_t, c_uint32, c_uint32, c_uint64) + _BYTES_OUT,
    ),
    "khuyurek_descriptor_build_length": (khuyurek_length, _RUN + _BYTES),
    "khuyurek_descriptor_build": (khuyurek_length, _RUN + _BYTES + _BYTES_OUT),
    "khuyurek_descriptor_entries": (khuyurek_descriptor_answer, _BYTES + _RUN_OUT),
    "khuyurek_descriptor_value_at": (khuyurek_descriptor_value, _BYTES + (c_size_t,)),
    "khuyurek_descriptor_typed_at": (khuyurek_descriptor_typed, _BYTES + (c_size_t,)),
    "khuyurek_aco_walk_start": (khuyurek_aco_start, _BYTES),
    "khuyurek_aco_walk": (khuyurek_aco_step, _BYTES + (c_size_t,)),
    "khuyurek_ase_walk_start": (khuyurek_ase_start, _BYTES),
    "khuyurek_ase_walk": (khuyurek_ase_step, _BYTES + (c_size_t,)),
    "khuyurek_ase_walk_block": (khuyurek_ase_step, _BYTES + (c_size_t,)),
    "khuyurek_to_channel": (khuyurek_channel, (c_uint16, c_uint16)),
    "khuyurek_to_sample": (khuyurek_sample, (c_uint32, c_uint32)),
    "khuyurek_to_channels": (khuyurek_tray, (c_uint16,) + _UNITS + _RUN_OUT),
    "khuyurek_to_samples": (khuyurek_tray, (c_uint32,) + _RUN + _UNITS_OUT),
    "khuyurek_name_utf8_length": (khuyurek_length, _BYTES + (c_size_t, c_size_t)),
    "khuyurek_name_utf8": (khuyurek_length, _BYTES + (c_size_t, c_size_t) + _BYTES_OUT),
    "khuyurek_utf8_length": (khuyurek_length, _UNITS),
    "khuyurek_utf8": (khuyurek_length, _UNITS + _BYTES_OUT),
    "khuyurek_refusal_sentence": (khuyurek_length, (c_uint32,) + _BYTES_OUT),
    "khuyurek_compare": (
        khuyurek_compared,
        (c_uint32,) + _BYTES + (c_uint32,) + _BYTES + _RUN_OUT,
    ),
    "khuyurek_report_add": (khuyurek_reported, (khuyurek_report, c_uint32) + _BYTES),
    "khuyurek_report_merge": (khuyurek_merged, (khuyurek_report, khuyurek_report)),
}

# ---- the shared library

_NAME = "libkhuyurek.so"


def _candidates() -> List[str]:
    """Where the shared library is looked for, the first that is there."""
    given = os.environ.get("KHUYUREK_LIBRARY")
    if given:
        # Asked for by name: no other stands in for it.
        return [given]
    here = Path(__file__).resolve().parent
    beside = [here / _NAME, here.parent / _NAME]
    found = [str(path) for path in beside if path.is_file()]
    known = ctypes.util.find_library("khuyurek")
    return found + ([known] if known else [])


def _loaded(path: str, kind: type) -> ctypes.CDLL:
    try:
        library = kind(path)
    except OSError as error:
        raise ImportError(f"the shared library of Khuyurek cannot be loaded: {error}") from error
    try:
        version = c_uint32.in_dll(library, "khuyurek_version").value
        if version != KHUYUREK_VERSION:
            raise ImportError(
                f"{path} is of version {version} of the interface, and not {KHUYUREK_VERSION}:"
                " build it again, by bindings/python/build"
            )
        for name, (answer, parameters) in FUNCTIONS.items():
            function = getattr(library, name)
            function.restype = answer
            function.argtypes = parameters
    except (AttributeError, ValueError) as error:
        raise ImportError(f"{path} is no library of this version of Khuyurek: {error}") from error
    return library


def _calls(library: ctypes.CDLL) -> SimpleNamespace:
    return SimpleNamespace(**{name: getattr(library, name) for name in FUNCTIONS})


_found = _candidates()
if not _found:
    raise ImportError(
        f"there is no {_NAME}: build it by bindings/python/build, or name it in KHUYUREK_LIBRARY"
    )

#: The file that was loaded.
LIBRARY = _found[0]

#: The calls. Other threads of Python go on during one.
calls = _calls(_loaded(LIBRARY, ctypes.CDLL))

#: The same calls, during which every other thread of Python waits: for buffers that
#: one of them could change.
held = _calls(_loaded(LIBRARY, ctypes.PyDLL))

globals().update(vars(calls))
