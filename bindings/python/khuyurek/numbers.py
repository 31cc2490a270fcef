"""Numbers that files and calls use, by their names."""

from __future__ import annotations

from enum import IntEnum

from . import raw


class Kind(IntEnum):
    """The kinds of files, for the calls that take any of several."""

    ACO = raw.KHUYUREK_ACO
    ASE = raw.KHUYUREK_ASE
    ACB = raw.KHUYUREK_ACB
    DESCRIPTOR = raw.KHUYUREK_DESCRIPTOR


class Ink(IntEnum):
    """To which station of the press a colour goes."""

    GLOBAL = raw.KHUYUREK_INK_GLOBAL
    SPOT = raw.KHUYUREK_INK_SPOT
    NORMAL = raw.KHUYUREK_INK_NORMAL
    PROCESS = raw.KHUYUREK_INK_PROCESS
    NOT_STATED = raw.KHUYUREK_INK_NOT_STATED


class Space(IntEnum):
    """The colour spaces of ACO; a book of ACB has RGB, CMYK or Lab."""

    RGB = 0
    HSB = 1
    CMYK = 2
    LAB = 7
    GRAY = 8


class Model(IntEnum):
    """The colour models of ASE, by their tags."""

    RGB = raw.KHUYUREK_RGB
    CMYK = raw.KHUYUREK_CMYK
    LAB = raw.KHUYUREK_LAB
    GRAY = raw.KHUYUREK_GRAY


# A dictionary is a third of the time of Ink(number).
INKS = {int(ink): ink for ink in Ink}
SPACES = {int(space): space for space in Space}
MODELS = {int(model): model for model in Model}
#: How many channels a colour of a model has.
CHANNELS = {Model.RGB: 3, Model.CMYK: 4, Model.LAB: 3, Model.GRAY: 1}
