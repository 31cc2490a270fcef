"""Samples of ACO and channels of ASE, exactly."""

from __future__ import annotations

from array import array
from struct import pack, unpack
from typing import Iterable

from . import raw
from ._lent import lend, reals, run, whole
from .refusal import Refusal

__all__ = ["to_channel", "to_channels", "to_sample", "to_samples"]


def to_channel(space: int, sample: int) -> float:
    """The channel, from 0 to 1, of a sample: refused by 4 for an unknown space, 5 for gray
    above 10,000, 14 for HSB and Lab."""
    answer = raw.calls.khuyurek_to_channel(whole(space, 16, "space"), whole(sample, 16, "sample"))
    if answer.number:
        raise Refusal(answer.number)
    return unpack("<f", pack("<I", answer.bits))[0]


def to_sample(model: int, channel: float) -> int:
    """The sample nearest to a channel, which is first rounded to the nearest float of 32 bits:
    refused by 4 for an unknown model, 5 for a channel that is not finite, or outside 0 to 1
    save in Lab, then 14 for Lab."""
    bits = unpack("<I", pack("<f", *reals([channel])))[0]
    answer = raw.calls.khuyurek_to_sample(whole(model, 32, "model"), bits)
    if answer.number:
        raise Refusal(answer.number)
    return answer.sample


def to_channels(space: int, samples: Iterable[int]) -> array:
    """The channels of a run of samples, as an array of floats of 32 bits. A refusal is the first
    refused sample's, with its position as ``place``."""
    given = array("H", iter(samples))
    bits = run(len(given))
    answer = raw.calls.khuyurek_to_channels(whole(space, 16, "space"), *lend(given), *lend(bits))
    if answer.number:
        raise Refusal(answer.number, answer.position)
    return array("f", bits.tobytes())


def to_samples(model: int, channels: Iterable[float]) -> array:
    """The samples of a run of channels, as an array of numbers of 16 bits. A refusal is the first
    refused channel's, with its position as ``place``; each is rounded as by `to_sample`."""
    given = reals(channels)
    bits = array("I", pack(f"<{len(given)}f", *given))
    samples = array("H", bytes(2 * len(bits)))
    answer = raw.calls.khuyurek_to_samples(
        whole(model, 32, "model"), *lend(bits), *lend(samples)
    )
    if answer.number:
        raise Refusal(answer.number, answer.position)
    return samples
