"""Some hundred thousand made-up files, pairs of palettes and lists of records, with the answers of
the reference, in the file that KHUYUREK_CORPUS names; ``bindings corpus PATH`` of tests/bindings
writes it. Each kind says what it found in the corpus's own form, and the bytes are compared."""

import mmap
import os
import struct
import unittest
from collections import Counter
from pathlib import Path
from typing import Callable, List

from khuyurek import Kind, Refusal, acb, aco, ase, descriptor, palettes, report, resource
from khuyurek.descriptor import Comp, UnitDouble

CORPUS = os.environ.get("KHUYUREK_CORPUS")
NONE = 2**32 - 1
#: How many rows of a descriptor have their typed value asked for.
TYPED = 4

word = struct.Struct(">I").pack


def units(name: str) -> bytes:
    return name.encode("utf-16-be", "surrogatepass")


def named(name: str) -> bytes:
    encoded = units(name)
    return word(len(encoded) // 2) + encoded


def counted(data: bytes) -> bytes:
    return word(len(data)) + data


def refused(refusal: Refusal) -> bytes:
    return struct.pack(
        ">BBIII", refusal.number, refusal.file, refusal.place, refusal.record, refusal.field
    )


def number_of(call: Callable, *arguments) -> int:
    """What a search gives, or that there is none."""
    try:
        return call(*arguments)
    except Refusal as refusal:
        if refusal.number != 12:
            raise
        return NONE


# ---- files


def say_aco(file: bytes) -> bytes:
    cut = len(file) // 3
    try:
        arrived = aco.read_chunks([file[:cut], b"", memoryview(file)[cut:]])
    except Refusal as refusal:
        arrived = refusal
    try:
        palette = aco.read(file)
    except Refusal as refusal:
        assert arrived == refusal
        raise
    assert arrived == (tuple(swatch[:2] for swatch in palette), palette.lists)
    assert list(aco.walk(file)) == list(palette)
    said = [struct.pack(">BBI", 0, palette.lists, len(palette))]
    for space, samples, name, ink in palette:
        said += struct.pack(">5H", space, *samples), named(name), bytes([ink])
    written = palette.write()
    assert palette.lists == 1 or written == file
    said.append(counted(written))
    return b"".join(said)


def say_ase(file: bytes) -> bytes:
    palette = ase.read(file)
    colours = list(palette.colours())
    said = [struct.pack(">BII", 0, len(palette), len(colours))]
    for block in palette:
        if isinstance(block, ase.Colour):
            channels = tuple(block.channels) + (0.0,) * (4 - len(block.channels))
            said += b"\0\1", named(block.name)
            said.append(struct.pack(">I4fB", block.model, *channels, block.ink))
        elif isinstance(block, ase.Start):
            said += b"\xC0\x01", named(block.name), bytes(21)
        else:
            said += b"\xC0\x02", bytes(4 + 21)
    assert palette.write() == file
    assert list(ase.walk_blocks(file)) == list(palette)
    assert list(ase.walk(file)) == colours
    return b"".join(said)


def say_acb(file: bytes) -> bytes:
    book = acb.read(file)
    header = book.header
    index = acb.index(file)
    said = [struct.pack(">B4HB", 0, *header[:4], header.tag)]
    said += map(named, header[5:])
    said.append(word(len(book)))
    for i, swatch in enumerate(book):
        said += named(swatch.name), swatch.code, bytes(swatch.components), bytes([swatch.ink])
        shown = book.shown(swatch)
        said += bytes([len(shown)]), struct.pack(f">{len(shown)}i", *shown)
        said.append(named(book.full_name(swatch)))
        said.append(word(number_of(acb.find, file, index, swatch.name)))
        if i < 2:
            assert acb.shown_at(file, i) == shown
            assert acb.full_name(file, i) == book.full_name(swatch)
    said.append(word(book.pages))
    for sample in book.samples():
        said.append(word(NONE if sample is None else sample))
    said.append(struct.pack(f">{len(index) + 1}I", len(index), *index))
    assert book.write() == file
    return b"".join(said)


def say_typed(value) -> bytes:
    if value is None:
        return bytes(16)
    if isinstance(value, bool):
        return b"bool" + struct.pack(">IQ", 0, value)
    if isinstance(value, Comp):
        return b"comp" + struct.pack(">Iq", 0, value)
    if isinstance(value, int):
        return b"long" + struct.pack(">IIi", 0, 0, value)
    if isinstance(value, float):
        return b"doub" + struct.pack(">Id", 0, value)
    assert isinstance(value, UnitDouble)
    return b"UntF" + value.unit.encode() + struct.pack(">d", value.value)


def say_descriptor(file: bytes) -> bytes:
    rows = descriptor.read(file)
    values = descriptor.values(file)
    said = [struct.pack(">BI", 0, len(rows))]
    for i, (kind, first, length, next, depth, parent) in enumerate(rows):
        next = len(rows) if next is None else next
        said.append(struct.pack(">4I", first, length, next, depth))
        said.append(kind.encode("latin-1") + struct.pack(">II", parent, values[i]))
        if i < TYPED:
            said.append(say_typed(descriptor.typed_at(file, i)))
            assert descriptor.value_at(file, i) == file[values[i] : first + length]
    tree = descriptor.tree(file, list)
    found = descriptor.find(file, [key for key, _ in tree.pairs], rows)
    found = [len(rows) if row is None else row for row in found]
    said.append(struct.pack(f">{len(found) + 1}I", len(found), *found))
    assert descriptor.build(tree) == file
    return b"".join(said)


def say_section(file: bytes) -> bytes:
    section = resource.read(file)
    said = [struct.pack(">BI", 0, len(section))]
    for id, name, data in section:
        said += struct.pack(">H", id), counted(name), counted(data)
        said.append(word(resource.find(file, id)))
    assert section.write() == file
    return b"".join(said)


def say_document(file: bytes) -> bytes:
    return b"\0" + counted(resource.section_of(file))


# ---- questions of several parts


class Question:
    """What is asked, taken apart."""

    def __init__(self, data: bytes) -> None:
        self.data = data
        self.at = 0

    def more(self) -> bool:
        return self.at < len(self.data)

    def take(self, form: str) -> tuple:
        taken = struct.unpack_from(form, self.data, self.at)
        self.at += struct.calcsize(form)
        return taken

    def bytes(self, scale: int = 1) -> bytes:
        length = scale * self.take(">I")[0]
        self.at += length
        return self.data[self.at - length : self.at]

    def name(self) -> str:
        return self.bytes(2).decode("utf-16-be", "surrogatepass")


def say_compared(data: bytes) -> bytes:
    question = Question(data)
    first_kind, first = question.take("B")[0], question.bytes()
    second_kind, second = question.take("B")[0], question.bytes()
    compared = palettes.compare(first_kind, first, second_kind, second)
    kinds = bytes(difference for _, difference in compared)
    return struct.pack(">BII", 0, len(compared), compared.differences) + kinds


def say_written(length: Callable, write: Callable, *records) -> bytes:
    try:
        needed = length(*records)
    except Refusal as refusal:
        needed = refusal
    try:
        written = write(*records)
    except Refusal as refusal:
        assert needed == refusal
        raise
    assert needed == len(written)
    return b"\0" + counted(written)


def say_aco_lot(data: bytes) -> bytes:
    question, swatches = Question(data), []
    while question.more():
        space, *samples = question.take(">5I")
        swatches.append(aco.Swatch(space, tuple(samples), question.name(), *question.take(">I")))
    return say_written(aco.write_length, aco.write, swatches)


COUNTS = {0x52474220: 3, 0x434D594B: 4, 0x4C414220: 3, 0x47726179: 1}


def say_ase_lot(data: bytes) -> bytes:
    question = Question(data)
    blocks: List[ase.Block] = []
    while question.more():
        (kind,) = question.take(">I")
        name = question.name()
        model, *channels, ink = question.take(">I4fI")
        if kind == 0xC001:
            blocks.append(ase.Start(name))
        elif kind == 0xC002:
            blocks.append(ase.Stop())
        else:
            blocks.append(ase.Colour(name, model, channels[: COUNTS.get(model, 0)], ink))
    return say_written(ase.write_length, ase.write, blocks)


def say_acb_lot(data: bytes) -> bytes:
    question, swatches = Question(data), []
    *numbers, tag = question.take(">4HI")
    header = acb.Header(*numbers, tag, *(question.name() for _ in range(4)))
    while question.more():
        name, row = question.name(), question.take(">11I")
        swatches.append(acb.Swatch(name, row[:6], row[6:10], row[10]))
    return say_written(acb.write_length, acb.write, header, swatches)


def say_section_lot(data: bytes) -> bytes:
    question, blocks = Question(data), []
    while question.more():
        (id,) = question.take(">I")
        blocks.append(resource.Block(id, question.bytes(), question.bytes()))
    return say_written(resource.write_length, resource.write, blocks)


SAY = [
    say_aco,
    say_ase,
    say_acb,
    say_descriptor,
    say_section,
    say_document,
    say_compared,
    say_aco_lot,
    say_ase_lot,
    say_acb_lot,
    say_section_lot,
]


@unittest.skipUnless(CORPUS, "KHUYUREK_CORPUS names no file")
class Corpus(unittest.TestCase):
    def test_every_answer(self):
        data = Path(CORPUS).read_bytes()
        tally, totals, season, at = Counter(), Counter(), report.Report(), 0
        head = struct.Struct(">BI")
        while at < len(data):
            kind, length = head.unpack_from(data, at)
            at += head.size
            question = data[at : at + length]
            at += length
            length = int.from_bytes(data[at : at + 4], "big")
            wanted = data[at + 4 : at + 4 + length]
            at += 4 + length
            try:
                said = SAY[kind](question)
            except Refusal as refusal:
                said = refused(refusal)
            except Exception as error:
                self.fail(f"kind {kind}: {question.hex()}: {error!r}")
            if said != wanted:
                self.fail(f"kind {kind}: {question.hex()}\n{wanted.hex()}\n{said.hex()}")
            tally[kind, wanted[0] == 0] += 1
            if kind <= Kind.DESCRIPTOR:
                season.add(kind, question)
                totals[wanted[0]] += 1
        # Every kind was accepted and refused, and the report counts what was said.
        self.assertEqual(len(tally), 2 * len(SAY))
        self.assertEqual([totals[number] for number in range(15)], list(season.totals[:15]))
        print(f"Python and the reference agree on {sum(tally.values())} questions")

    def test_in_other_buffers(self):
        """Parts of a mapped file, without a copy, get the same answers."""
        with open(CORPUS, "rb") as opened:
            with mmap.mmap(opened.fileno(), 0, access=mmap.ACCESS_READ) as mapped:
                with memoryview(mapped) as view:
                    at = tried = 0
                    while at < len(view) and tried < 5000:
                        kind, length = struct.unpack_from(">BI", view, at)
                        first, at = at + 5, at + 5 + length
                        number = view[at + 4]
                        at += 4 + int.from_bytes(view[at : at + 4], "big")
                        if kind > Kind.DESCRIPTOR:
                            continue
                        judge = (aco, ase, acb, descriptor)[kind].judge
                        with view[first : first + length] as part:
                            try:
                                judge(part)
                                self.assertEqual(number, 0)
                            except Refusal as refusal:
                                self.assertEqual(number, refusal.number)
                        tried += 1


if __name__ == "__main__":
    unittest.main()
