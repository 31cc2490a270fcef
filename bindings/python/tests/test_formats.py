"""The package over each format: agreed files by their rule's number, files written back, refusals,
and what is no refusal but Python's own error."""

import copy
import math
import mmap
import os
import pickle
import re
import subprocess
import sys
import tempfile
import threading
import unittest
from array import array
from pathlib import Path

import khuyurek
from khuyurek import (
    Ink,
    Kind,
    Model,
    Refusal,
    Space,
    acb,
    aco,
    ase,
    descriptor,
    palettes,
    raw,
    report,
    resource,
)

ROOT = Path(__file__).resolve().parents[3]
PACKAGE = Path(__file__).resolve().parents[1]

P2 = bytes.fromhex("00010000")
P3 = bytes.fromhex(
    "00010001 0000FFFF0000808000 00 00020001 0000FFFF00008080 0000 00000002 00410000"
)
P4 = P3[:24] + b"\x80\x81" + P3[26:]
P5 = b"ASEF\0\1\0\0\0\0\0\0"
P6 = b"ASEF\0\1\0\0\0\0\0\1\0\1\0\0\0\x0E\0\1\0\0Gray\x3F\x80\0\0\0\2"
P7 = P6[:17] + b"\x0F" + P6[18:] + b"\0"
P11 = b"\0\0\0\x10\0\0\0\0\0\0\0\1a\0\0\0\0"
P12 = P11[:-1] + b"\1\0\0\0\1aVlLs\0\0\0\2bool\1bool\1"
BLOCK = b"8BIM\x03\xED\x02ab\0\0\0\0\3xyz\0"

JUDGES = [aco.judge, ase.judge, acb.judge, descriptor.judge, resource.judge]
READERS = [aco.read, ase.read, acb.read, descriptor.read, descriptor.tree, resource.read]


def example(name):
    return (ROOT / "examples" / "files" / name).read_bytes()


class Case(unittest.TestCase):
    def refused(self, number, place, call, *arguments, **more):
        with self.assertRaises(Refusal) as caught:
            call(*arguments)
        refusal = caught.exception
        self.assertEqual(refusal, Refusal(number, place, **more))
        return refusal


class Refusals(Case):
    def test_sentences_are_the_tables(self):
        rules = (ROOT / "docs/RULES.md").read_text()
        table = rules.split("\n### Refusals\n")[1]
        rows = re.findall(r"^\| (\d+) \| (.*) \|$", table, flags=re.M)[: len(khuyurek.SENTENCES)]
        self.assertEqual([int(number) for number, _ in rows], list(range(15)))
        self.assertEqual(tuple(sentence for _, sentence in rows), khuyurek.SENTENCES)

    def test_no_bytes(self):
        for judge in JUDGES[:4] + READERS[:5]:
            self.refused(2, 0, judge, b"")
        # No bytes are no blocks.
        self.assertEqual(resource.judge(b""), 0)

    def test_past_the_limit(self):
        file = bytes(khuyurek.LIMIT + 1)
        for call in JUDGES + READERS:
            self.refused(1, 0, call, file)
        self.refused(3, 0, aco.judge, file[:-1])

    def test_what_it_says(self):
        refusal = self.refused(7, 24, aco.judge, P4, record=0, field=3)
        self.assertEqual(refusal.sentence, "the two ACO lists disagree")
        self.assertEqual(
            str(refusal), "refused 7 at 24: the two ACO lists disagree (record 0, field 3)"
        )
        self.assertEqual(repr(refusal), f"<Refusal {refusal}>")
        self.assertEqual(
            (refusal.number, refusal.place, refusal.record, refusal.field, refusal.file),
            (7, 24, 0, 3, 0),
        )
        for again in (pickle.loads(pickle.dumps(refusal)), copy.copy(refusal)):
            self.assertEqual(again, refusal)
            self.assertEqual(again.field, 3)
        self.assertNotEqual(refusal, Refusal(7, 24))
        self.assertNotIsInstance(refusal, ValueError)


class Aco(Case):
    def test_read(self):
        palette = aco.read(P3)
        swatch = aco.Swatch(Space.RGB, (65535, 0, 32896, 0), "A", Ink.NOT_STATED)
        self.assertEqual(list(palette), [swatch])
        self.assertEqual((len(palette), palette.lists, palette[-1]), (1, 2, swatch))
        self.assertEqual(aco.record_at(P3, 0), swatch)
        self.assertEqual(list(aco.walk(P3)), [swatch])
        self.assertEqual(aco.judge(P3), aco.Counts(1, 2))
        self.assertEqual(aco.judge(P2), (0, 1))
        self.assertEqual(palette.write(), P3)
        self.assertEqual(aco.write_length(palette), len(P3))
        self.refused(12, 0, aco.record_at, P3, 1)
        with self.assertRaises(IndexError):
            palette[1]

    def test_steps(self):
        at = aco.start_at(P3)
        swatch, behind = aco.step_at(P3, at)
        self.assertEqual(swatch, aco.read(P3)[0])
        self.assertIsNone(aco.step_at(P3, behind))
        # Any place of any file has an answer.
        for place in [*range(40), 2**32, 2**64 - 1]:
            try:
                aco.step_at(P3, place)
            except Refusal as refusal:
                self.assertEqual(refusal, Refusal(5))
        self.refused(7, 24, aco.start_at, P4, record=0, field=3)
        # Judged when the walk is asked for, and not at its first step.
        self.refused(7, 24, aco.walk, P4, record=0, field=3)

    def test_example(self):
        file = example("swatches.aco")
        palette = aco.read(file)
        self.assertEqual([swatch.name for swatch in palette][:2], ["Orange", "Grün"])
        self.assertEqual(palette.write(), file)
        self.assertEqual(list(aco.walk(file)), list(palette))
        self.assertEqual([aco.record_at(file, i) for i in range(len(palette))], list(palette))

    def test_one_list(self):
        plain = P3[:14]
        palette = aco.read(plain)
        self.assertEqual((palette.lists, palette[0].name), (1, ""))
        self.assertEqual(aco.read(palette.write()), palette)

    def test_write_is_judged(self):
        gray = (Space.GRAY, (10000, 0, 0, 0))
        self.assertEqual(aco.read(aco.write([aco.Swatch(*gray, "Gray")]))[0].name, "Gray")
        for number, swatch in [
            (4, aco.Swatch(3, (0, 0, 0, 0))),
            (4, aco.Swatch(65536, (0, 0, 0, 0))),
            (5, aco.Swatch(Space.GRAY, (10001, 0, 0, 0))),
            (5, aco.Swatch(Space.RGB, (0, 0, 0, 1))),
            (5, aco.Swatch(Space.RGB, (65536, 0, 0, 0))),
            (8, aco.Swatch(*gray, "a\0b")),
            (14, aco.Swatch(*gray, "", Ink.SPOT)),
        ]:
            self.refused(number, 0, aco.write, [swatch])
            self.refused(number, 0, aco.write_length, [swatch])
        self.refused(5, 0, aco.write, [aco.Swatch(*gray)] * 4097)
        self.refused(1, 0, aco.write, [aco.Swatch(*gray, "x" * 2**23)])
        self.assertEqual(aco.write([]), bytes.fromhex("0001000000020000"))

    def test_not_even_records(self):
        gray = (Space.GRAY, (0, 0, 0, 0))
        for error, swatch in [
            (OverflowError, (-1, (0, 0, 0, 0), "", 4)),
            (OverflowError, (2**32, (0, 0, 0, 0), "", 4)),
            (OverflowError, (0, (0, 0, 2**64, 0), "", 4)),
            (TypeError, (0.0, (0, 0, 0, 0), "", 4)),
            (TypeError, ("0", (0, 0, 0, 0), "", 4)),
            (TypeError, (*gray, b"name", 4)),
            (TypeError, (*gray, None, 4)),
            (ValueError, (8, (0, 0, 0), "", 4)),
            (ValueError, (*gray, "")),
            (TypeError, 5),
        ]:
            with self.assertRaises(error, msg=swatch):
                aco.write([swatch])
        with self.assertRaises(TypeError):
            aco.write(None)

    def test_chunks(self):
        file = example("swatches.aco")
        whole = aco.read(file)
        colours = tuple(swatch[:2] for swatch in whole)
        for size in (1, 2, 3, 7, 10, 64, len(file)):
            chunks = (file[at : at + size] for at in range(0, len(file), size))
            self.assertEqual(aco.read_chunks(chunks), (colours, 2))
        for cut in range(len(file) + 1):
            chunks = [file[:cut], b"", memoryview(file)[cut:]]
            self.assertEqual(aco.read_chunks(chunks), (colours, 2))
        self.refused(7, 24, aco.read_chunks, [P4[:3], bytearray(P4[3:])], record=0, field=3)
        self.refused(2, 0, aco.read_chunks, [])
        with open(ROOT / "examples" / "files" / "swatches.aco", "rb") as opened:
            self.assertEqual(aco.read_chunks(iter(lambda: opened.read(5), b"")).lists, 2)

    def test_stream(self):
        stream = aco.Stream()
        stream.feed(P4)
        self.assertEqual(stream.total, len(P4))
        self.refused(7, 24, stream.finish, record=0, field=3)
        # What stood whole before the fault.
        self.assertEqual(stream.store[:10], P4[4:14])
        self.assertEqual(stream.store[10:], bytes(40950))
        self.refused(5, 0, stream.feed, b"")
        self.refused(5, 0, stream.finish)
        self.assertEqual(stream.total, len(P4))
        for odd in ("text", 5, None):
            with self.assertRaises(TypeError):
                aco.Stream().feed(odd)
            with self.assertRaises(TypeError):
                aco.read_chunks([odd])
        long = aco.Stream()
        for _ in range(17):
            long.feed(bytes(2**20))
        self.refused(1, 0, long.finish)


class Ase(Case):
    def test_read(self):
        self.assertEqual(list(ase.read(P5)), [])
        colour = ase.Colour("", Model.GRAY, (1.0,), Ink.NORMAL)
        palette = ase.read(P6)
        self.assertEqual(list(palette), [colour])
        self.assertEqual(ase.judge(P6), ase.Counts(1, 1))
        self.assertEqual(ase.record_at(P6, 0), colour)
        self.assertEqual((list(ase.walk(P6)), list(ase.walk_blocks(P6))), ([colour], [colour]))
        self.assertEqual(palette.write(), P6)
        self.refused(13, 14, ase.read, P7)
        self.refused(12, 0, ase.record_at, P6, 1)
        self.refused(13, 14, ase.walk, P7)

    def test_example(self):
        file = example("palette.ase")
        palette = ase.read(file)
        self.assertEqual(palette.write(), file)
        self.assertEqual(list(ase.walk_blocks(file)), list(palette))
        self.assertEqual(list(ase.walk(file)), list(palette.colours()))
        self.assertEqual([ase.record_at(file, i) for i in range(len(palette))], list(palette))
        self.assertIsInstance(palette[0], ase.Start)
        at = ase.start_at(file)
        self.assertEqual(ase.block_at(file, at)[0], palette[0])
        self.assertEqual(ase.step_at(file, at)[0], next(palette.colours()))
        self.refused(5, 0, ase.step_at, file, 1)
        self.refused(5, 0, ase.block_at, file, 1)

    def test_channels_keep_their_bits(self):
        for channel in (-0.0, 0.0, 2.0**-149, 1.0, 0.1):
            for model, count in [(Model.RGB, 3), (Model.CMYK, 4), (Model.LAB, 3), (Model.GRAY, 1)]:
                file = ase.write([ase.Colour("c", model, [channel] * count)])
                read = ase.read(file)[0].channels
                self.assertEqual(len(read), count)
                self.assertEqual(math.copysign(1, read[0]), math.copysign(1, channel))
                self.assertEqual(ase.write(ase.read(file)), file)
        lab = ase.Colour("", Model.LAB, (100.0, -128.0, 3.4e38))
        self.assertEqual(ase.read(ase.write([lab]))[0].channels[:2], (100.0, -128.0))

    def test_write_is_judged(self):
        colour = ase.Colour("c", Model.GRAY, [0.5])
        for number, blocks in [
            (4, [colour._replace(model=5, channels=[])]),
            (5, [colour._replace(channels=[1.5])]),
            (5, [colour._replace(channels=[math.nan])]),
            (5, [colour._replace(channels=[math.inf])]),
            (5, [colour._replace(ink=5)]),
            (5, [colour._replace(name="x" * 65535)]),
            (8, [ase.Start("\0"), ase.Stop()]),
            (9, [ase.Stop()]),
            (9, [ase.Start("")]),
            (10, [ase.Start("")] * 17),
            (14, [colour._replace(ink=Ink.PROCESS)]),
        ]:
            self.refused(number, 0, ase.write, blocks)
            self.refused(number, 0, ase.write_length, blocks)

    def test_not_even_blocks(self):
        colour = ase.Colour("c", Model.GRAY, [0.5])
        for error, block in [
            (ValueError, colour._replace(channels=[0.5, 0.5])),
            (ValueError, colour._replace(model=5, channels=[0.5] * 5)),
            (OverflowError, colour._replace(channels=[1e300])),
            (OverflowError, colour._replace(ink=-1)),
            (OverflowError, colour._replace(model=2**32, channels=[])),
            (TypeError, colour._replace(name=5)),
            (TypeError, colour._replace(channels=["0.5"])),
            (TypeError, colour._replace(channels=0.5)),
            (TypeError, ("c", Model.GRAY, [0.5], 0)),
            (TypeError, None),
        ]:
            with self.assertRaises(error, msg=block):
                ase.write([block])


class Acb(Case):
    def setUp(self):
        self.file = example("book.acb")
        self.book = acb.read(self.file)

    def test_read(self):
        book = self.book
        self.assertEqual(acb.judge(self.file), (len(book), book.header))
        self.assertEqual(book.write(), self.file)
        self.assertEqual(acb.write_length(book.header, book), len(self.file))
        self.assertEqual([acb.record_at(self.file, i) for i in range(len(book))], list(book))
        self.assertEqual(acb.shown_text(book.header.title), "Press inks")
        self.assertEqual(acb.read(self.file), book)
        self.assertEqual(hash(acb.read(self.file)), hash(book))
        self.refused(12, 0, acb.record_at, self.file, len(book))

    def test_shown(self):
        book = self.book
        for i, swatch in enumerate(book):
            self.assertEqual(book.shown(swatch), acb.shown_at(self.file, i))
            full = acb.full_name(self.file, i)
            self.assertEqual(book.full_name(swatch), full)
            self.assertEqual(acb.full_length(self.file, i), 2 * len(full))
        self.assertEqual(book.full_name(book[0]), "PRESS 100 C")
        for page in range(book.pages):
            sample = book.sample(page)
            if sample is None:
                self.refused(12, 0, acb.page_at, self.file, page)
            else:
                self.assertEqual(acb.page_at(self.file, page), sample)
        self.assertEqual(list(book.samples()), [book.sample(p) for p in range(book.pages)])
        self.assertIsNone(book.sample(book.pages))
        self.assertIsNone(book.sample(2**64 - 1))
        # P8 and P9
        shown = [acb.shown_component(Space.LAB, i, b) for i, b in enumerate(b"\xF8\x7B\x7B")]
        self.assertEqual(shown, [97, -5, -5])
        shown = [acb.shown_component(Space.CMYK, 0, b) for b in (0, 128, 255)]
        self.assertEqual(shown, [100, 50, 0])

    def test_pages(self):
        # P10
        header = acb.Header(1, 3, 2, Space.RGB)
        swatches = [acb.Swatch(str(i), b"code  ", (i, i, i)) for i in range(7)]
        book = acb.read(acb.write(header, swatches))
        self.assertEqual(list(book.samples()), [2, 5, 6])
        self.refused(12, 0, acb.page_at, book.write(), 3)
        dummies = acb.read(acb.write(header, [acb.Swatch("", b"      ", (0, 0, 0))] * 4))
        self.assertTrue(all(swatch.is_dummy for swatch in dummies))
        self.assertEqual(list(dummies.samples()), [None, None])

    def test_find(self):
        names = ["b", "a", "", "b", "a" * 3, "\ud800", "ä"]
        swatches = [acb.Swatch(name, b"      ", (1, 2, 3)) for name in names]
        file = acb.write(acb.Header(1, 3, 0, Space.LAB), swatches)
        index = acb.index(file)
        self.assertEqual(list(index), [1, 4, 0, 3, 6, 5])
        for entries in (index, list(index), tuple(index) + (9,)):
            for name in names:
                if name:
                    self.assertEqual(acb.find(file, entries, name), names.index(name))
            self.refused(12, 0, acb.find, file, entries, "")
            self.refused(12, 0, acb.find, file, entries, "c")
        self.refused(5, 0, acb.find, file, index[:-1], "a")
        self.refused(5, 0, acb.find, file, [], "a")
        for error, entries in [(OverflowError, [-1]), (OverflowError, [2**32]), (TypeError, [0.5])]:
            with self.assertRaises(error):
                acb.find(file, entries, "a")
        with self.assertRaises(TypeError):
            acb.find(file, index, b"a")
        self.refused(2, 0, acb.index, b"")

    def test_write_is_judged(self):
        header = acb.Header(1, 3, 0, Space.RGB)
        swatch = acb.Swatch("a", b"123456", (1, 2, 3))
        for number, changed, records in [
            (5, header._replace(page_size=0), []),
            (4, header._replace(space=1), []),
            (3, header._replace(tag=3), []),
            (5, header, [swatch._replace(components=(256, 0, 0))]),
            (14, header, [swatch._replace(ink=Ink.GLOBAL)]),
            (14, header._replace(tag=acb.Tag.SPOT), [swatch]),
            (5, header, [swatch] * 65536),
        ]:
            self.refused(number, 0, acb.write, changed, records)
            self.refused(number, 0, acb.write_length, changed, records)
        for error, changed, records in [
            (OverflowError, header._replace(identifier=65536), []),
            (OverflowError, header._replace(page_size=-1), []),
            (TypeError, header._replace(space=None), []),
            (TypeError, header._replace(title=b""), []),
            (ValueError, header[:8], []),
            (ValueError, header, [swatch._replace(code=b"12345")]),
            (ValueError, header, [swatch._replace(components=(1, 2))]),
            (OverflowError, header, [swatch._replace(components=(-1, 2, 3))]),
        ]:
            with self.assertRaises(error):
                acb.write(changed, records)
        self.assertEqual(acb.read(acb.write(header, [swatch]))[0].components, (1, 2, 3, 0))


class Descriptors(Case):
    def test_rows(self):
        self.assertEqual(descriptor.judge(P11), 1)
        self.assertEqual(list(descriptor.read(P11)), [("Objc", 0, 17, None, 0, 0)])
        rows = descriptor.read(P12)
        self.assertEqual([row.first for row in rows], [0, 17, 30, 35])
        self.assertEqual([row.length for row in rows], [40, 23, 5, 5])
        self.assertEqual([row.next for row in rows], [None, None, 3, None])
        self.assertEqual([row.parent for row in rows], [0, 0, 1, 1])
        self.assertEqual([row.kind for row in rows], ["Objc", "VlLs", "bool", "bool"])
        self.assertEqual(list(descriptor.values(P12)), [4, 26, 34, 39])
        self.assertEqual(list(descriptor.parents([0, 1, 2, 2])), [0, 0, 1, 1])
        self.assertEqual(descriptor.value_at(P12, 2), b"\1")
        self.assertIs(descriptor.typed_at(P12, 2), True)
        self.assertIsNone(descriptor.typed_at(P12, 1))
        self.refused(12, 0, descriptor.value_at, P12, 4)
        self.refused(12, 0, descriptor.typed_at, P12, 4)
        for error, depths in [(OverflowError, [-1]), (OverflowError, [2**32]), (TypeError, ["a"])]:
            with self.assertRaises(error):
                descriptor.parents(depths)
        self.assertEqual(list(rows.columns.depth), [0, 1, 2, 2])
        # A copy: what is done to it is not done to the rows.
        rows.columns.depth[0] = 7
        self.assertEqual(list(rows.columns.depth), [0, 1, 2, 2])

    def test_find(self):
        file = example("swatch.desc")
        rows = descriptor.read(file)
        keys = ["Nm  ", "enabled", "nothing", "Clr ", "Rd  ", "Nm  "]
        for given in (None, rows):
            self.assertEqual(descriptor.find(file, keys, given), [1, 2, None, 3, None, 1])
        self.assertEqual(descriptor.find(file, []), [])
        # The same four bytes with their length stated are another ID.
        self.assertEqual(descriptor.find(file, [descriptor.StringID("Nm  ")]), [None])
        self.refused(5, 0, descriptor.find, P12, ["a"], rows)
        self.refused(5, 0, descriptor.find, file, ["a"], descriptor.read(P11))
        for error, odd in [(TypeError, "Nm  "), (TypeError, [b"Nm  "]), (ValueError, [""])]:
            with self.assertRaises(error):
                descriptor.find(file, odd)
        with self.assertRaises(TypeError):
            descriptor.find(file, keys, list(rows))
        with self.assertRaises(UnicodeEncodeError):
            descriptor.find(file, ["\u0416"])

    def test_replace(self):
        file = example("swatch.desc")
        changed = descriptor.replace(file, 8, 5)
        self.assertEqual(descriptor.tree(changed).pairs["plates"][0], 5)
        self.assertEqual(descriptor.replace(changed, 8, -3), file)
        rows = descriptor.read(file)
        for row, value in [
            (2, False),
            (4, 0.25),
            (6, descriptor.UnitDouble("#Pxl", -1.0)),
            (8, -(2**31)),
            (9, descriptor.Comp(-(2**63))),
        ]:
            changed = descriptor.replace(file, row, value, rows)
            self.assertEqual(descriptor.typed_at(changed, row), value)
            self.assertEqual(type(descriptor.typed_at(changed, row)), type(value))
        self.refused(14, 0, descriptor.replace, file, 2, 5)
        self.refused(12, 0, descriptor.replace, file, 10, 5)
        self.refused(5, 0, descriptor.replace, file, 4, math.inf)
        self.refused(4, 0, descriptor.replace, file, 6, descriptor.UnitDouble("#Abc", 1.0))
        for error, value in [
            (OverflowError, 2**31),
            (OverflowError, descriptor.Comp(2**63)),
            (TypeError, "text"),
            (TypeError, None),
            (ValueError, descriptor.UnitDouble("#Pr", 1.0)),
        ]:
            with self.assertRaises(error):
                descriptor.replace(file, 8, value)

    TREE = descriptor.Object(
        "null",
        {
            "flag": True,
            "long": -5,
            "comp": descriptor.Comp(5),
            "doub": -0.0,
            "unit": descriptor.UnitDouble("#Mlm", 210.0),
            "text": "Grün\0 \ud800",
            "none": descriptor.Unclosed(),
            "void": "",
            "enum": descriptor.Enum("Clr ", "a longer one"),
            "data": b"\0\1",
            "alis": descriptor.Alias(b"alias"),
            "path": descriptor.Path(b""),
            "type": descriptor.Class("Lyr ", "Layer"),
            "GlbC": descriptor.GlobalClass("x"),
            "list": [1, [2.5, []], "three", descriptor.Object("a", {})],
            "Objc": descriptor.Object("b", {"a": 1, "b": {}.get("c", False)}, "name"),
            "GlbO": descriptor.GlobalObject("c", {"c": 3}),
            "ObAr": descriptor.ObjectArray(
                2, "pnts", {"Hrzn": descriptor.UnitDoubles("#Pxl", (1.0, -2.0))}, "points"
            ),
            "obj ": descriptor.Reference(
                [
                    descriptor.Item("Clss", "Lyr "),
                    descriptor.Item("Enmr", "Lyr ", descriptor.Enum("Ordn", "Trgt"), "Layer"),
                    descriptor.Item("prop", "Prpr", "Nm  "),
                    descriptor.Item("name", "Lyr ", "Ebene"),
                    descriptor.Item("Idnt", "Lyr ", 2**32 - 1),
                    descriptor.Item("indx", "Lyr ", 7),
                    descriptor.Item("rele", "Lyr ", -1),
                ]
            ),
            "a key of any length": descriptor.Object(
                descriptor.StringID("four"), {}, descriptor.Unclosed()
            ),
        },
    )

    def test_tree(self):
        file = descriptor.build(self.TREE)
        self.assertEqual(descriptor.build_length(self.TREE), len(file))
        again = descriptor.tree(file)
        self.assertEqual(again, self.TREE)
        self.assertEqual(repr(again), repr(self.TREE))
        self.assertEqual(descriptor.build(again), file)
        for name in ("swatch.desc",):
            self.assertEqual(descriptor.build(descriptor.tree(example(name))), example(name))
        for file in (P11, P12):
            self.assertEqual(descriptor.build(descriptor.tree(file)), file)
        self.assertEqual(descriptor.tree(P12), ("a", {"a": [True, True]}, ""))

    def test_entries(self):
        file = descriptor.build(self.TREE)
        numbers = descriptor.entries(file)
        self.assertEqual(len(numbers), raw.KHUYUREK_DESCRIPTOR_ENTRY * descriptor.judge(file))
        out = array("B", bytes(len(file)))
        built = raw.khuyurek_descriptor_build(
            numbers.buffer_info()[0], len(numbers), file, len(file), out.buffer_info()[0], len(out)
        )
        self.assertEqual((built.number, built.length, out.tobytes()), (0, len(file), file))
        self.assertEqual(descriptor.entries(bytearray(file)), numbers)
        self.refused(2, 0, descriptor.entries, b"")
        self.refused(6, len(file), descriptor.entries, file + b"\0")

    def test_a_key_twice(self):
        root = descriptor.Object("a", [("b", 1), ("b", 2)])
        file = descriptor.build(root)
        with self.assertRaisesRegex(ValueError, "'b'"):
            descriptor.tree(file)
        self.assertEqual(descriptor.tree(file, list), root)
        self.assertEqual(descriptor.build(descriptor.tree(file, list)), file)
        self.assertEqual(descriptor.tree(file, dict).pairs, {"b": 2})
        # Four bytes, their length stated or not.
        root = descriptor.Object("a", [("four", 1), (descriptor.StringID("four"), 2)])
        file = descriptor.build(root)
        self.assertEqual(descriptor.build(descriptor.tree(file, list)), file)
        found = descriptor.find(file, ["four", descriptor.StringID("four")])
        self.assertEqual(found, [1, 2])

    def test_depth(self):
        value = []
        for _ in range(31):
            value = [value]
        root = descriptor.Object("a", {"a": value})
        self.assertEqual(descriptor.tree(descriptor.build(root)), root)
        self.refused(10, 0, descriptor.build, descriptor.Object("a", {"a": [value]}))
        endless = []
        endless.append(endless)
        self.refused(10, 0, descriptor.build, descriptor.Object("a", {"a": endless}))
        endless = {}
        endless["a"] = descriptor.Object("a", endless)
        self.refused(10, 0, descriptor.build, descriptor.Object("a", endless))
        # A fault that stands before it comes first.
        faulty = [math.inf, value]
        self.refused(5, 0, descriptor.build, descriptor.Object("a", {"a": faulty}))

    def test_build_is_judged(self):
        def root(value):
            return descriptor.Object("a", {"key ": value})

        array_of = descriptor.ObjectArray
        doubles = descriptor.UnitDoubles
        for number, value in [
            (5, math.nan),
            (5, descriptor.UnitDouble("#Prc", math.inf)),
            (4, descriptor.UnitDouble("#Abc", 1.0)),
            (5, array_of(2, "a", {"b": doubles("#Pxl", (1.0,))})),
            (5, array_of(1, "a", {"b": doubles("#Pxl", (math.nan,))})),
            (4, array_of(1, "a", {"b": doubles("#Ang", (1.0,))})),
            (4, descriptor.Reference([descriptor.Item("what", "a")])),
            (1, bytes(khuyurek.LIMIT)),
        ]:
            self.refused(number, 0, descriptor.build, root(value))
            self.refused(number, 0, descriptor.build_length, root(value))
        for error, value in [
            (TypeError, None),
            (TypeError, {}),
            (TypeError, {1, 2}),
            (TypeError, bytearray(b"x")),
            (OverflowError, 2**31),
            (OverflowError, descriptor.Comp(2**63)),
            (OverflowError, array_of(2**32, "a", {})),
            (ValueError, descriptor.Enum("", "a")),
            (TypeError, descriptor.Enum(1, "a")),
            (TypeError, array_of(1, "a", {"b": [1.0]})),
            (TypeError, array_of(1, "a", {"b": doubles("#Pxl", "1")})),
            (TypeError, descriptor.UnitDouble("#Pxl", "1")),
            (TypeError, descriptor.UnitDouble(5, 1.0)),
            (TypeError, descriptor.Reference(["a"])),
            (ValueError, descriptor.Reference([descriptor.Item("Clss", "a", 5)])),
            (OverflowError, descriptor.Reference([descriptor.Item("indx", "a", -1)])),
            (OverflowError, descriptor.Reference([descriptor.Item("rele", "a", 2**31)])),
            (TypeError, descriptor.Row("a", 0, 0, None, 0, 0)),
            (UnicodeEncodeError, descriptor.Class("\u0416")),
        ]:
            with self.assertRaises(error, msg=repr(value)):
                descriptor.build(root(value))
        for odd in (None, {}, "text", descriptor.GlobalObject("a", {})):
            with self.assertRaises(TypeError):
                descriptor.build(odd)
        with self.assertRaises(TypeError):
            descriptor.build(descriptor.Object("a", {b"key": 1}))


class Resources(Case):
    def test_read(self):
        block = resource.Block(0x3ED, b"ab", b"xyz")
        section = resource.read(BLOCK)
        self.assertEqual(list(section), [block])
        self.assertEqual(section.write(), BLOCK)
        self.assertEqual(resource.write_length(section), len(BLOCK))
        self.assertEqual(resource.record_at(BLOCK, 0), block)
        self.assertEqual(resource.find(BLOCK + BLOCK, 0x3ED), 0)
        self.refused(12, 0, resource.find, BLOCK, 1)
        self.refused(12, 0, resource.record_at, BLOCK, 1)
        self.refused(5, 17, resource.read, BLOCK[:-1] + b"\1")
        self.assertEqual(list(resource.read(b"")), [])

    def test_document(self):
        head = b"8BPS\0\1" + bytes(6) + b"\0\3" + bytes(8) + b"\0\x08\0\3" + bytes(4)
        document = head + len(BLOCK).to_bytes(4, "big") + BLOCK + b"the rest"
        self.assertEqual(resource.place_in(document), (34, len(BLOCK)))
        self.assertEqual(resource.section_of(document), BLOCK)
        self.assertEqual(resource.section_of(memoryview(document)), BLOCK)
        self.refused(3, 0, resource.section_of, BLOCK)

    def test_write_is_judged(self):
        self.refused(5, 0, resource.write, [(65536, b"", b"")])
        self.refused(5, 0, resource.write, [(1, bytes(256), b"")])
        self.refused(1, 0, resource.write, [(1, b"", bytes(khuyurek.LIMIT))])
        self.assertEqual(resource.write([(0x3ED, bytearray(b"ab"), memoryview(b"xyz"))]), BLOCK)
        for error, block in [
            (OverflowError, (-1, b"", b"")),
            (TypeError, (1, "name", b"")),
            (TypeError, (1, b"", None)),
            (ValueError, (1, b"")),
        ]:
            with self.assertRaises(error):
                resource.write([block])
        for error, id in [(OverflowError, 65536), (OverflowError, -1), (TypeError, "1")]:
            with self.assertRaises(error):
                resource.find(BLOCK, id)


class Palettes(Case):
    def test_compare(self):
        old, new = P3[:14], bytes.fromhex("00010002 0000FFFF000080800000 00080000000000000000")
        compared = palettes.compare(Kind.ACO, old, Kind.ACO, new)
        self.assertEqual(list(compared), [(0, 0), (1, palettes.Difference.ONLY_SECOND)])
        self.assertEqual(compared.differences, 1)
        self.assertEqual(palettes.compare(Kind.ACO, old, Kind.ACO, old).differences, 0)
        self.assertEqual(list(palettes.compare(0, P3, 0, old)), [(0, palettes.Difference.NAME)])
        refusal = self.refused(
            7, 24, palettes.compare, Kind.ACO, P3, Kind.ACO, P4, record=0, field=3, file=2
        )
        self.assertEqual(
            str(refusal), f"second file: {Refusal(7, 24, 0, 3)}"
        )
        self.refused(3, 0, palettes.compare, Kind.ASE, P3, Kind.ACO, P4, file=1)
        self.refused(4, 0, palettes.compare, Kind.ACB, P3, Kind.ACO, P4)
        self.refused(4, 0, palettes.compare, 9, P3, Kind.ACO, P4)
        for error, kind in [(OverflowError, -1), (OverflowError, 2**32), (TypeError, "ACO")]:
            with self.assertRaises(error):
                palettes.compare(kind, P3, Kind.ACO, P3)
        with self.assertRaises(TypeError):
            palettes.compare(Kind.ACO, P3, Kind.ACO, "file")

    def test_across_formats(self):
        swatches = aco.read(example("swatches.aco"))
        models = {Space.RGB: (Model.RGB, 3), Space.CMYK: (Model.CMYK, 4), Space.GRAY: (Model.GRAY, 1)}
        kept = [swatch for swatch in swatches if swatch.space in models]
        colours = []
        for space, samples, name, _ in kept:
            model, count = models[space]
            channels = khuyurek.to_channels(space, samples[:count])
            self.assertEqual(list(khuyurek.to_samples(model, channels)), list(samples[:count]))
            colours.append(ase.Colour(name, model, channels))
        compared = palettes.compare(Kind.ACO, aco.write(kept), Kind.ASE, ase.write(colours))
        self.assertEqual((len(compared), compared.differences), (len(kept), 0))


class Reports(Case):
    def test_report(self):
        files = [
            (Kind.ACO, example("swatches.aco")),
            (Kind.ASE, example("palette.ase")),
            (Kind.ACB, example("book.acb")),
            (Kind.DESCRIPTOR, bytearray(example("swatch.desc"))),
            (Kind.ACO, P4),
        ]
        totals = report.report(files)
        self.assertEqual((totals.accepted, totals.refused_7, totals.refused), (4, 1, 1))
        self.assertEqual((totals.aco_rgb, totals.ase_cmyk, totals.descriptor_rows), (1, 1, 10))
        first, second = report.Report(), report.Report()
        for kind, file in files[:2]:
            self.assertIsNone(first.add(kind, file))
        for kind, file in files[2:-1]:
            self.assertIsNone(second.add(kind, file))
        self.assertEqual(second.add(*files[-1]), Refusal(7, 24))
        first.merge(second)
        self.assertEqual(first.totals, totals)
        self.assertEqual(first, report.Report(totals))
        self.assertNotEqual(first, second)
        self.assertIn("accepted=4", repr(first))

    def test_refused(self):
        full = report.Report([2**32 - 1] * 31)
        before = full.totals
        self.refused(5, 0, full.add, Kind.ACO, P3)
        self.refused(5, 0, full.add, Kind.ACO, b"")
        self.refused(4, 0, full.add, 4, P3)
        self.refused(5, 0, full.merge, full)
        full.merge(report.Report())
        self.assertEqual(full.totals, before)
        for error, totals in [
            (ValueError, [0] * 30),
            (OverflowError, [2**32] + [0] * 30),
            (OverflowError, [-1] + [0] * 30),
            (TypeError, [0.5] + [0] * 30),
        ]:
            with self.assertRaises(error):
                report.Report(totals)
        with self.assertRaises(TypeError):
            full.merge([0] * 31)
        with self.assertRaises(TypeError):
            full.add(Kind.ACO, "file")


class Conversions(Case):
    def test_every_sample_comes_back(self):
        for space, model, last in [
            (Space.RGB, Model.RGB, 65535),
            (Space.CMYK, Model.CMYK, 65535),
            (Space.GRAY, Model.GRAY, 10000),
        ]:
            samples = range(last + 1)
            channels = khuyurek.to_channels(space, samples)
            self.assertEqual(list(khuyurek.to_samples(model, channels)), list(samples))
            self.assertEqual(khuyurek.to_channel(space, last), channels[last])
        self.assertEqual(khuyurek.to_sample(Model.RGB, 0.5), 32768)
        self.assertEqual(khuyurek.to_sample(Model.CMYK, 0.5), 32767)
        self.assertEqual(khuyurek.to_sample(Model.GRAY, 0.5), 5000)

    def test_refused(self):
        self.refused(14, 0, khuyurek.to_channel, Space.LAB, 0)
        self.refused(4, 0, khuyurek.to_channel, 3, 0)
        self.refused(5, 0, khuyurek.to_channel, Space.GRAY, 10001)
        self.refused(5, 2, khuyurek.to_channels, Space.GRAY, [0, 1, 10001, 5])
        self.refused(5, 1, khuyurek.to_samples, Model.RGB, [0, math.nan, 2])
        self.refused(5, 0, khuyurek.to_sample, Model.RGB, math.inf)
        self.refused(14, 0, khuyurek.to_sample, Model.LAB, 5.0)
        self.refused(4, 0, khuyurek.to_sample, 5, 0.0)
        self.assertEqual(list(khuyurek.to_channels(3, [])), [])
        self.assertEqual(list(khuyurek.to_samples(3, [])), [])
        for error, call in [
            (OverflowError, lambda: khuyurek.to_channel(0, 65536)),
            (OverflowError, lambda: khuyurek.to_channel(-1, 0)),
            (TypeError, lambda: khuyurek.to_channel(0, 0.5)),
            (OverflowError, lambda: khuyurek.to_channels(0, [65536])),
            (OverflowError, lambda: khuyurek.to_channels(0, [-1])),
            (TypeError, lambda: khuyurek.to_channels(0, [0.5])),
            (TypeError, lambda: khuyurek.to_channels(0, 5)),
            (OverflowError, lambda: khuyurek.to_sample(Model.RGB, 1e300)),
            (OverflowError, lambda: khuyurek.to_samples(Model.RGB, [1e300])),
            (OverflowError, lambda: khuyurek.to_sample(2**32, 0.5)),
            (TypeError, lambda: khuyurek.to_sample(Model.RGB, "0.5")),
            (TypeError, lambda: khuyurek.to_samples(Model.RGB, ["0.5"])),
        ]:
            with self.assertRaises(error):
                call()


class Buffers(Case):
    def test_every_kind_of_buffer(self):
        files = [example(name) for name in ("swatches.aco", "palette.ase", "book.acb", "swatch.desc")]
        files.append(BLOCK)
        calls = [aco.read, ase.read, acb.read, descriptor.tree, resource.read]
        with tempfile.TemporaryDirectory() as folder:
            for file, call in zip(files, calls):
                wanted = call(file)
                path = Path(folder, "file")
                path.write_bytes(file)
                spaced = bytearray(1) + file + b"\0"
                padded = array("B", file)
                buffers = [
                    bytearray(file),
                    memoryview(file),
                    memoryview(bytearray(file)),
                    memoryview(bytearray(file)).toreadonly(),
                    memoryview(spaced)[1:-1],
                    padded,
                    type("Bytes", (bytes,), {})(file),
                ]
                for buffer in buffers:
                    self.assertEqual(call(buffer), wanted)
                with open(path, "rb") as opened:
                    with mmap.mmap(opened.fileno(), 0, access=mmap.ACCESS_READ) as mapped:
                        self.assertEqual(call(mapped), wanted)
                    # Nothing holds it: it is closed.
                    self.assertTrue(mapped.closed)
                with open(path, "r+b") as opened:
                    with mmap.mmap(opened.fileno(), 0) as mapped:
                        self.assertEqual(call(mapped), wanted)
                self.assertEqual(path.read_bytes(), file)

    def test_words_and_shapes(self):
        file = P3
        words = memoryview(array("H", file))
        self.assertEqual(aco.read(words), aco.read(file))
        self.assertEqual(aco.read(memoryview(file).cast("B", (6, 6))), aco.read(file))
        with self.assertRaises(BufferError):
            aco.read(memoryview(file)[::2])

    def test_classes_that_say_otherwise(self):
        """A length that a class made from bytes or str says is not believed."""

        class Bytes(bytes):
            def __len__(self):
                return 2**40

        class Name(str):
            def encode(self, *_):
                return Bytes(b"x")

            def __len__(self):
                return 2**40

        self.assertEqual(aco.read(Bytes(P3)), aco.read(P3))
        self.refused(2, 0, aco.judge, Bytes())
        swatch = aco.Swatch(Space.RGB, (0, 0, 0, 0), Name("A"))
        self.assertEqual(aco.read(aco.write([swatch]))[0].name, "A")
        self.assertEqual(acb.shown_text(Name("$$$/a=b")), "b")
        self.assertEqual(khuyurek.printable(Name("A")), "A")
        self.assertEqual(descriptor.find(P12, [Name("a")]), [1])
        # Tables are made of numbers of 32 bits, whatever they were.
        short = descriptor.Columns(*(array("B", [0]) for _ in range(5)))
        self.assertEqual(len(descriptor.Rows(short)), 1)
        self.refused(5, 0, descriptor.find, P12, ["a"], descriptor.Rows(short))
        book = acb.Book(acb.Header(1, 1, 0, 0), [], array("B", bytes(13)))
        self.assertEqual(book.sample(0), None)

    def test_empty_buffers(self):
        for empty in (bytearray(), memoryview(b""), array("B"), array("I")):
            for judge in JUDGES[:4]:
                self.refused(2, 0, judge, empty)
            self.assertEqual(resource.judge(empty), 0)
            self.assertIsNone(aco.step_at(empty, 0))

    def test_odd_types(self):
        for odd in ("text", 5, None, [0, 1], 1.5, object(), Path("file")):
            for call in JUDGES + READERS + [aco.walk, acb.index, resource.section_of]:
                with self.assertRaises(TypeError):
                    call(odd)

    def test_nothing_is_held(self):
        """A buffer that was lent may be changed again: after an answer, a refusal, an error, and
        between two steps."""
        file = bytearray(example("swatches.aco"))
        records = aco.read(file)
        name = records[0].name
        file.append(0)
        self.refused(6, len(file) - 1, aco.read, file)
        file.pop()
        with self.assertRaises(OverflowError):
            aco.record_at(file, -1)
        file.append(0)
        file.pop()
        walk = aco.walk(file)
        self.assertEqual(next(walk), records[0])
        file[:] = bytes(len(file))
        self.assertEqual(records[0].name, name)
        self.refused(5, 0, next, walk)
        self.assertEqual(list(walk), [])
        del file[:]
        # While a call goes on, the buffer cannot change its length.
        from khuyurek._lent import Lent

        with Lent(file) as empty, Lent(bytearray(b"abc")) as lent:
            self.assertEqual((empty.length, lent.part(1, 9)), (0, b"bc"))
            with self.assertRaises(BufferError):
                lent._data.append(1)
        self.assertEqual(lent.length, 0)
        lent._data.append(1)

    def test_nothing_is_changed(self):
        for file, call in [(P3, aco.read), (P4, aco.read), (P7, ase.read), (P12, descriptor.tree)]:
            lent = bytearray(file)
            try:
                call(lent)
            except Refusal:
                pass
            self.assertEqual(lent, file)

    def test_numbers_that_do_not_fit(self):
        for call in (aco.record_at, ase.record_at, acb.record_at, acb.shown_at, acb.page_at,
                     acb.full_name, acb.full_length, descriptor.value_at, descriptor.typed_at,
                     resource.record_at, aco.step_at, ase.step_at, ase.block_at):
            file = P3
            for error, number in [
                (OverflowError, -1),
                (OverflowError, 2**64),
                (TypeError, 0.0),
                (TypeError, "0"),
                (TypeError, None),
            ]:
                with self.assertRaises(error):
                    call(file, number)
            with self.assertRaises(Refusal):
                call(b"\1", 2**64 - 1)

    def test_longer_than_32_bits(self):
        """A file of more than 2^32 bytes is past the limit, and its length is not cut."""
        with tempfile.TemporaryFile() as opened:
            opened.truncate(2**32 + 4)
            with mmap.mmap(opened.fileno(), 0, access=mmap.ACCESS_READ) as mapped:
                for judge in JUDGES:
                    self.refused(1, 0, judge, mapped)
                stream = aco.Stream()
                stream.feed(mapped)
                self.refused(1, 0, stream.finish)

    def test_threads(self):
        """Buffers that others change meanwhile get an answer."""
        file = bytearray(example("swatches.aco"))
        still = bytes(file)
        wanted, ended = aco.read(still), threading.Event()

        def change():
            while not ended.is_set():
                for place in range(len(file)):
                    file[place] ^= 0xFF
                    file[place] ^= 0xFF

        # One alone: two that change one byte at once would lose a change.
        other = threading.Thread(target=change)
        other.start()
        try:
            for _ in range(2000):
                self.assertEqual(aco.read(still), wanted)
                try:
                    aco.read(file)
                except Refusal:
                    pass
        finally:
            ended.set()
            other.join()
        self.assertEqual(file, still)


class Handed(Case):
    def test_between_processes(self):
        """What is read can be handed to another process, and merged there."""
        season = report.Report()
        season.add(Kind.ACO, P3)
        for value in (
            aco.read(P3),
            ase.read(P6),
            acb.read(example("book.acb")),
            descriptor.read(P12),
            Descriptors.TREE,
            resource.read(BLOCK),
            palettes.compare(Kind.ACO, P3, Kind.ACO, P3),
            season,
            season.totals,
        ):
            again = pickle.loads(pickle.dumps(value))
            self.assertEqual(again, value)
            self.assertIs(type(again), type(value))
            self.assertEqual(copy.deepcopy(value), value)
        book = pickle.loads(pickle.dumps(acb.read(example("book.acb"))))
        self.assertEqual(list(book.samples()), [0, 3])
        merged = pickle.loads(pickle.dumps(season))
        merged.merge(season)
        self.assertEqual(merged.totals.accepted, 2)

    def test_records_stay_as_they_are(self):
        palette = aco.read(P3)
        with self.assertRaises(TypeError):
            palette[0] = palette[0]
        with self.assertRaises(AttributeError):
            palette[0].name = "B"
        self.assertEqual(hash(palette), hash(aco.read(P3)))
        self.assertNotEqual(palette, list(palette))
        self.assertEqual(palette[0:1], (palette[0],))
        self.assertIn(palette[0], palette)
        self.assertEqual(palette.index(palette[0]), 0)


class Names(Case):
    def test_every_unit_comes_back(self):
        lone = ["\ud800", "\udc00", "\udc00\ud800", "a\ud800b", "\ud800\ud800\udc00", "\U0001F3A8"]
        for name in lone + ["", "Grün", "\uffff\ufffe"]:
            file = aco.write([aco.Swatch(Space.RGB, (0, 0, 0, 0), name)])
            back = aco.read(file)[0].name
            self.assertEqual(aco.write(aco.read(file)), file)
            self.assertEqual(
                back.encode("utf-16-be", "surrogatepass"), name.encode("utf-16-be", "surrogatepass")
            )
            khuyurek.printable(back).encode("utf-8")
        self.assertEqual(khuyurek.printable("a\ud800b"), "a\ufffdb")
        # Two halves are a pair in a file.
        self.assertEqual(aco.read(aco.write([(0, (0,) * 4, "\ud83c\udfa8", 4)]))[0].name, "\U0001F3A8")

    def test_printable(self):
        for name in ("", "a", "Grün", "\ud800", "\udc00a", "a\ud800", "\udc00\ud800\ud800\udc00"):
            units = name.encode("utf-16-be", "surrogatepass")
            shown = units.decode("utf-16-be", "replace")
            self.assertEqual(khuyurek.printable(name), shown)
            self.assertEqual(khuyurek.name_at(b"\0" + units, 1, len(units) // 2), shown)
            self.refused(2, 0, khuyurek.name_at, units, 0, len(units) // 2 + 1)
        everything = "".join(map(chr, range(0x10000)))
        units = everything.encode("utf-16-be", "surrogatepass")
        self.assertEqual(khuyurek.printable(everything), units.decode("utf-16-be", "replace"))
        self.refused(1, 0, khuyurek.name_at, bytes(khuyurek.LIMIT + 1), 0, 1)
        self.refused(1, 0, khuyurek.printable, "a" * (khuyurek.LIMIT // 2 + 1))
        for error, arguments in [
            (OverflowError, (P3, -1, 1)),
            (OverflowError, (P3, 0, 2**64)),
            (TypeError, (P3, 0.0, 1)),
            (TypeError, ("file", 0, 1)),
        ]:
            with self.assertRaises(error):
                khuyurek.name_at(*arguments)
        with self.assertRaises(TypeError):
            khuyurek.printable(b"name")

    def test_every_single_unit(self):
        units = [chr(unit) for unit in range(1, 65536)]
        for start in range(0, len(units), 4096):
            some = [aco.Swatch(Space.RGB, (0, 0, 0, 0), unit) for unit in units[start : start + 4096]]
            self.assertEqual(list(aco.read(aco.write(some))), some)


class Library(unittest.TestCase):
    def run_with(self, **environment):
        program = "import khuyurek.raw; print(khuyurek.raw.LIBRARY)"
        given = {**os.environ, "PYTHONPATH": str(PACKAGE), **environment}
        return subprocess.run(
            [sys.executable, "-c", program], env=given, capture_output=True, text=True
        )

    def test_named_by_the_environment(self):
        said = self.run_with(KHUYUREK_LIBRARY=raw.LIBRARY)
        self.assertEqual((said.returncode, said.stdout.strip()), (0, raw.LIBRARY))

    def test_what_is_no_library(self):
        said = self.run_with(KHUYUREK_LIBRARY="/nothing/libkhuyurek.so")
        self.assertIn("ImportError", said.stderr)
        said = self.run_with(KHUYUREK_LIBRARY=str(ROOT / "README.md"))
        self.assertIn("ImportError", said.stderr)
        # A library, and another one.
        said = self.run_with(KHUYUREK_LIBRARY="libc.so.6")
        self.assertIn("ImportError: libc.so.6 is no library of this version", said.stderr)

    def test_another_version(self):
        with tempfile.TemporaryDirectory() as folder:
            source, library = Path(folder, "other.c"), Path(folder, "other.so")
            other = raw.KHUYUREK_VERSION + 1
            source.write_text(f"const unsigned khuyurek_version = {other};\n")
            subprocess.run(["cc", "-shared", "-fPIC", source, "-o", library], check=True)
            said = self.run_with(KHUYUREK_LIBRARY=str(library))
            words = f"is of version {other} of the interface, and not {raw.KHUYUREK_VERSION}:"
            self.assertIn(words, said.stderr)


class Raw(unittest.TestCase):
    def test_pointers(self):
        table = array("I", [7] * 9)
        answer = raw.khuyurek_aco_read(P3, len(P3), table.buffer_info()[0], 8)
        self.assertEqual((answer.number, answer.colours, table[8]), (0, 1, 7))
        before = table[:]
        answer = raw.khuyurek_aco_read(P3, len(P3), table.buffer_info()[0], 7)
        self.assertEqual((answer.number, answer.colours, table), (11, 0, before))
        import ctypes

        for odd in (None, "text"):
            with self.assertRaises(ctypes.ArgumentError):
                raw.khuyurek_aco_judge(odd, 0)
        # What is only to be read is not lent for writing.
        with self.assertRaises(ctypes.ArgumentError):
            raw.khuyurek_aco_read(P3, len(P3), b"\0" * 32, 8)


if __name__ == "__main__":
    unittest.main()
