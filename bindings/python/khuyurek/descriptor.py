"""Serialized descriptors: judged, read as rows or as trees of plain values, searched, changed in
one value, and built.

A tree has these values, by the types of the layout:

=========================  ==========================================
``bool``                   ``bool``
``long``                   ``int``
``comp``                   `Comp`, an ``int``
``doub``                   ``float``
``UntF``                   `UnitDouble`
``TEXT``                   ``str``, without its closing zero
``enum``                   `Enum`
``tdta``, ``alis``,        ``bytes``, `Alias` and `Path`, which are
``Pth``                    ``bytes``
``type``, ``GlbC``         `Class`, `GlobalClass`
``VlLs``                   ``list``
``Objc``, ``GlbO``         `Object`, `GlobalObject`, with a ``dict`` of its pairs
``ObAr``                   `ObjectArray`, with a ``dict`` of its pairs
``obj``                    `Reference`
=========================  ==========================================

IDs, which are keys, classes and what an `Enum` has, are ``str``, a character for each byte
(Latin-1). `build` makes of every tree that `tree` gave the same file again.
"""

from __future__ import annotations

from array import array
from struct import pack, unpack, unpack_from
from typing import Any, Callable, Iterable, List, Mapping, NamedTuple, Optional, Sequence, Tuple

from . import raw
from ._lent import Buffer, Lent, Text, decoded, encoded, lend, place, reals, room, run, whole
from ._records import Records
from .refusal import Refusal

__all__ = [
    "Alias",
    "Class",
    "Columns",
    "Comp",
    "Enum",
    "GlobalClass",
    "GlobalObject",
    "Item",
    "Object",
    "ObjectArray",
    "Path",
    "Reference",
    "Row",
    "Rows",
    "StringID",
    "Unclosed",
    "UnitDouble",
    "UnitDoubles",
    "build",
    "build_length",
    "entries",
    "find",
    "judge",
    "parents",
    "read",
    "replace",
    "tree",
    "typed_at",
    "value_at",
    "values",
]

# ---- rows


class Row(NamedTuple):
    """The root, a pair, a list item or a reference item."""

    #: The item's type or the reference's form, four characters; ``Objc`` for the root, ``UnFl``
    #: for the pair of an object array.
    kind: str
    #: The place of its first byte.
    first: int
    #: How many bytes it has, its children's too.
    length: int
    #: The number of its next sibling; None where it is the last child, or the root.
    next: Optional[int]
    #: How deep it stands; the root has 0.
    depth: int
    #: The number of the parent's row; 0 for the root too.
    parent: int


class Columns(NamedTuple):
    """The five columns of a table, each an array with a number for every row."""

    first: array
    length: array
    #: The next sibling's number; the number of rows for a last child and the root.
    next: array
    depth: array
    #: The kind's four characters as one number.
    kind: array


class Rows(Records[Row]):
    """The rows of an accepted file, in file order."""

    __slots__ = ("_columns",)

    def __init__(self, columns: Columns) -> None:
        # Copies, which are of numbers of 32 bits and which nobody else has.
        columns = Columns(*(array("I", column) for column in columns))
        self._columns = columns
        count = len(columns.first)
        rows = zip(*columns, parents(columns.depth))
        super().__init__(
            Row(_characters(kind), first, length, next if next < count else None, depth, parent)
            for first, length, next, depth, kind, parent in rows
        )

    @property
    def columns(self) -> Columns:
        """A copy of the columns."""
        return Columns(*(column[:] for column in self._columns))

    def lent(self) -> Tuple[int, ...]:
        """The columns as the library takes them."""
        return tuple(number for column in self._columns for number in lend(column))


def judge(file: Buffer) -> int:
    """Judges a file: the number of its rows."""
    with Lent(file) as lent:
        return _rows(lent.calls.khuyurek_descriptor_judge(lent.at, lent.length))


def read(file: Buffer) -> Rows:
    """Reads a file as rows."""
    with Lent(file) as lent:
        return Rows(_columns(lent))


def values(file: Buffer) -> array:
    """Where the value of every row begins. It ends where its row ends."""
    with Lent(file) as lent:
        begins = run(_rows(lent.calls.khuyurek_descriptor_judge(lent.at, lent.length)))
        _rows(lent.calls.khuyurek_descriptor_values(lent.at, lent.length, *lend(begins)))
    return begins


def parents(depths: Iterable[int]) -> array:
    """The parent of every row from the depths alone, whatever they are: the last row before it
    that is less deep, 0 where there is none."""
    given = array("I", iter(depths))
    found = run(len(given))
    answer = raw.calls.khuyurek_descriptor_parents(*lend(given), *lend(found))
    if answer.number:
        raise Refusal(answer.number)
    return found


def value_at(file: Buffer, row: int) -> bytes:
    """A row's value, what stands after its type or form. The whole file is judged first."""
    with Lent(file) as lent:
        value = lent.calls.khuyurek_descriptor_value_at(lent.at, lent.length, place(row, "row"))
        if value.number:
            raise Refusal(value.number, value.place)
        return lent.part(value.first, value.length)


def typed_at(file: Buffer, row: int) -> Any:
    """The value of a ``bool``, ``long``, ``comp``, ``doub`` or ``UntF`` row as a tree has it; None
    for a row of another kind. The whole file is judged first."""
    with Lent(file) as lent:
        typed = lent.calls.khuyurek_descriptor_typed_at(lent.at, lent.length, place(row, "row"))
    if typed.number:
        raise Refusal(typed.number, typed.place)
    if not typed.kind:
        return None
    return _NUMBERS[_characters(typed.kind)](typed.bits, typed.unit)


def find(file: Buffer, keys: Iterable[str], rows: Optional[Rows] = None) -> List[Optional[int]]:
    """Which row has each of some keys as a pair of the root: the first, or None. ``rows``, where
    they were read before, are compared with the file: refused by 5 unless they are its own."""
    if isinstance(keys, str):
        raise TypeError("keys are asked for, not one str")
    asked = b"".join(pack(">I", length) + id for length, id in map(_id, keys))
    with Lent(file) as lent:
        table = _table(lent, rows)
        # A key takes five bytes at least.
        answers = run(len(asked) // 5)
        found = lent.calls.khuyurek_descriptor_find(
            lent.at, lent.length, *table.lent(), asked, len(asked), *lend(answers)
        )
    if found.number:
        raise Refusal(found.number, found.place, in_keys=bool(found.in_keys))
    return [row if row < len(table) else None for row in answers[: found.keys]]


def replace(file: Buffer, row: int, value: Any, rows: Optional[Rows] = None) -> bytes:
    """The file with the value of one row replaced, by a ``bool``, an ``int`` for a ``long``, a
    `Comp`, a ``float`` or a `UnitDouble`: refused by 14 where the row is of another kind. ``rows``
    are as in `find`."""
    kind, unit, bits = _number(value)
    with Lent(file) as lent:
        table = _table(lent, rows)
        out = room(lent.length)
        written = lent.calls.khuyurek_descriptor_replace(
            lent.at, lent.length, *table.lent(), place(row, "row"), kind, unit, bits, *lend(out)
        )
    if written.number:
        raise Refusal(written.number)
    return out.tobytes()


def _columns(lent: Lent) -> Columns:
    count = _rows(lent.calls.khuyurek_descriptor_judge(lent.at, lent.length))
    columns = Columns(*(run(count) for _ in Columns._fields))
    lent_out = [number for column in columns for number in lend(column)]
    _rows(lent.calls.khuyurek_descriptor_read(lent.at, lent.length, *lent_out))
    return columns


def _table(lent: Lent, rows: Optional[Rows]) -> Rows:
    if rows is None:
        return Rows(_columns(lent))
    if not isinstance(rows, Rows):
        raise TypeError(f"Rows are asked for, not {type(rows).__name__}")
    return rows


def _rows(answer: raw.khuyurek_descriptor_answer) -> int:
    if answer.number:
        raise Refusal(answer.number, answer.place)
    return answer.rows


# ---- values of a tree


class Comp(int):
    """The number of a ``comp``, of 64 bits; a plain ``int`` is that of a ``long``."""

    __slots__ = ()

    def __repr__(self) -> str:
        return f"Comp({int(self)})"

    __str__ = int.__repr__


class UnitDouble(NamedTuple):
    """The value of a ``UntF``."""

    #: Four characters, such as ``#Prc``.
    unit: str
    value: float


class Enum(NamedTuple):
    """The value of an ``enum``: the IDs of its type and of its value."""

    type: str
    value: str


class Class(NamedTuple):
    """A class, the value of a ``type``."""

    id: str
    name: str = ""


class GlobalClass(NamedTuple):
    """A class, the value of a ``GlbC``."""

    id: str
    name: str = ""


class Object(NamedTuple):
    """The root, or the value of an ``Objc``."""

    #: The class's ID.
    id: str
    #: Its pairs by their keys, in file order.
    pairs: Any
    #: The class's name.
    name: str = ""


class GlobalObject(NamedTuple):
    """The value of a ``GlbO``."""

    id: str
    pairs: Any
    name: str = ""


class UnitDoubles(NamedTuple):
    """The value of an object array's pair: a number for each object."""

    #: Four characters, such as ``#Pxl``.
    unit: str
    values: Sequence[float]


class ObjectArray(NamedTuple):
    """The value of an ``ObAr``."""

    #: The number of objects.
    objects: int
    #: The class's ID.
    id: str
    #: Its pairs by their keys, each a `UnitDoubles`.
    pairs: Any
    #: The class's name.
    name: str = ""


class Item(NamedTuple):
    """A reference item."""

    #: Its form: ``Clss``, ``Enmr``, ``prop``, ``name``, ``Idnt``, ``indx`` or ``rele``.
    form: str
    #: The class's ID.
    id: str
    #: By the form None, an `Enum`, an ID, a text, or a number: of ``rele``, an offset, signed.
    value: Any = None
    #: The class's name.
    name: str = ""


class Reference(NamedTuple):
    """The value of an ``obj``."""

    items: Sequence[Item]


class Alias(bytes):
    """The bytes of an ``alis``."""

    __slots__ = ()

    def __repr__(self) -> str:
        return f"Alias({bytes(self)!r})"


class Path(bytes):
    """The bytes of a ``Pth``."""

    __slots__ = ()

    def __repr__(self) -> str:
        return f"Path({bytes(self)!r})"


class StringID(str):
    """An ID of four bytes whose length is stated; a plain ``str`` of four characters is one whose
    length field is 0, as Photoshop writes those."""

    __slots__ = ()

    def __repr__(self) -> str:
        return f"StringID({str(self)!r})"


class Unclosed(str):
    """The empty string whose count is 0, and that has no closing zero; a plain ``""`` is one of the
    count 1."""

    __slots__ = ()

    def __new__(cls) -> "Unclosed":
        return super().__new__(cls)

    def __getnewargs__(self) -> Tuple[()]:
        return ()

    def __repr__(self) -> str:
        return "Unclosed()"


def _characters(number: int) -> str:
    return number.to_bytes(4, "big").decode("latin-1")


def _tag(characters: str) -> int:
    """Four characters as one number."""
    if not isinstance(characters, str):
        raise TypeError(f"four characters are a str, not {type(characters).__name__}")
    if len(characters) != 4:
        raise ValueError(f"four characters are asked for, not {characters!r}")
    return int.from_bytes(str.encode(characters, "latin-1"), "big")


def _id(id: str) -> Tuple[int, bytes]:
    """The length field of an ID, and its bytes."""
    if not isinstance(id, str):
        raise TypeError(f"an ID is a str, not {type(id).__name__}")
    if not id:
        raise ValueError("an ID has a character at least")
    encoded_id = str.encode(id, "latin-1")
    short = len(encoded_id) == 4 and not isinstance(id, StringID)
    return (0 if short else len(encoded_id)), encoded_id


def _signed(number: int, bits: int, what: str) -> int:
    """A signed number as unsigned bits."""
    low = -1 << (bits - 1)
    return (whole(number - low, bits, what) + low) % (1 << bits)


def _double(number: float) -> int:
    return unpack(">Q", pack(">d", *reals([number])))[0]


def _of_double(bits: int) -> float:
    return unpack(">d", pack(">Q", bits))[0]


def _of_signed(bits: int, width: int) -> int:
    return bits - (1 << width) if bits >> (width - 1) else bits


#: The value of a row by its kind, from its bits and its unit.
_NUMBERS: Mapping[str, Callable[[int, int], Any]] = {
    "bool": lambda bits, unit: bool(bits),
    "long": lambda bits, unit: _of_signed(bits, 32),
    "comp": lambda bits, unit: Comp(_of_signed(bits, 64)),
    "doub": lambda bits, unit: _of_double(bits),
    "UntF": lambda bits, unit: UnitDouble(_characters(unit), _of_double(bits)),
}


def _number(value: Any) -> Tuple[int, int, int]:
    """The kind, the unit and the bits of a value that is one number."""
    if isinstance(value, bool):
        return _tag("bool"), 0, int(value)
    if isinstance(value, Comp):
        return _tag("comp"), 0, _signed(value, 64, "comp")
    if isinstance(value, int):
        return _tag("long"), 0, _signed(value, 32, "long")
    if isinstance(value, float):
        return _tag("doub"), 0, _double(value)
    if isinstance(value, UnitDouble):
        return _tag("UntF"), _tag(value.unit), _double(value.value)
    raise TypeError(f"a number is asked for, not {type(value).__name__}")


# ---- a file as a tree


def _unique(pairs: List[Tuple[str, Any]]) -> Mapping[str, Any]:
    """Pairs by their keys."""
    found = dict(pairs)
    if len(found) != len(pairs):
        keys = [key for key, _ in pairs]
        twice = next(key for key in keys if keys.count(key) > 1)
        raise ValueError(f"the key {twice!r} stands twice in one object: ask for pairs=list")
    return found


def tree(file: Buffer, pairs: Callable[[List[Tuple[str, Any]]], Any] = _unique) -> Object:
    """Reads a file as a tree of plain values.

    The pairs of an object are a ``dict``. The layout lets a key stand twice in one object: that
    is a ``ValueError``, unless ``pairs`` says what is made of the list of pairs; ``list`` keeps
    them as they are.
    """
    with Lent(file) as lent:
        # A copy, unless it is bytes: its parts are taken after the library has judged it.
        still = lent.part(0, lent.length)
    return _Reading(still, entries(still), pairs).member()


def entries(file: Buffer) -> array:
    """The entries of a file as numbers, ``KHUYUREK_DESCRIPTOR_ENTRY`` of them for each row, its own
    bytes being their text: what `tree` is made of."""
    with Lent(file) as lent:
        count = _rows(lent.calls.khuyurek_descriptor_judge(lent.at, lent.length))
        numbers = run(raw.KHUYUREK_DESCRIPTOR_ENTRY * count)
        _rows(lent.calls.khuyurek_descriptor_entries(lent.at, lent.length, *lend(numbers)))
    return numbers


class _Entry(NamedTuple):
    """The numbers of an entry. Of two that belong together the first is the length or count that
    the file states, the second the place of the bytes."""

    kind: int
    key: int
    key_at: int
    name: int
    name_at: int
    id: int
    id_at: int
    first: int
    first_at: int
    second: int
    second_at: int
    unit: int
    high: int
    low: int
    members: int
    objects: int


class _Reading:
    """Makes values of a file's entries, in their order. Where each part lies the library says."""

    def __init__(self, file: bytes, numbers: array, pairs: Callable) -> None:
        self.file = file
        self.rows = map(_Entry._make, zip(*[iter(numbers)] * raw.KHUYUREK_DESCRIPTOR_ENTRY))
        self.pairs = pairs

    def id(self, length: int, at: int) -> str:
        id = self.file[at : at + (length or 4)].decode("latin-1")
        return StringID(id) if length == 4 else id

    def text(self, count: int, at: int) -> str:
        # Its last unit closes it.
        return decoded(self.file[at : at + 2 * count - 2]) if count else Unclosed()

    def bytes(self, entry: _Entry) -> bytes:
        return self.file[entry.first_at : entry.first_at + entry.first]

    def named(self, entry: _Entry) -> Tuple[str, str]:
        """The class of an entry."""
        return self.id(entry.id, entry.id_at), self.text(entry.name, entry.name_at)

    def member(self) -> Any:
        """The next value, with all that stands in it."""
        entry = next(self.rows)
        return _READ[entry.kind](self, entry)

    def members(self, entry: _Entry) -> List[Any]:
        return [self.member() for _ in range(entry.members)]

    def pair(self) -> Tuple[str, Any]:
        entry = next(self.rows)
        return self.id(entry.key, entry.key_at), _READ[entry.kind](self, entry)

    def object(self, entry: _Entry) -> Tuple[str, Any, str]:
        id, name = self.named(entry)
        return id, self.pairs([self.pair() for _ in range(entry.members)]), name

    def enum(self, entry: _Entry) -> Enum:
        type = self.id(entry.first, entry.first_at)
        return Enum(type, self.id(entry.second, entry.second_at))

    def doubles(self, entry: _Entry) -> UnitDoubles:
        return UnitDoubles(
            _characters(entry.unit), unpack_from(f">{entry.first}d", self.file, entry.first_at)
        )

    def number(self, entry: _Entry) -> Any:
        return _NUMBERS[_characters(entry.kind)](entry.high << 32 | entry.low, entry.unit)

    def item(self, entry: _Entry, value: Any = None) -> Item:
        id, name = self.named(entry)
        return Item(_characters(entry.kind), id, value, name)


_READ: Mapping[int, Callable[[_Reading, _Entry], Any]] = {
    _tag("bool"): _Reading.number,
    _tag("long"): _Reading.number,
    _tag("comp"): _Reading.number,
    _tag("doub"): _Reading.number,
    _tag("UntF"): _Reading.number,
    _tag("TEXT"): lambda reading, entry: reading.text(entry.first, entry.first_at),
    _tag("enum"): _Reading.enum,
    _tag("tdta"): _Reading.bytes,
    _tag("alis"): lambda reading, entry: Alias(reading.bytes(entry)),
    _tag("Pth "): lambda reading, entry: Path(reading.bytes(entry)),
    _tag("type"): lambda reading, entry: Class(*reading.named(entry)),
    _tag("GlbC"): lambda reading, entry: GlobalClass(*reading.named(entry)),
    _tag("VlLs"): _Reading.members,
    _tag("obj "): lambda reading, entry: Reference(reading.members(entry)),
    _tag("Objc"): lambda reading, entry: Object(*reading.object(entry)),
    _tag("GlbO"): lambda reading, entry: GlobalObject(*reading.object(entry)),
    _tag("ObAr"): lambda reading, entry: ObjectArray(entry.objects, *reading.object(entry)),
    _tag("UnFl"): _Reading.doubles,
    _tag("Clss"): _Reading.item,
    _tag("Enmr"): lambda reading, entry: reading.item(entry, reading.enum(entry)),
    _tag("prop"): lambda reading, entry: reading.item(
        entry, reading.id(entry.first, entry.first_at)
    ),
    _tag("name"): lambda reading, entry: reading.item(
        entry, reading.text(entry.first, entry.first_at)
    ),
    _tag("Idnt"): lambda reading, entry: reading.item(entry, entry.low),
    _tag("indx"): lambda reading, entry: reading.item(entry, entry.low),
    _tag("rele"): lambda reading, entry: reading.item(entry, _of_signed(entry.low, 32)),
}


# ---- a file built from a tree

#: The deepest member that the layout allows.
_DEEPEST = 32


def build_length(root: Object) -> int:
    """How many bytes building takes."""
    entries, text = _entries(root)
    return _length(raw.calls.khuyurek_descriptor_build_length(*lend(entries), text, len(text)))


def build(root: Object) -> bytes:
    """Builds a file from a tree. Pairs are a mapping, or an iterable of keys with their values."""
    entries, text = _entries(root)
    lent = (*lend(entries), text, len(text))
    out = room(_length(raw.calls.khuyurek_descriptor_build_length(*lent)))
    _length(raw.calls.khuyurek_descriptor_build(*lent, *lend(out)))
    return out.tobytes()


def _length(written: raw.khuyurek_length) -> int:
    if written.number:
        raise Refusal(written.number)
    return written.length


def _entries(root: Object) -> Tuple[array, bytes]:
    if not isinstance(root, Object):
        raise TypeError(f"the root is an Object, not {type(root).__name__}")
    building = _Building()
    try:
        building.object("Objc", None, root, 0)
    except _TooDeep:
        # The library refuses what it was given so far, by 10 or by an earlier fault.
        pass
    return building.entries, building.text.joined()


class _TooDeep(Exception):
    """A member would stand deeper than the layout allows: a tree may hold itself."""


class _Building:
    """Lays out the entries of a tree, in file order."""

    def __init__(self) -> None:
        self.entries = array("I")
        self.text = Text()

    def put(
        self,
        kind: str,
        key: Optional[str],
        named: Optional[Tuple[str, str]] = None,
        first: Tuple[int, int] = (0, 0),
        second: Tuple[int, int] = (0, 0),
        unit: int = 0,
        bits: int = 0,
        members: int = 0,
        objects: int = 0,
    ) -> None:
        """An entry, all of it or nothing."""
        key_part = (0, 0) if key is None else self.id(key)
        name_part = id_part = (0, 0)
        if named is not None:
            id, name = named
            name_part, id_part = self.string(name), self.id(id)
        high, low = bits >> 32, bits & 0xFFFF_FFFF
        parts = key_part + name_part + id_part + first + second
        self.entries.extend((_tag(kind), *parts, unit, high, low, members, objects))

    def id(self, id: str) -> Tuple[int, int]:
        length, id_bytes = _id(id)
        return length, self.text.add(id_bytes)

    def string(self, string: str) -> Tuple[int, int]:
        """A Unicode string, closed by a zero."""
        units = encoded(string)
        if isinstance(string, Unclosed):
            return 0, 0
        closed = units + b"\0\0"
        return len(closed) // 2, self.text.add(closed)

    def bytes(self, data: bytes) -> Tuple[int, int]:
        return len(data), self.text.add(data)

    def member(self, key: Optional[str], value: Any, depth: int) -> None:
        """A pair, or a list item where there is no key."""
        if depth > _DEEPEST:
            raise _TooDeep
        if isinstance(value, (bool, int, float, UnitDouble)):
            kind, unit, bits = _number(value)
            self.put(_characters(kind), key, unit=unit, bits=bits)
        elif isinstance(value, str):
            self.put("TEXT", key, first=self.string(value))
        elif isinstance(value, bytes):
            kind = "alis" if isinstance(value, Alias) else "Pth " if isinstance(value, Path) else "tdta"
            self.put(kind, key, first=self.bytes(value))
        elif isinstance(value, Enum):
            self.put("enum", key, first=self.id(value.type), second=self.id(value.value))
        elif isinstance(value, Class):
            self.put("type", key, value)
        elif isinstance(value, GlobalClass):
            self.put("GlbC", key, value)
        elif isinstance(value, Object):
            self.object("Objc", key, value, depth)
        elif isinstance(value, GlobalObject):
            self.object("GlbO", key, value, depth)
        elif isinstance(value, ObjectArray):
            self.array(key, value, depth)
        elif isinstance(value, Reference):
            self.reference(key, value, depth)
        elif isinstance(value, (list, tuple)) and not hasattr(value, "_fields"):
            self.put("VlLs", key, members=len(value))
            for item in value:
                self.member(None, item, depth + 1)
        else:
            raise TypeError(f"a descriptor has no {type(value).__name__}")

    def object(self, kind: str, key: Optional[str], value: Any, depth: int) -> None:
        pairs = _listed(value.pairs)
        self.put(kind, key, (value.id, value.name), members=len(pairs))
        for pair_key, item in pairs:
            self.member(_key(pair_key), item, depth + 1)

    def array(self, key: Optional[str], value: ObjectArray, depth: int) -> None:
        pairs = _listed(value.pairs)
        objects = whole(value.objects, 32, "objects")
        self.put("ObAr", key, (value.id, value.name), members=len(pairs), objects=objects)
        for pair_key, doubles in pairs:
            if depth + 1 > _DEEPEST:
                raise _TooDeep
            if not isinstance(doubles, UnitDoubles):
                raise TypeError(f"an object array has UnitDoubles, not {type(doubles).__name__}")
            numbers = reals(doubles.values)
            count = len(numbers)
            at = self.text.add(pack(f">{count}d", *numbers))
            self.put("UnFl", _key(pair_key), first=(count, at), unit=_tag(doubles.unit))

    def reference(self, key: Optional[str], value: Reference, depth: int) -> None:
        items = list(value.items)
        self.put("obj ", key, members=len(items))
        for item in items:
            if depth + 1 > _DEEPEST:
                raise _TooDeep
            self.item(item)

    def item(self, item: Item) -> None:
        if not isinstance(item, Item):
            raise TypeError(f"a reference has Items, not {type(item).__name__}")
        form, id, value, name = item
        first = second = (0, 0)
        bits = 0
        if form == "prop":
            first = self.id(value)
        elif form == "Enmr":
            kind, member = value
            first, second = self.id(kind), self.id(member)
        elif form == "name":
            first = self.string(value)
        elif form in ("Idnt", "indx"):
            bits = whole(value, 32, form)
        elif form == "rele":
            bits = _signed(value, 32, form)
        elif form == "Clss" and value is not None:
            raise ValueError("an item of the form Clss has no value")
        self.put(form, None, (id, name), first, second, bits=bits)


def _listed(pairs: Any) -> List[Tuple[Any, Any]]:
    return list(pairs.items() if isinstance(pairs, Mapping) else pairs)


def _key(key: Any) -> str:
    if not isinstance(key, str):
        raise TypeError(f"a key is a str, not {type(key).__name__}")
    return key
