"""The records of an accepted file."""

from __future__ import annotations

from typing import Any, Iterable, Iterator, Sequence, Tuple, TypeVar, overload

T = TypeVar("T")


class Records(Sequence[T]):
    """Records in file order, which never change. They keep nothing of the file: its buffer
    may be changed or freed. Equal where the records are."""

    __slots__ = ("_records",)

    def __init__(self, records: Iterable[T]) -> None:
        self._records: Tuple[T, ...] = tuple(records)

    @overload
    def __getitem__(self, index: int) -> T: ...

    @overload
    def __getitem__(self, index: slice) -> Tuple[T, ...]: ...

    def __getitem__(self, index: Any) -> Any:
        return self._records[index]

    def __len__(self) -> int:
        return len(self._records)

    def __iter__(self) -> Iterator[T]:
        return iter(self._records)

    def __eq__(self, other: object) -> bool:
        return self._records == other._records if type(other) is type(self) else NotImplemented

    def __hash__(self) -> int:
        return hash(self._records)

    def __repr__(self) -> str:
        return f"<{type(self).__module__}.{type(self).__name__} of {len(self)}>"
