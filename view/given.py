"""What the program's texts promise: where they say of a value that it is there, it is taken so."""
from typing import Optional, TypeVar

T = TypeVar("T")


def given(it: Optional[T]) -> T:
    """A value that is there, by what was read before."""
    if it is None:
        raise ValueError("a value is missing that was promised")
    return it
