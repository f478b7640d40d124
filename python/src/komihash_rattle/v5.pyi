"""Types of the names, each with the first sentence of its help."""
from typing import ClassVar, SupportsIndex, TypeVar, type_check_only
from _typeshed import ReadableBuffer

_Self = TypeVar("_Self")

def komihash_int(data: ReadableBuffer, /, seed: SupportsIndex = 0) -> int:
    """Return the hash of a message, as an int below 2**64."""
def komihash_digest(data: ReadableBuffer, /, seed: SupportsIndex = 0) -> bytes:
    """Return the hash of a message, as eight bytes, big-endian."""
def komihash_hexdigest(data: ReadableBuffer, /, seed: SupportsIndex = 0) -> str:
    """Return the hash of a message, as 16 hexadecimal digits."""

# What the classes of both versions have, of which none is a subclass of another.
@type_check_only
class _Komihash:
    name: ClassVar[str]
    digest_size: ClassVar[int]
    block_size: ClassVar[int]
    def __init__(self, data: ReadableBuffer = b"", seed: SupportsIndex = 0, *,
                 usedforsecurity: bool = True) -> None: ...
    def update(self, data: ReadableBuffer, /) -> None: """Add bytes to the message."""
    def digest(self) -> bytes: """Return the hash of all bytes so far, as eight big-endian bytes."""
    def hexdigest(self) -> str: """Return the hash of all bytes so far, as 16 hexadecimal digits."""
    def intdigest(self) -> int: """Return the hash of all bytes so far, as an int below 2**64."""
    def copy(self: _Self) -> _Self: """Return a copy that goes on by itself."""
    @property
    def seed(self) -> int | None: """The seed, or None if it isn't known."""
    def reset(self) -> None: """Begin anew with the seed."""
    def save(self) -> bytes: """Return the state as at most 131 bytes, which resume() takes."""
    @classmethod
    def resume(cls: type[_Self], saved: ReadableBuffer, /, seed: SupportsIndex | None = None
               ) -> _Self: """Return the stream whose save() returned these bytes."""

@type_check_only
class _Komirand:
    def __init__(self, seed: SupportsIndex, extra_seed: SupportsIndex | None = None) -> None: ...
    @classmethod
    def from_words(cls: type[_Self], s1: SupportsIndex, s2: SupportsIndex, /) -> _Self:
        """Return the generator that has these two ints as state."""
    def words(self) -> tuple[int, int]: """Return the state: two ints, which from_words() takes."""
    def next(self) -> int: """Return the next output, an int below 2**64."""
    def fill(self, length: SupportsIndex, /) -> bytes:
        """Return length bytes of the next outputs, each little-endian."""

class komihash(_Komihash): """A stream, like hashlib's objects."""
class Komirand(_Komirand): """A pseudorandom generator, which is not for secrets."""
