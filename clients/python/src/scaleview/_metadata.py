"""A chain's metadata: what it names, and the values by these names."""

from __future__ import annotations

import itertools
from typing import TYPE_CHECKING, Any, Dict, Iterator, Mapping, NamedTuple, Tuple, TypeVar

from . import _kept, _native
from ._base import UnknownName
from ._native import DEPTH, LIMIT
from ._registry import Data, Registry, Type

_R = TypeVar("_R", bound=Registry)
_M = TypeVar("_M", bound="Metadata")
_N = TypeVar("_N", bound="Named")
_V = TypeVar("_V")

# The library's code.
_UNKNOWN_NAME = 204


class Named(Type):
    """A type by the name that metadata gives to it, such as "result:Core.version"."""

    __slots__ = ("name", "has_bytes")

    def __new__(cls: type[_N], metadata: Metadata, type_id: int, name: str, has_bytes: bool) -> _N:
        made = super().__new__(cls, metadata, type_id)
        made.name = name
        made.has_bytes = has_bytes
        return made

    #: The name as a whole.
    name: str
    #: Whether the metadata has bytes for it: those of a constant, a custom value or a storage
    #: entry's default.
    has_bytes: bool

    if TYPE_CHECKING:

        @property
        def registry(self) -> Metadata: ...

    @property
    def data(self) -> bytes:
        """The bytes that the metadata has for it, which need not be a value.

        Raises:
            Refused: It has none.
        """
        return self.registry._name_bytes(self.name)

    def value(self) -> Any:
        """Returns the value that the metadata has for it.

        Raises:
            Refused: The metadata has none, or the bytes are rejected, with the reason and the place
                in them.
            OutOfMemory: An allocation failed, or would have exceeded the bound of `decode`.
        """
        return self.decode(self.data)

    def __reduce__(self) -> Tuple[Any, ...]:
        return type(self), (self.registry, self.id, self.name, self.has_bytes)

    def __repr__(self) -> str:
        return f"<{type(self).__name__} {self.name}, type {self.id}>"


class StorageEntry(Named):
    """A storage entry, which is the type of its values: it decodes and encodes them."""

    __slots__ = ()

    @property
    def key(self) -> Named:
        """The type of its keys: a composite of the hashes of the pallet's and the entry's name, and
        of what each hasher writes. Hashes aren't compared with what they should be.

        Raises:
            UnknownName: The metadata doesn't say what its keys are.
        """
        return self.registry.type_of("key:" + self.name[len(Storage.word) :])

    def decode_key(
        self, data: Data, *, depth: int = DEPTH, limit: int = LIMIT, memory: Any = ...
    ) -> Any:
        """Returns a key of it as a dict. The arguments and exceptions are those of `decode`, and
        UnknownName as for `key`."""
        return self.key.decode(data, depth=depth, limit=limit, memory=memory)

    def default(self) -> Any:
        """Returns the value that an absent one stands for. It raises what `value` does."""
        return self.value()


class Method(NamedTuple):
    """A method of a runtime API."""

    #: The type of what it takes: a composite with a field for each input.
    params: Named
    #: The type of what it returns.
    result: Named


class Names(Mapping[str, _V]):
    """What metadata names by one word and a colon, by the rest of each name.

    An unknown name raises `UnknownName`, which is a KeyError as well. Each value is made when it is
    asked for, and the names are read anew by each iteration.
    """

    __slots__ = ("_metadata",)

    #: What each name begins with in `Metadata.names`.
    word = ""

    def __init__(self, metadata: Metadata) -> None:
        self._metadata = metadata

    def _whole(self, name: str) -> str:
        if not isinstance(name, str):
            raise TypeError(f"a name is a str, not {type(name).__name__}")
        return self.word + name

    def __contains__(self, name: object) -> bool:
        return isinstance(name, str) and self._metadata._has_name(self.word + name)

    def __iter__(self) -> Iterator[str]:
        start = len(self.word)
        return (it.name[start:] for it in self._metadata.names() if it.name.startswith(self.word))

    def __len__(self) -> int:
        return sum(1 for _ in self)

    def __repr__(self) -> str:
        return f"<{type(self).__name__} of {self._metadata!r}>"


class Storage(Names[StorageEntry]):
    """The storage entries of a chain by their names, such as "System.Account"."""

    __slots__ = ()

    word = "storage:"

    def __getitem__(self, name: str) -> StorageEntry:
        whole = self._whole(name)
        type_id, has_bytes = self._metadata._look_up(whole)
        return StorageEntry(self._metadata, type_id, whole, has_bytes)


class Values(Names[Any]):
    """Values that stand in the metadata, by their names. Each is decoded when it is asked for."""

    __slots__ = ()

    def __getitem__(self, name: str) -> Any:
        return self._metadata.type_of(self._whole(name)).value()


class Constants(Values):
    """The values of a chain's constants by their names, such as "Balances.ExistentialDeposit"."""

    __slots__ = ()

    word = "constant:"


class Custom(Values):
    """The custom values of a chain by their names. Metadata of version 14 has none."""

    __slots__ = ()

    word = "custom:"


class Methods(Names[Method]):
    """The methods of a chain's runtime APIs by their names, such as "Core.version". Metadata of
    version 14 names none."""

    __slots__ = ()

    word = "result:"

    def __getitem__(self, name: str) -> Method:
        result = self._metadata.type_of(self._whole(name))
        return Method(self._metadata.type_of("params:" + name), result)


@_kept.shared
class Metadata(Registry, _native.Metadata):
    """A chain's metadata of version 14 or 15, with the names that it gives to types.

    `data` holds its bytes, or text of their hexadecimal digits, with or without 0x before them, as
    a node answers `state_getMetadata`. The answer to `Metadata_metadata_at_version` is taken as
    well. It is an option of bytes: the byte 01, a length as a compact integer, and as many bytes of
    metadata. Both are taken off if the length counts all that follows it. Places count from the
    first byte that is given or spelled.

    It is a registry. Its own types are followed by synthetic ones: those of extrinsics, of storage
    keys and of what the methods of runtime APIs take, and the few small types that these need.

    What it doesn't name raises `UnknownName`.

    Raises:
        Refused: The bytes are rejected, with the reason and the place.
        OutOfMemory: An allocation failed.
        TypeError: `data` has no buffer and is no text.
    """

    # The names that were found: the type, and whether it has bytes.
    _found: Dict[str, Tuple[int, bool]]

    def __new__(cls: type[_M], data: Data, *, bits: bool = False) -> _M:
        made = super().__new__(cls, data, metadata=True, bits=bits, _names=True)
        made._found = {}
        return made

    @classmethod
    def raw(cls: type[_R], data: Data, *, bits: bool = False) -> _R:
        """Raises TypeError: a registry that stands alone has no names. `Registry.raw` opens one."""
        raise TypeError("a registry that stands alone has no names: open it by Registry.raw")

    @classmethod
    def _open(cls: type[_M], data: bytes, is_metadata: bool, has_bits: bool) -> _M:
        return Metadata.__new__(cls, data, bits=has_bits)

    def _state(self) -> Dict[str, Any]:
        state = super()._state()
        del state["_found"]
        return state

    def _look_up(self, name: str) -> Tuple[int, bool]:
        found = self._found.get(name)
        if found is None:
            found = self._found[name] = self._name(name)
        return found

    def _has_name(self, name: str) -> bool:
        try:
            self._look_up(name)
        except (UnknownName, UnicodeEncodeError):
            return False
        return True

    def type_of(self, name: str) -> Named:
        """Returns the type of a name as a whole, such as "calls:Balances" or "event"."""
        type_id, has_bytes = self._look_up(name)
        return Named(self, type_id, name, has_bytes)

    def names(self) -> Iterator[Named]:
        """Iterates over the types that have names, in the order of the metadata."""
        for index in itertools.count():
            found = self._name_at(index)
            if found is None:
                return
            name, type_id, has_bytes = found
            yield Named(self, type_id, name, has_bytes)

    @property
    def storage(self) -> Storage:
        """The storage entries by their names: `storage["System.Account"].decode(data)`."""
        return Storage(self)

    @property
    def constants(self) -> Constants:
        """The constants' values by their names: `constants["Balances.ExistentialDeposit"]`."""
        return Constants(self)

    @property
    def custom(self) -> Custom:
        """The custom values by their names. Metadata of version 14 has none."""
        return Custom(self)

    @property
    def methods(self) -> Methods:
        """What the methods of runtime APIs take and return, by their names:
        `methods["Core.version"]`. Metadata of version 14 names none."""
        return Methods(self)

    def events(
        self, data: Data, *, depth: int = DEPTH, limit: int = LIMIT, memory: Any = ...
    ) -> Any:
        """Returns a block's events, the value of the storage entry System.Events. The arguments and
        exceptions are those of `decode`."""
        type_id, _ = self._look_up("storage:System.Events")
        return self.decode(type_id, data, depth=depth, limit=limit, memory=memory)

    def result(
        self, method: str, data: Data, *, depth: int = DEPTH, limit: int = LIMIT, memory: Any = ...
    ) -> Any:
        """Returns what a method of a runtime API returned, such as "Core.version". Metadata of
        version 14 names none. The other arguments and exceptions are those of `decode`."""
        type_id, _ = self._look_up("result:" + method)
        return self.decode(type_id, data, depth=depth, limit=limit, memory=memory)

    def encode_call(
        self, name: str, fields: Any = (), *, depth: int = DEPTH, memory: Any = ...
    ) -> bytes:
        """Returns the bytes of a call, such as "Balances.transfer_all", with these fields: a dict,
        or a list if they have no names. The other arguments and exceptions are those of
        `encode`."""
        pallet, call = self._call_of(name)
        type_id, _ = self._look_up("call")
        return self.encode(type_id, (pallet, [(call, fields)]), depth=depth, memory=memory)

    def encode_params(
        self, method: str, inputs: Any = None, *, depth: int = DEPTH, memory: Any = ...
    ) -> bytes:
        """Returns the bytes of what a method of a runtime API takes: a dict of its inputs, or None
        if it takes none. The other arguments and exceptions are those of `encode`."""
        type_id, _ = self._look_up("params:" + method)
        return self.encode(type_id, inputs, depth=depth, memory=memory)

    def _call_of(self, name: str) -> Tuple[str, str]:
        """The pallet and the call of a name. A pallet's own name may have a dot."""
        for at, letter in enumerate(name):
            if letter == "." and self._has_name("calls:" + name[:at]):
                return name[:at], name[at + 1 :]
        raise UnknownName(_UNKNOWN_NAME, _native.reason(_UNKNOWN_NAME), "type", name="call:" + name)

    def __repr__(self) -> str:
        if self.closed:
            return "<Metadata, closed>"
        return f"<Metadata {self.version} of {len(self.types)} types>"
