"""Registries and their types."""

from __future__ import annotations

import os
from typing import (
    TYPE_CHECKING,
    Any,
    Dict,
    Iterator,
    List,
    NamedTuple,
    Optional,
    Sequence,
    SupportsIndex,
    Tuple,
    TypeVar,
    Union,
    overload,
)

from . import _kept, _native

# Checkers of types know typing_extensions, which needn't be installed.
if TYPE_CHECKING:
    from typing_extensions import Buffer

    #: Bytes, or text of hexadecimal digits.
    Data = Union[Buffer, str]
else:
    Data = Any

_R = TypeVar("_R", bound="Registry")
_T = TypeVar("_T", bound="Type")

# In a child process no call of the parent's threads is under way.
os.register_at_fork(after_in_child=_native._after_fork)


#: Stands for no position of an arm or of a field.
_NONE = 2**32 - 1


class Field(NamedTuple):
    """A field of a composite or of an arm, or a member of a tuple."""

    name: Optional[str]
    #: The position of its type.
    type: int
    #: The type's name as the source has it, if the registry has it.
    type_name: Optional[str] = None
    #: The lines of its documentation.
    docs: Tuple[str, ...] = ()


class Arm(NamedTuple):
    """An arm of a variant."""

    name: str
    #: The first byte of its values.
    index: int
    fields: List[Field]
    #: The lines of its documentation.
    docs: Tuple[str, ...] = ()


class Param(NamedTuple):
    """A parameter of a generic type."""

    name: str
    #: The position of the type that stands for it, if there is one. It need not exist.
    type: Optional[int]


class Type(_native.Type):
    """A type of a registry, which decodes and encodes its values.

    Wherever a type is named, it or its `id` may stand.
    """

    __slots__ = ()

    @property
    def path(self) -> str:
        """Its path, such as "frame_system::AccountInfo", or "" if it has none."""
        return self.registry._path(self.id)

    @property
    def kind(self) -> str:
        """What it is: "composite", "variant", "sequence", "array", "tuple", "compact",
        "bitsequence" or a primitive, such as "u32"."""
        return self.registry._shape(self.id)[0]

    @property
    def size_class(self) -> str:
        """How many bytes its values take: "Sized", "Empty" for none, or "NoValue" if it has no
        finite value."""
        return self.registry._shape(self.id)[1]

    @property
    def fields(self) -> List[Field]:
        """The fields of a composite or the members of a tuple, and else an empty list."""
        return self._fields_of(_NONE, self.registry._parts(self.id))

    @property
    def variants(self) -> List[Arm]:
        """The arms of a variant, and else an empty list."""
        arms = self.registry._arms(self.id)
        return [
            Arm(name, index, self._fields_of(at, pairs), tuple(self.registry._docs(self.id, at)))
            for at, (name, index, pairs) in enumerate(arms)
        ]

    @property
    def params(self) -> List[Param]:
        """The parameters of a generic type, and else an empty list."""
        return [Param(name, type_id) for name, type_id in self.registry._params(self.id)]

    @property
    def docs(self) -> Tuple[str, ...]:
        """The lines of its documentation."""
        return tuple(self.registry._docs(self.id))

    def _fields_of(self, arm: int, pairs: List[Tuple[Optional[str], int]]) -> List[Field]:
        registry = self.registry
        return [
            Field(
                name,
                type_id,
                registry._type_name(self.id, arm, at),
                tuple(registry._docs(self.id, arm, at)),
            )
            for at, (name, type_id) in enumerate(pairs)
        ]

    @property
    def element(self) -> Optional[int]:
        """The position of the type of a sequence's or an array's elements, of what a compact wraps,
        or of a bit sequence's store, and else None."""
        return self.registry._shape(self.id)[2]

    @property
    def order(self) -> Optional[int]:
        """The position of the type that names the order of a bit sequence, and else None."""
        return self.registry._shape(self.id)[3]

    @property
    def length(self) -> Optional[int]:
        """The number of elements of an array, and else None."""
        return self.registry._shape(self.id)[4]

    def __eq__(self, other: object) -> bool:
        if not isinstance(other, Type):
            return NotImplemented
        return self.registry is other.registry and self.id == other.id

    def __hash__(self) -> int:
        return hash((id(self.registry), self.id))

    def __copy__(self: _T) -> _T:
        return self

    def __deepcopy__(self: _T, memo: object) -> _T:
        return self

    def __reduce__(self) -> Tuple[Any, ...]:
        return type(self), (self.registry, self.id)

    def __str__(self) -> str:
        """Returns its position, class, kind and path, as the command prints them."""
        return self.registry._line(self.id)[:-1]

    def __repr__(self) -> str:
        return f"<Type {self.id} {' '.join(filter(None, (self.kind, self.path)))}>"


class Types(Sequence[Type]):
    """The types of a registry by position. Each is made when it is asked for."""

    __slots__ = ("_registry",)

    def __init__(self, registry: Registry) -> None:
        self._registry = registry

    def __len__(self) -> int:
        return self._registry._count

    @overload
    def __getitem__(self, index: SupportsIndex) -> Type: ...

    @overload
    def __getitem__(self, index: slice) -> List[Type]: ...

    def __getitem__(self, index: Union[SupportsIndex, slice]) -> Union[Type, List[Type]]:
        try:
            found = range(len(self))[index]
        except IndexError:
            raise IndexError(f"the registry has no type at {index}: it has {len(self)}") from None
        if isinstance(found, range):
            return [Type(self._registry, type_id) for type_id in found]
        return Type(self._registry, found)

    def __iter__(self) -> Iterator[Type]:
        return (Type(self._registry, type_id) for type_id in range(len(self)))

    def __repr__(self) -> str:
        return f"<{len(self)} types>"


@_kept.shared
class Registry(_native.Registry):
    """An open registry of types.

    `data` holds a registry's bytes, or a chain's metadata of version 14 or 15, which is recognised
    by its four letters "meta". With `metadata=True` it has to be metadata, and with
    `metadata=False` a registry. The names that metadata gives to types are read by `Metadata`
    alone. `data` may also be text of hexadecimal digits, with or without 0x before them.

    With `bits=True` it reads values of bit sequences. The store of such a type has to be u8, u16,
    u32 or u64, and its order a composite without fields whose path ends with Lsb0 or Msb0. Values
    of other bit sequences are rejected, as all are by default.

    It needs no `close`: memory is freed with the last object that uses it.

    It is pickled as its bytes and flags. A process that unpickles it has one registry for each
    content, as does the process that pickled it, so closing that one closes it for all who have it.
    The 16 registries that were unpickled last stay open. One of a derived class is opened anew each
    time, without a call of `__new__` or `__init__` of that class, and has the attributes of the
    first. A copy is the registry itself.

    Raises:
        Refused: The bytes are rejected, with the reason and the place.
        OutOfMemory: An allocation failed.
        TypeError: `data` has no buffer and is no text.
    """

    @classmethod
    def raw(cls: type[_R], data: Data, *, bits: bool = False) -> _R:
        """Opens a registry that stands alone, whatever its first letters are."""
        return cls(data, metadata=False, bits=bits)

    @classmethod
    def _open(cls: type[_R], data: bytes, is_metadata: bool, has_bits: bool) -> _R:
        return Registry.__new__(cls, data, metadata=is_metadata, bits=has_bits)

    def _state(self) -> Dict[str, Any]:
        """What a registry of a derived class has beside its content."""
        return dict(vars(self))

    def __reduce__(self) -> Tuple[Any, ...]:
        return _kept.reduced(self, self._state())

    def __copy__(self: _R) -> _R:
        return self

    def __deepcopy__(self: _R, memo: object) -> _R:
        return self

    @property
    def types(self) -> Types:
        """The types by position."""
        return Types(self)

    def find(self, path: str) -> Optional[Type]:
        """Returns the first type with this path, such as "frame_system::AccountInfo", or None, as
        for ""."""
        found = self._find(path)
        return None if found is None else Type(self, found)

    def find_all(self, path: str) -> List[Type]:
        """Returns all types with this path, in order of position."""
        found = []
        at = self._find(path)
        while at is not None:
            found.append(Type(self, at))
            at = self._find(path, at + 1)
        return found

    def sequences_of(self, element: Union[int, Type]) -> List[Type]:
        """Returns all sequences whose elements are of this type, in order of position.

        Raises:
            Refused: The registry has no such type.
        """
        self._shape(element)
        wanted = ("sequence", int(element))
        shapes = ((at, self._shape(at)) for at in range(self._count))
        return [Type(self, at) for at, shape in shapes if (shape[0], shape[2]) == wanted]

    def __repr__(self) -> str:
        if self.closed:
            return "<Registry, closed>"
        version = "" if self.version is None else f", metadata {self.version}"
        return f"<Registry of {len(self.types)} types{version}>"
