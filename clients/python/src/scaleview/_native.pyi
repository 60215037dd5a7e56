from types import TracebackType
from typing import Any, Dict, Iterable, List, Optional, Tuple, Type as Class, TypeVar, Union, final

from typing_extensions import Buffer

from . import _registry

DEPTH: int
LIMIT: int
LIBRARY_VERSION: int

def reason(code: int, /) -> str: ...
def _after_fork() -> None: ...

@final
class Variant:
    __match_args__ = ("name", "fields")
    __hash__: None  # type: ignore[assignment]
    def __new__(
        cls,
        name: str,
        fields: Union[Dict[str, Any], List[Any], Tuple[Any, ...]] = ...,
        index: Optional[int] = None,
    ) -> Variant: ...
    @property
    def name(self) -> str: ...
    @property
    def fields(self) -> Any: ...
    @property
    def index(self) -> Optional[int]: ...

_R = TypeVar("_R", bound=Registry)
_T = TypeVar("_T", bound=Type)

# Where `memory` isn't given, it is 64 MiB and 64 times the length of the input; None sets no bound.
# Text is that of hexadecimal digits.
class Registry:
    def __new__(
        cls: Class[_R],
        data: Union[Buffer, str],
        *,
        metadata: Optional[bool] = None,
        bits: bool = False,
        _names: bool = False,
    ) -> _R: ...
    @property
    def version(self) -> Optional[int]: ...
    @property
    def end(self) -> int: ...
    @property
    def closed(self) -> bool: ...
    @property
    def _count(self) -> int: ...
    @property
    def _source(self) -> Tuple[bytes, bool, bool]: ...
    def decode(
        self,
        type: Union[int, Type],
        data: Union[Buffer, str],
        *,
        depth: int = ...,
        limit: int = ...,
        memory: Optional[int] = ...,
        opaque: bool = ...,
    ) -> Any: ...
    def decode_prefix(
        self,
        type: Union[int, Type],
        data: Union[Buffer, str],
        *,
        depth: int = ...,
        limit: int = ...,
        memory: Optional[int] = ...,
    ) -> Tuple[Any, int]: ...
    def decode_json(
        self,
        type: Union[int, Type],
        data: Union[Buffer, str],
        *,
        depth: int = ...,
        limit: int = ...,
        memory: Optional[int] = ...,
        opaque: bool = ...,
    ) -> str: ...
    def decode_many(
        self,
        type: Union[int, Type],
        items: Iterable[Union[Buffer, str]],
        *,
        depth: int = ...,
        limit: int = ...,
        memory: Optional[int] = ...,
        opaque: bool = ...,
    ) -> List[Any]: ...
    def encode(
        self, type: Union[int, Type], value: Any, *, depth: int = ..., memory: Optional[int] = ...
    ) -> bytes: ...
    def close(self) -> None: ...
    def _shape(
        self, type: Union[int, Type], /
    ) -> Tuple[str, str, Optional[int], Optional[int], Optional[int]]: ...
    def _parts(self, type: int, /) -> List[Tuple[Optional[str], int]]: ...
    def _arms(self, type: int, /) -> List[Tuple[str, int, List[Tuple[Optional[str], int]]]]: ...
    def _params(self, type: int, /) -> List[Tuple[str, Optional[int]]]: ...
    def _docs(self, type: int, arm: int = ..., field: int = ..., /) -> List[str]: ...
    def _type_name(self, type: int, arm: int, field: int, /) -> Optional[str]: ...
    def _path(self, type: int, /) -> str: ...
    def _line(self, type: int, /) -> str: ...
    def _find(self, path: str, start: int = ..., /) -> Optional[int]: ...
    def _name(self, name: str, /) -> Tuple[int, bool]: ...
    def _name_at(self, index: int, /) -> Optional[Tuple[str, int, bool]]: ...
    def _name_bytes(self, name: str, /) -> bytes: ...
    def __enter__(self: _R) -> _R: ...
    def __exit__(
        self,
        kind: Optional[Class[BaseException]],
        error: Optional[BaseException],
        trace: Optional[TracebackType],
    ) -> None: ...

class Metadata(Registry):
    def extrinsic(
        self,
        data: Union[Buffer, str],
        *,
        depth: int = ...,
        limit: int = ...,
        memory: Optional[int] = ...,
    ) -> Any: ...
    def call(
        self,
        data: Union[Buffer, str],
        *,
        depth: int = ...,
        limit: int = ...,
        memory: Optional[int] = ...,
    ) -> Any: ...

class Type:
    def __new__(cls: Class[_T], registry: Registry, type_id: int) -> _T: ...
    @property
    def registry(self) -> _registry.Registry: ...
    @property
    def id(self) -> int: ...
    def decode(
        self,
        data: Union[Buffer, str],
        *,
        depth: int = ...,
        limit: int = ...,
        memory: Optional[int] = ...,
        opaque: bool = ...,
    ) -> Any: ...
    def encode(self, value: Any, *, depth: int = ..., memory: Optional[int] = ...) -> bytes: ...
    def __index__(self) -> int: ...

@final
class Decoder:
    def __new__(
        cls,
        registry: Registry,
        type: Union[int, Type],
        *,
        depth: int = ...,
        limit: int = ...,
        memory: Optional[int] = ...,
    ) -> Decoder: ...
    @property
    def taken(self) -> int: ...
    @property
    def nodes(self) -> int: ...
    @property
    def text_bytes(self) -> int: ...
    @property
    def closed(self) -> bool: ...
    def __repr__(self) -> str: ...
    def feed(self, piece: Buffer, /) -> Optional[int]: ...
    def finish(self) -> Any: ...
    def finish_json(self) -> str: ...
    def close(self) -> None: ...
    def __enter__(self) -> Decoder: ...
    def __exit__(
        self,
        kind: Optional[Class[BaseException]],
        error: Optional[BaseException],
        trace: Optional[TracebackType],
    ) -> None: ...
