"""Keeps the registries that a process unpickles, so that it opens each one once."""

from __future__ import annotations

import collections
import os
import threading
import weakref
from typing import TYPE_CHECKING, Any, Dict, NamedTuple, Optional, Set, Tuple, Type, TypeVar

if TYPE_CHECKING:
    from ._registry import Registry

_R = TypeVar("_R", bound="Registry")

# How many of the registries that were unpickled last stay open without another user.
MOST_HELD = 16


class Content(NamedTuple):
    """What a registry is opened from."""

    kind: Type[Registry]
    data: bytes
    is_metadata: bool
    has_bits: bool

    def open(self) -> Registry:
        return self.kind._open(self.data, self.is_metadata, self.has_bits)


class Kept:
    """The open registries of a process by their contents.

    Those that nothing else uses are dropped, but for the last `MOST_HELD`.
    """

    def __init__(self) -> None:
        self._lock = threading.RLock()
        self._open: weakref.WeakValueDictionary[Content, Registry] = weakref.WeakValueDictionary()
        self._held: collections.OrderedDict[Content, Registry] = collections.OrderedDict()

    def unlock(self) -> None:
        """Forgets what other threads of the parent process did, in a child process."""
        self._lock = threading.RLock()

    def add(self, content: Content, registry: Registry) -> None:
        """Makes an open registry the one of its content."""
        with self._lock:
            self._open[content] = registry

    def find(self, content: Content) -> Registry:
        """Returns the registry of this content, which is opened if it isn't open."""
        with self._lock:
            registry = self._open.get(content)
            if registry is None or registry.closed:
                registry = self._open[content] = content.open()
            self._held[content] = registry
            self._held.move_to_end(content)
            if len(self._held) > MOST_HELD:
                self._held.popitem(last=False)
        return registry


_kept = Kept()
_shared: Set[Type[Registry]] = set()
os.register_at_fork(after_in_child=_kept.unlock)


def shared(kind: Type[_R]) -> Type[_R]:
    """Marks a class, but not the classes derived from it: its registries have no other state than
    their contents, so unpickling may return one that is open."""
    _shared.add(kind)
    return kind


def opened(kind: Type[_R], data: bytes, is_metadata: bool, has_bits: bool) -> _R:
    """Returns this process's registry of a content."""
    found: Any = _kept.find(Content(kind, data, is_metadata, has_bits))
    return found  # type: ignore[no-any-return]


def opened_anew(kind: Type[_R], data: bytes, is_metadata: bool, has_bits: bool) -> _R:
    """Returns a new registry. Attributes may be added to it."""
    return kind._open(data, is_metadata, has_bits)


def reduced(registry: Registry, state: Optional[Dict[str, Any]]) -> Tuple[Any, ...]:
    """Returns what `__reduce__` returns: a class and a content, and a state for a derived class.

    Raises:
        ValueError: The registry is closed.
    """
    content = Content(type(registry), *registry._source)
    if content.kind not in _shared:
        return opened_anew, tuple(content), state or None
    _kept.add(content, registry)
    return opened, tuple(content)
