"""Registries, metadata and their types as they are pickled, and how often a process opens each."""

from __future__ import annotations

import concurrent.futures
import copy
import gc
import multiprocessing
import pathlib
import pickle
import subprocess
import sys
import threading
import unittest
import weakref
from typing import Any, Callable

import registries as make
from scaleview import Decoder, Metadata, Registry, _kept
from test_vectors import metadata_of

CHAIN = metadata_of("small chain 15")
U16 = make.registry_of(make.primitive("u16"))
BITS = make.registry_of(make.bits(1, 2), make.primitive("u8"), make.composite(), _2="bitvec::order::Lsb0")
PROTOCOLS = range(pickle.HIGHEST_PROTOCOL + 1)


def registry_of(number: int) -> bytes:
    """A registry that differs from those of other numbers."""
    return make.registry_of(make.primitive("u16"), make.array(number, 0))


SEEN: list[Registry] = []


def see(registry: Registry) -> tuple[int, int]:
    """How many registries this process has seen, and what the last one decodes."""
    if not any(registry is it for it in SEEN):
        SEEN.append(registry)
    return len(SEEN), registry.decode(0, b"\1\2")


class Chain(Metadata):
    """A derived class, whose `__init__` has another argument."""

    def __init__(self, data: bytes, *, note: str = "none") -> None:
        self.note = note

    def __new__(cls, data: bytes, *, note: str = "none") -> Chain:
        return super().__new__(cls, data, bits=True)


class Pickling(unittest.TestCase):
    def check(self, registry: Registry) -> None:
        """What is unpickled is the same registry here, and an equal one after the first is gone."""
        for protocol in PROTOCOLS:
            self.assertIs(pickle.loads(pickle.dumps(registry, protocol)), registry)

    def test_a_process_that_pickles_a_registry_has_one(self) -> None:
        for registry in (Registry(U16), Registry(CHAIN), Metadata(CHAIN), Registry(BITS, bits=True)):
            self.check(registry)
            self.assertIs(copy.copy(registry), registry)
            self.assertIs(copy.deepcopy([registry])[0], registry)

    def anew(self, registry: Registry) -> Any:
        """The registry as a process has it that knows none."""
        data, kept = pickle.dumps(registry), _kept._kept
        _kept._kept = _kept.Kept()
        try:
            other = pickle.loads(data)
        finally:
            _kept._kept = kept
        self.assertIsNot(other, registry)
        self.assertIs(type(other), type(registry))
        self.assertEqual(other._source, registry._source)
        return other

    def test_flags_are_kept(self) -> None:
        self.assertEqual(self.anew(Registry(U16)).decode(0, b"\1\0"), 1)
        self.assertEqual(self.anew(Registry(BITS, bits=True)).decode(0, b"\x0c\5"), [True, False, True])
        for call in (lambda: Registry(BITS), lambda: self.anew(Registry(BITS))):
            with self.assertRaisesRegex(ValueError, "BitSequence"):
                call().decode(0, b"\x0c\5")
        self.assertEqual(self.anew(Metadata(CHAIN)).storage["Sys.Now"].name, "storage:Sys.Now")
        self.assertIsNone(self.anew(Registry(U16)).version)
        self.assertEqual(self.anew(Registry(CHAIN)).version, 15)

    def test_flags_make_different_registries(self) -> None:
        some = [Registry(CHAIN), Registry(CHAIN, bits=True), Metadata(CHAIN), Metadata(CHAIN, bits=True)]
        self.assertEqual([pickle.loads(pickle.dumps(it)) for it in some], some)
        self.assertEqual(len(set(map(id, some))), 4)

    def test_the_flag_of_metadata_is_kept_as_it_was_found(self) -> None:
        sources = [(Registry.raw(U16), U16, False), (Registry(CHAIN), CHAIN, True), (Registry(CHAIN, metadata=True), CHAIN, True)]
        for registry, data, is_metadata in sources:
            self.assertEqual(self.anew(registry)._source, (data, is_metadata, False))

    def test_all_that_opens_is_pickled(self) -> None:
        wrapped = b"\1" + make.compact(len(CHAIN)) + CHAIN

        class Bytes(bytes):
            pass

        for data in (CHAIN, bytearray(CHAIN), memoryview(CHAIN), Bytes(CHAIN), CHAIN.hex(), "0x" + CHAIN.hex() + "\n"):
            self.assertEqual(Metadata(data)._source, (CHAIN, True, False))
            self.assertIs(type(Metadata(data)._source[0]), bytes)
            self.assertEqual(self.anew(Metadata(data)).version, 15)
        self.assertEqual(self.anew(Metadata(wrapped)).storage["Sys.Now"].id, Metadata(CHAIN).storage["Sys.Now"].id)

    def test_types_are_pickled_with_their_registry(self) -> None:
        metadata = Metadata(CHAIN)
        entry = metadata.storage["Sys.Now"]
        for found in (metadata.types[3], metadata.type_of("call"), entry):
            for protocol in PROTOCOLS:
                other = pickle.loads(pickle.dumps(found, protocol))
                self.assertEqual((other, type(other), repr(other)), (found, type(found), repr(found)))
        self.assertEqual(pickle.loads(pickle.dumps(entry)).has_bytes, entry.has_bytes)
        call: Callable[[bytes], Any] = pickle.loads(pickle.dumps(Registry(U16).types[0].decode))
        self.assertEqual(call(b"\1\2"), 513)
        self.assertIn("Sys.Now", pickle.loads(pickle.dumps(metadata.storage)))
        self.assertEqual(len(pickle.loads(pickle.dumps(metadata.types))), len(metadata.types))

    def test_what_is_closed_or_a_decoder_is_not_pickled(self) -> None:
        registry = Registry(U16)
        with self.assertRaises(TypeError):
            pickle.dumps(Decoder(registry, 0))
        data = pickle.dumps(registry)
        registry.close()
        with self.assertRaisesRegex(ValueError, "^the registry is closed$"):
            pickle.dumps(registry)
        other = pickle.loads(data)
        self.assertIsNot(other, registry)
        self.assertEqual(other.decode(0, b"\1\2"), 513)
        other.close()
        self.assertFalse(pickle.loads(data).closed)

    def test_derived_classes_are_opened_anew_with_their_attributes(self) -> None:
        chain = Chain(CHAIN, note="mine")
        chain.storage["Sys.Now"]
        others = [pickle.loads(pickle.dumps(chain, protocol)) for protocol in PROTOCOLS]
        self.assertEqual([vars(other) for other in others], [{"_found": {}, "note": "mine"}] * len(others))
        self.assertEqual([type(other) for other in others], [Chain] * len(others))
        self.assertEqual([other._source for other in others], [chain._source] * len(others))
        self.assertEqual(len({id(other) for other in (chain, *others)}), len(others) + 1)

    def test_few_registries_stay_open_that_nobody_uses(self) -> None:
        pickled = [pickle.dumps(Registry(registry_of(number))) for number in range(60)]
        alive = [weakref.ref(pickle.loads(data)) for data in pickled]
        gc.collect()
        self.assertEqual([at for at, it in enumerate(alive) if it() is not None], list(range(60 - _kept.MOST_HELD, 60)))
        used = pickle.loads(pickled[0])
        for data in pickled:
            pickle.loads(data)
        self.assertIs(pickle.loads(pickled[0]), used)

    def test_threads_open_a_registry_once(self) -> None:
        data, barrier = pickle.dumps(Registry(registry_of(1000))), threading.Barrier(8)

        def load(_: int) -> Any:
            barrier.wait()
            return pickle.loads(data)

        for _ in range(20):
            with concurrent.futures.ThreadPoolExecutor(8) as pool:
                self.assertEqual(len({id(it) for it in pool.map(load, range(8))}), 1)

    def test_a_worker_opens_a_registry_once(self) -> None:
        registry = Registry(registry_of(1001))
        for method in ("spawn", "fork"):
            context = multiprocessing.get_context(method)
            with concurrent.futures.ProcessPoolExecutor(1, mp_context=context) as pool:
                found = [call.result() for call in [pool.submit(see, registry) for _ in range(5)]]
            self.assertEqual(found, [(1, 513)] * 5)

    def test_a_fork_during_an_unpickling_leaves_a_lock_that_works(self) -> None:
        program = (
            "import os, pickle, scaleview\n"
            "from scaleview import _kept\n"
            f"data = pickle.dumps(scaleview.Registry(bytes.fromhex({U16.hex()!r})))\n"
            "import threading\n"
            "held, done = threading.Event(), threading.Event()\n"
            "def hold():\n"
            "    with _kept._kept._lock:\n"
            "        held.set(); done.wait()\n"
            "thread = threading.Thread(target=hold); thread.start(); held.wait()\n"
            "child = os.fork()\n"
            "if child == 0:\n"
            "    os._exit(pickle.loads(data).decode(0, b'\\7\\0'))\n"
            "status = os.waitpid(child, 0)[1]; done.set(); thread.join()\n"
            "print(os.WEXITSTATUS(status))\n"
        )
        ended = subprocess.run([sys.executable, "-c", program], stdout=subprocess.PIPE, timeout=60, universal_newlines=True)
        self.assertEqual(ended.stdout, "7\n")

    def test_the_package_imports_no_cluster(self) -> None:
        program = "import sys, scaleview, scaleview.archive.command; print('distributed' in sys.modules, 'dask' in sys.modules)"
        ended = subprocess.run([sys.executable, "-c", program], stdout=subprocess.PIPE, universal_newlines=True, check=True)
        self.assertEqual(ended.stdout, "False False\n")


if __name__ == "__main__":
    unittest.main()
