"""Registries and decoders in several threads, signals, and what calls leave in memory."""

from __future__ import annotations

import contextlib
import gc
import os
import pathlib
import signal
import sys
import threading
import time
import unittest
import warnings
import weakref
from typing import Any, Callable, Iterator

import registries as make
from scaleview import Decoder, Refused, Registry, Variant

EXAMPLES = pathlib.Path(__file__).resolve().parents[3] / "examples"
U16 = make.registry_of(make.primitive("u16"))
BYTES = make.registry_of(make.primitive("u8"), make.sequence(0))
CHAIN = make.registry_of(make.variant(("End", 0, ()), ("Next", 1, (("rest", 0), ("an", 1)))), make.members())


def run_threads(*bodies: Callable[[], object], stack: int = 0) -> list[BaseException]:
    """Runs the bodies on threads at once, which switch often. Returns what they raise."""
    raised: list[BaseException] = []
    barrier = threading.Barrier(len(bodies))

    def run(body: Callable[[], object]) -> None:
        barrier.wait()
        try:
            body()
        except BaseException as error:
            raised.append(error)

    interval, size = sys.getswitchinterval(), threading.stack_size(stack)
    sys.setswitchinterval(1e-6)
    try:
        threads = [threading.Thread(target=run, args=(body,)) for body in bodies]
        for thread in threads:
            thread.start()
        for thread in threads:
            thread.join()
    finally:
        sys.setswitchinterval(interval)
        threading.stack_size(size)
    return raised


@contextlib.contextmanager
def alarms(handler: Callable[[], object], first: float, interval: float = 0) -> Iterator[None]:
    """Calls the handler after `first` seconds, and then at each interval if there is one."""
    before = signal.signal(signal.SIGALRM, lambda number, frame: handler())
    signal.setitimer(signal.ITIMER_REAL, first, interval)
    try:
        yield
    finally:
        signal.setitimer(signal.ITIMER_REAL, 0)
        signal.signal(signal.SIGALRM, before)


def interrupt() -> None:
    raise KeyboardInterrupt


def resident() -> int:
    """The memory of this process in bytes."""
    with open("/proc/self/statm") as file:
        return int(file.read().split()[1]) * 4096


class Threads(unittest.TestCase):
    def test_threads_share_a_registry(self) -> None:
        """Each has a decoder, and makes every other call, on short and long inputs."""
        registry = Registry((EXAMPLES / "runtime" / "metadata.scale").read_bytes())
        data = (EXAMPLES / "runtime" / "events_block.scale").read_bytes()
        account = (EXAMPLES / "runtime" / "account_info.scale").read_bytes()
        alone = Registry((EXAMPLES / "runtime" / "metadata.scale").read_bytes())
        value, text, short = alone.decode(10, data), alone.decode_json(10, data), alone.decode(0, account)

        def work() -> None:
            for step in (700, 5000, 12000):
                decoder = Decoder(registry, 10)
                for at in range(0, len(data), step):
                    used = decoder.feed(data[at : at + step])
                    self.assertEqual(registry.decode(0, account), short)
                self.assertEqual(used, (len(data) - 1) % step + 1)
                self.assertEqual(decoder.finish(), value)
                self.assertEqual(registry.decode(10, data), value)
                self.assertEqual(registry.decode_prefix(10, data + data), (value, len(data)))
                self.assertEqual(registry.encode(10, value), data)
                self.assertEqual(decoder.finish_json(), text)
                self.assertEqual(registry.decode_json(10, data, depth=1024), text)
                self.assertEqual(registry.types[11].fields[0].name, "phase")

        self.assertEqual(run_threads(*[work] * 4), [])
        self.assertEqual(run_threads(*[work] * 4), [])

    def test_threads_share_a_decoder(self) -> None:
        registry = Registry(BYTES)
        for size in (1, 5000):
            decoder, front = Decoder(registry, 1, limit=1 << 25), make.compact(4000 * size)
            self.assertIsNone(decoder.feed(front))

            def feed() -> None:
                for _ in range(1000):
                    decoder.feed(b"\7" * size)

            self.assertEqual(run_threads(*[feed] * 4), [])
            self.assertEqual(decoder.taken, 4000 * size + len(front))
            self.assertEqual(decoder.finish(), b"\7" * 4000 * size)

    def test_threads_close_what_others_use(self) -> None:
        piece = b"\1" * 5000
        for _ in range(100):
            registry = Registry(BYTES)
            decoder, other = Decoder(registry, 1), Decoder(registry, 1)
            value = (5000 << 2 | 1).to_bytes(2, "little") + piece

            def use() -> None:
                for _ in range(3):
                    self.assertEqual(registry.decode(1, value), piece)
                    decoder.feed(value)
                    self.assertEqual(decoder.finish(), piece)

            def close() -> None:
                other.feed(value)
                registry.close()
                decoder.close()
                other.close()

            for error in run_threads(use, use, close, close):
                self.assertRegex(str(error), "^the (registry|decoder) is closed$")

    def test_a_decoder_is_dropped_while_others_work(self) -> None:
        """Its finalizer runs in any thread, and doesn't wait."""
        registry = Registry(BYTES)
        value = (1 << 20 << 2 | 2).to_bytes(4, "little") + bytes(1 << 20)

        def work() -> None:
            for _ in range(20):
                decoder = Decoder(registry, 1)
                decoder.feed(value)
                cycle: list[Any] = [decoder]
                cycle.append(cycle)
                del decoder, cycle
                gc.collect()

        self.assertEqual(run_threads(*[work] * 4), [])

    def test_a_finalizer_may_use_the_registry(self) -> None:
        """Garbage is collected while a value is made, and its finalizer waits for no call of its own thread."""
        registry = Registry((EXAMPLES / "runtime" / "metadata.scale").read_bytes())
        data = (EXAMPLES / "runtime" / "events_block.scale").read_bytes()
        seen = []

        class Final:
            def __del__(self) -> None:
                decoder = Decoder(registry, 1)
                seen.append((decoder.feed(b"\2\0\0\0"), registry.decode(1, b"\3\0\0\0")))

        threshold = gc.get_threshold()
        gc.set_threshold(5)
        try:
            for _ in range(20):
                cycle: list[Any] = [Final()]
                cycle.append(cycle)
                del cycle
                registry.encode(10, registry.decode(10, data))
        finally:
            gc.set_threshold(*threshold)
        gc.collect()
        self.assertEqual(seen, [(4, 3)] * 20)

    def check_fork(self, call: Callable[[], object], in_child: Callable[[], None]) -> None:
        """The process is forked while another thread makes a call without the interpreter's lock."""
        is_over = threading.Event()

        def work() -> None:
            while not is_over.is_set():
                call()

        thread = threading.Thread(target=work)
        thread.start()
        try:
            for _ in range(10):
                time.sleep(0.02)
                with warnings.catch_warnings():
                    warnings.simplefilter("ignore")
                    child = os.fork()
                if child == 0:
                    signal.alarm(20)
                    status = 1
                    try:
                        in_child()
                        status = 0
                    finally:
                        os._exit(status)
                self.assertEqual(os.waitpid(child, 0)[1], 0)
        finally:
            is_over.set()
            thread.join()

    @unittest.skipUnless(hasattr(os, "fork"), "there is no fork here")
    def test_a_forked_process_waits_for_no_thread_of_its_parent(self) -> None:
        registry = Registry(make.registry_of(make.primitive("u16"), make.sequence(0)))
        data = make.compact(1 << 20) + bytes(2 << 20)
        many = make.compact(1 << 17) + bytes(1 << 18)
        waiting = Decoder(registry, 0)

        def read() -> None:
            decoder = Decoder(registry, 0)
            assert (waiting.feed(b"\1\0"), decoder.feed(b"\2\0"), decoder.finish()) == (2, 2, 2)
            assert registry.decode(0, b"\3\0") == 3

        self.check_fork(lambda: registry.decode_json(1, data), read)

        def use_torn() -> None:
            """What another thread was writing isn't used, but there may have been no call."""
            nonlocal waiting
            assert registry.decode(0, b"\3\0") == 3
            assert registry.decode(1, many) == [0] * (1 << 17)
            for call in (lambda: waiting.feed(b"\1\0"), lambda: Decoder(registry, 0)):
                with contextlib.suppress(RuntimeError):
                    call()
            del waiting
            registry.close()

        def feed() -> None:
            Decoder(registry, 1).feed(data)

        self.check_fork(feed, use_torn)

    def test_a_small_stack_is_enough(self) -> None:
        """128 KiB for every call, whose text is made on another thread where it needs more."""
        registry = Registry(CHAIN)

        def work(depth: int) -> None:
            data = b"\1" * depth + b"\0"
            value = registry.decode(0, data, depth=depth)
            self.assertEqual(registry.encode(0, value, depth=depth), data)
            text = registry.decode_json(0, data, depth=depth)
            self.assertEqual(text.count("{"), 2 * depth + 1)
            decoder = Decoder(registry, 0, depth=depth)
            decoder.feed(data)
            self.assertEqual(decoder.finish_json(), text)
            found = decoder.finish()
            for _ in range(depth):
                found = found.fields["rest"]
            self.assertEqual(found, Variant("End"))

        for depth in (0, 63, 64, 65, 1024):
            self.assertEqual(run_threads(lambda: work(depth), stack=128 << 10), [])


@unittest.skipUnless(hasattr(signal, "setitimer"), "there is no timer here")
class Signals(unittest.TestCase):
    registry = Registry(make.registry_of(make.primitive("bool"), make.sequence(0)))
    data = make.compact(4 << 20) + bytes(4 << 20)

    def check_handled(self, call: Callable[[], object]) -> None:
        """A handler is called several times before the call ends, and not once after it."""
        handled: list[None] = []
        with alarms(lambda: handled.append(None), 0.001, 0.001):
            call()
            count = len(handled)
        self.assertGreaterEqual(count, 5)

    def test_signals_are_handled_while_bytes_are_read(self) -> None:
        """No object is made of the bytes, since the last one is wrong."""
        wrong = self.data[:-1] + b"\2"

        def call() -> None:
            with self.assertRaisesRegex(Refused, f"^value: BadBool at {len(wrong) - 1}$"):
                self.registry.decode(1, wrong)

        self.check_handled(call)

    def test_signals_are_handled_while_objects_are_made(self) -> None:
        """Few bytes, which the library reads in one call, make two million objects."""
        empties = make.composite((None, 1), *[(None, 0)] * 50_000)
        registry = Registry(make.registry_of(make.members(), make.primitive("u8"), empties, make.sequence(2)))
        data = make.compact(40) + bytes(40)
        self.check_handled(lambda: registry.decode(3, data, memory=None))

    def test_signals_are_handled_between_values(self) -> None:
        items = [b"\0"] * (1 << 18)
        self.check_handled(lambda: self.registry.decode_many(0, items))

    def test_an_interrupt_ends_a_call(self) -> None:
        start = time.monotonic()
        self.registry.decode(1, self.data)
        whole = time.monotonic() - start
        for call in (self.registry.decode, self.registry.decode_prefix):
            start = time.monotonic()
            with self.assertRaises(KeyboardInterrupt), alarms(interrupt, whole / 50):
                call(1, self.data)
            self.assertLess(time.monotonic() - start, whole / 2)
        self.assertEqual(self.registry.decode(0, b"\1"), True)


@unittest.skipUnless(sys.platform == "linux", "the memory of the process is read from /proc")
class Memory(unittest.TestCase):
    def check_stays(self, body: Callable[[], object], count: int, most: int) -> None:
        """Many runs leave less than `most` bytes."""
        for _ in range(10):
            body()
        gc.collect()
        before = resident()
        for _ in range(count):
            body()
        gc.collect()
        self.assertLess(resident() - before, most)

    def test_a_registry_is_freed(self) -> None:
        """By itself, with its last decoder, and in reference cycles; each takes more than a mebibyte."""
        data = (EXAMPLES / "runtime" / "metadata.scale").read_bytes()
        events = (EXAMPLES / "runtime" / "events_block.scale").read_bytes()

        class Owner:
            def __init__(self) -> None:
                self.registry = Registry(data)
                self.decoder = Decoder(self.registry, 10)
                self.decoder.feed(events[:100])
                self.owner = self

        class Subclass(Registry):
            pass

        def cycle() -> None:
            Owner()
            gc.collect()

        def own_cycle() -> None:
            registry = Subclass(data)
            registry.types_kept = [registry, registry.types[0]]  # type: ignore[attr-defined]
            del registry
            gc.collect()

        def last_decoder() -> None:
            registry = Registry(data)
            decoders = [Decoder(registry, 10), Decoder(registry, 10)]
            registry.decode(10, events)
            registry.close()
            for decoder in decoders:
                decoder.feed(events)
                decoder.finish()

        for body in (cycle, own_cycle, last_decoder):
            with self.subTest(body.__name__):
                self.check_stays(body, 40, 20 << 20)

    def test_calls_leave_nothing(self) -> None:
        registry = Registry((EXAMPLES / "runtime" / "metadata.scale").read_bytes())
        data = (EXAMPLES / "runtime" / "events_block.scale").read_bytes()
        value = registry.decode(10, data)

        def calls() -> None:
            registry.decode(10, data)
            registry.decode_json(10, data)
            registry.decode_many(10, [data])
            registry.decode_prefix(10, data + b"\0")
            registry.encode(10, value)
            with Decoder(registry, 10) as decoder:
                decoder.feed(data)
                decoder.finish()
                decoder.finish_json()

        def failures() -> None:
            for call in (
                lambda: registry.decode(10, data[:-1]),
                lambda: registry.decode_json(10, data[:-1]),
                lambda: registry.decode_many(10, [data, data[:-1]]),
                lambda: registry.decode_prefix(10, data[:-1]),
                lambda: registry.encode(10, [*value, None]),
                lambda: registry.encode(10, value, depth=2),
                lambda: Registry(b"meta\x0e\x04"),
                lambda: Decoder(registry, 100_000),
                lambda: Decoder(registry, 10).finish(),
            ):
                with self.assertRaises((Refused, TypeError)):
                    call()

        for body in (calls, failures):
            with self.subTest(body.__name__):
                self.check_stays(body, 300, 4 << 20)

    def test_an_interrupted_call_leaves_nothing(self) -> None:
        """A session takes 25 MiB, and the value eight."""
        registry = Registry(make.registry_of(make.primitive("bool"), make.sequence(0)))
        data = make.compact(1 << 20) + bytes(1 << 20)
        start = time.monotonic()
        registry.decode(1, data)
        whole = time.monotonic() - start
        for part in (0.1, 0.4, 0.8):

            def call() -> None:
                with contextlib.suppress(KeyboardInterrupt), alarms(interrupt, part * whole):
                    registry.decode(1, data)

            with self.subTest(part):
                self.check_stays(call, 20, 30 << 20)

    def test_calls_leave_no_object(self) -> None:
        registry = Registry((EXAMPLES / "runtime" / "metadata.scale").read_bytes())
        small = Registry(make.registry_of(*map(make.primitive, make.PRIMITIVES), make.members(), make.sequence(15)))
        data = (EXAMPLES / "runtime" / "events_block.scale").read_bytes()
        value = registry.decode(10, data)

        def fail(call: Callable[[], object]) -> None:
            try:
                call()
            except (ValueError, TypeError, OverflowError):
                return
            raise AssertionError("no exception")

        calls: list[Callable[[], object]] = [
            lambda: registry.decode(10, bytearray(data)),
            lambda: registry.decode(type=10, data=data, depth=60),
            lambda: registry.decode_many(registry.types[10], iter([data])),
            lambda: registry.encode(10, value),
            lambda: registry.decode_json(10, data, depth=100),
            lambda: Decoder(registry, 10).feed(data),
            lambda: [(found.path, found.fields, found.variants, str(found), found.kind) for found in registry.types[:20]],
            lambda: registry.find_all("Option"),
            lambda: (registry.version, registry.end, repr(registry)),
            lambda: [small.decode(n, small.encode(n, -(1 << 20) if n > 10 else 5)) for n in (3, 5, 7, 8, 11, 13, 14)],
            lambda: [small.encode(n, (1 << 127) - 1) for n in (7, 8, 13, 14)],
            lambda: small.decode(16, small.encode(16, [None] * 5)) == small.encode(1, "a") + small.encode(2, "text"),
            lambda: registry.decode_prefix(10, data + b"\0"),
            lambda: registry.decode_prefix(10, bytearray(data)),
            lambda: fail(lambda: registry.decode_prefix(10, data[:-1])),
            lambda: fail(lambda: registry.decode(10, data[:-1])),
            lambda: fail(lambda: registry.decode_many(10, [data, data[:-1]])),
            lambda: fail(lambda: registry.encode(10, [*value, None])),
            lambda: fail(lambda: registry.encode(10, [{**value[0], "phase": Variant("None")}])),
            lambda: fail(lambda: registry.encode(10, [{**value[0], "phase": ("ApplyExtrinsic", [1, 2])}])),
            lambda: fail(lambda: registry.encode(10, [{**value[0], "other": 5}])),
            lambda: fail(lambda: registry.encode(10, [{"phase": 5}])),
            lambda: fail(lambda: registry.encode(10, value, depth=3)),
            lambda: fail(lambda: registry.encode(10, "text")),
            lambda: fail(lambda: small.encode(2, "\ud800")),
            lambda: fail(lambda: small.encode(3, 1 << 200)),
            lambda: fail(lambda: small.encode(16, [None, 1])),
            lambda: fail(lambda: registry.decode(10, "text")),  # type: ignore[arg-type]
            lambda: fail(lambda: registry.decode(1 << 32, b"")),
            lambda: fail(lambda: registry.decode(small.types[0], b"")),
            lambda: fail(lambda: registry.decode(0.5, b"")),  # type: ignore[arg-type]
            lambda: fail(lambda: Registry(b"meta\x0e\x04")),
            lambda: fail(lambda: Decoder(registry, 100_000)),
            lambda: fail(lambda: Decoder(registry, 10).finish()),
            lambda: fail(lambda: Variant("a", 5)),  # type: ignore[arg-type]
            lambda: repr(value) and value == registry.decode(10, data),
        ]
        for number, call in enumerate(calls):
            with self.subTest(number):
                self.assertLess(min(self.blocks_left(call) for _ in range(5)), 100)

    def blocks_left(self, call: Callable[[], object]) -> int:
        """The memory blocks that 200 calls leave. Python keeps some for later, so only one a call counts."""
        gc.collect()
        before = sys.getallocatedblocks()
        for _ in range(200):
            call()
        gc.collect()
        return sys.getallocatedblocks() - before

    def test_names_are_freed(self) -> None:
        numbers = iter(range(1_000_000))

        def call() -> None:
            names = [(f"name{next(numbers)}", 0) for _ in range(20)]
            registry = Registry(make.registry_of(make.primitive("u8"), make.composite(*names)))
            registry.decode(1, bytes(20))

        self.assertLess(min(self.blocks_left(call) for _ in range(5)), 100)

    def test_a_variant_in_a_cycle_is_freed(self) -> None:
        class Watched:
            pass

        watched = Watched()
        seen = weakref.ref(watched)
        fields: list[Any] = [watched]
        fields.append(Variant("Self", fields))
        del watched, fields
        gc.collect()
        self.assertIsNone(seen())

    def test_a_chain_of_variants_is_freed(self) -> None:
        value = Variant("End")
        for _ in range(1_000_000):
            value = Variant("Next", [value])
        del value


if __name__ == "__main__":
    unittest.main()
