"""Tests the package that is installed: tests.py [OPTION..] [Tests.NAME..] [FILE.tsv..]. Options
are those of unittest, and a file has rows as in rust/tests."""
import array
import ast
import copy
import gc
import hashlib
import importlib
import inspect
import io
import os
import pickle
import sys
import threading
import tracemalloc
import unittest
from concurrent.futures import ThreadPoolExecutor
from pathlib import Path

import komihash_rattle
from komihash_rattle import Komirand, komihash, komihash_digest, komihash_int, v4, v5

LONG = bytes(range(256)) * 4096
ONE_SHOTS = komihash_int, v5.komihash_digest, v5.komihash_hexdigest

# The tables are beside this folder, but in a source distribution, in it.
HERE = Path(__file__).resolve().parent
ABOVE = HERE if (HERE / "rust").is_dir() else HERE.parent
FILES = [ABOVE / "rust/tests" / name for name in ("values.tsv", "vectors.tsv")]


class Locked:
    """Pickles a name, and not a lock, which can't be pickled."""

    def __getstate__(self):
        return {"name": vars(self)["name"]}


class Named(Locked, komihash):
    """A stream with an attribute, and arguments of its own."""

    def __init__(self, name, seed):
        super().__init__(seed=seed)
        self.name = name


class Generator(Locked, Komirand):
    """A generator that may have attributes."""


class Plain(komihash):
    """A stream whose attributes are all pickled."""


def copies(original):
    """Returns an object and its copies."""
    protocols = range(pickle.HIGHEST_PROTOCOL + 1)
    pickled = [pickle.loads(pickle.dumps(original, protocol)) for protocol in protocols]
    return [original, copy.copy(original), copy.deepcopy(original), *pickled]


def filled(rand, lengths):
    """Returns what fills of these lengths write. One of eight bytes is also the next output."""
    parts = [rand.next().to_bytes(8, "little") if length == "8" else rand.fill(int(length))
             for length in lengths]
    return b"".join(parts).hex()


def hashed(version, seed, message):
    """Returns a hash, as long as streams of two writes give the same."""
    head, tail = message[: len(message) // 3], memoryview(message)[len(message) // 3 :]
    stream = version.komihash(head, seed)
    for it in (version.komihash.resume(stream.save()), stream.copy(), stream):
        it.update(tail)
        assert it.intdigest() == version.komihash_int(message, seed)
        assert it.digest() == version.komihash_digest(message, seed)
        assert it.hexdigest() == version.komihash_hexdigest(message, seed) == it.digest().hex()
    return stream.hexdigest()


def value(call, version, given):
    """Returns the value of a call by its name and arguments, which are in hexadecimal."""
    if call == "resume":
        try:
            return version.komihash.resume(bytes.fromhex(given[0])).hexdigest()
        except ValueError:
            return "none"
    make = {"new": version.Komirand.from_words, "init_with_extra_seed": version.Komirand}.get(call)
    if make:
        return filled(make(int(given[0], 16), int(given[1], 16)), given[2:])
    seed = int(given[0], 16)
    if call == "init":
        return filled(version.Komirand(seed), given[1:])
    if call == "save":
        return version.komihash(bytes.fromhex(given[1]), seed).save().hex()
    for digits in given[1:]:  # A hasher takes its hash as the seed of the next one.
        seed = int(hashed(version, seed, bytes.fromhex(digits)), 16)
    return f"{seed:016x}"


class Tests(unittest.TestCase):
    def test_rows(self):
        rows = "".join(file.read_text("utf-8") for file in FILES).splitlines()
        rows = [row for row in rows if not row.startswith(("#", "unpad"))]
        self.assertGreater(len(rows), 100)
        for row in rows:
            row = row if row[0] not in "45" else "komihash\t" + row
            call, version, *given, wanted = row.split("\t")
            self.assertEqual(value(call, {"4": v4, "5": v5}[version], given), wanted, row)

    def test_all_kinds_of_bytes(self):
        for message in b"8 bytes.", LONG:
            shaped = memoryview(message).cast("B", (2, len(message) // 2))
            for data in bytearray(message), array.array("Q", message), shaped:
                self.assertEqual(komihash_int(data), komihash_int(message))
                self.assertEqual(komihash(data).intdigest(), komihash_int(message))

    def test_arguments(self):
        stream = komihash(data=b"a", seed=7, usedforsecurity=False)
        self.assertEqual(stream.intdigest(), komihash_int(b"a", True + 6))
        self.assertEqual(komihash.__new__(komihash).intdigest(), komihash_int(b""))
        self.assertEqual(Komirand.__new__(Komirand).next(), Komirand(0).next())
        for call in ONE_SHOTS:
            self.assertEqual(str(inspect.signature(call)), "(data, /, seed=0)")
            self.assertEqual(call(b"a", 7), call(b"a", seed=7))
        self.assertEqual(Komirand(7).next(), Komirand(seed=7, extra_seed=7).next())

    def test_errors(self):
        with self.assertRaisesRegex(TypeError, "must be encoded"):
            komihash("text")
        for call in komihash, *ONE_SHOTS, komihash().update, komihash.resume:
            self.assertRaises(TypeError, call, "text")
            self.assertRaises(TypeError, call, None)
            self.assertRaises(TypeError, call, b"", 0, 0)
            self.assertRaises(BufferError, call, memoryview(LONG)[::2])
        for call in ONE_SHOTS:
            for names in {"data": b""}, {"sead": 0}, {"seed": 0, "data": b""}:
                self.assertRaisesRegex(TypeError, call.__name__, call, b"", **names)
        words = Komirand.from_words
        seeded = [("seed", lambda seed: komihash(seed=seed)), ("s1", lambda s1: words(s1, 0))]
        seeded += [("seed", lambda seed: komihash_int(b"", seed)), ("s2", lambda s2: words(0, s2))]
        seeded += [("seed", Komirand), ("extra_seed", lambda extra: Komirand(0, extra))]
        seeded += [("seed", lambda seed: komihash.resume(komihash().save(), seed))]
        for name, call in seeded:
            call(2**64 - 1)
            self.assertRaisesRegex(TypeError, f"^{name} must be an int$", call, 0.5)
            for seed in -1, 2**64:
                with self.assertRaisesRegex(OverflowError, f"^{name} must be from 0 to 2"):
                    call(seed)
        self.assertRaises(ValueError, Komirand(0).fill, -1)

    def test_a_failed_call_changes_nothing(self):
        stream = komihash(b"a")
        self.assertRaises(TypeError, stream.update, "b")
        self.assertRaises(OverflowError, stream.__init__, seed=-1)
        self.assertRaises(TypeError, stream.__init__, "b", 7)
        self.assertEqual(stream.intdigest(), komihash_int(b"a"))

    def test_a_reset_stream_begins_with_its_seed(self):
        begun, text = komihash(b"a", 7), komihash(b"a", 7).save()
        self.assertRaises(OverflowError, begun.__init__, seed=-1)
        with_seed, without = komihash.resume(text, seed=7), komihash.resume(text)
        for stream in [*copies(begun), begun.copy(), with_seed, with_seed.copy()]:
            self.assertEqual(stream.seed, 7)
            stream.reset()
            stream.update(b"b")
            self.assertEqual(stream.intdigest(), komihash_int(b"b", 7))
        for stream in [*copies(without), without.copy()]:
            self.assertIsNone(stream.seed)
            self.assertRaises(ValueError, stream.reset)
            self.assertEqual(stream.intdigest(), komihash_int(b"a", 7))
            stream.__init__(seed=8)
            self.assertEqual(stream.seed, 8)
        self.assertEqual(komihash.__new__(komihash).seed, 0)

    def test_version_5_is_the_default(self):
        names = {name for name in komihash_rattle.__all__ if name not in ("v4", "v5")}
        self.assertEqual(names, {name for name in dir(v5) if name[0] != "_"})
        for name in names:
            self.assertIs(getattr(komihash_rattle, name), getattr(v5, name))

    def test_editors_show_the_first_sentence_of_the_help(self):
        for version in v4, v5:
            known = {**vars(version), **vars(version.komihash), **vars(version.Komirand)}
            for file in map(Path(version.__file__).with_name, ("v4.pyi", "v5.pyi")):
                for it in ast.walk(ast.parse(file.read_text("utf-8"))):
                    if isinstance(it, (ast.ClassDef, ast.FunctionDef)) and it.name[0] != "_":
                        first = known[it.name].__doc__.replace(". ", ".\n").split("\n")[0]
                        self.assertEqual(ast.get_docstring(it), first, it.name)

    def test_what_hashlib_asks_for(self):
        for version in v4, v5:
            stream = version.komihash()
            self.assertEqual(len(stream.digest()), stream.digest_size)
            self.assertEqual(stream.block_size, 64)
            self.assertEqual(stream.name, "komihash_" + version.__name__.split(".")[1])
        if sys.version_info >= (3, 11):
            for file in io.BytesIO(LONG), open(__file__, "rb"):
                with file:
                    found = hashlib.file_digest(file, komihash).digest()
                    file.seek(0)
                    self.assertEqual(found, komihash(file.read()).digest())

    def test_copies_go_on_by_themselves(self):
        for version in v4, v5:
            original, generator = version.komihash(b"a", 7), version.Komirand(7)
            for stream in [*copies(original), original.copy()]:
                self.assertIs(type(stream), version.komihash)
                stream.update(b"bc")
                self.assertEqual(stream.intdigest(), version.komihash_int(b"abc", 7))
            originals = [*copies(generator), version.Komirand.from_words(*generator.words())]
            self.assertEqual({it.fill(19) for it in originals}, {version.Komirand(7).fill(19)})
            self.assertEqual(len({it.next() for it in originals}), 1)

    def test_subclasses(self):
        original = Named("a", seed=7)
        original.update(LONG)
        generator, plain = Generator(7), Plain()
        generator.name = plain.name = "a"
        original.lock = generator.lock = threading.Lock()
        for it in [*copies(original), original.copy(), *copies(generator), *copies(plain)]:
            self.assertIn(type(it), (Named, Generator, Plain))
            self.assertEqual(it.name, "a")
        for nameless in Named.__new__(Named), Generator(7):
            self.assertRaises(KeyError, pickle.dumps, nameless)
        self.assertEqual(original.intdigest(), komihash_int(LONG, 7))

    def test_other_threads_run_while_many_bytes_are_hashed(self):
        stream = komihash()
        self.addCleanup(sys.setswitchinterval, sys.getswitchinterval())
        many = LONG[:2**17]
        for call in lambda: komihash_int(many), lambda: stream.update(many):
            ran, began = threading.Event(), threading.Lock()
            with began:
                thread = threading.Thread(target=lambda: began.acquire() and ran.set())
                thread.start()
                sys.setswitchinterval(100)
            for _ in range(10**6):
                if not ran.is_set():
                    call()
            self.assertTrue(ran.is_set())
            thread.join()

    def test_threads_may_share_a_stream(self):
        stream, parts = komihash(), [b"a" * 2**24, b"a"] * 8
        with ThreadPoolExecutor(4) as threads:
            list(threads.map(stream.update, parts))
        whole = b"".join(parts)
        self.assertEqual(stream.intdigest(), komihash_int(whole))
        stream, seen = komihash(b"a"), set()
        with ThreadPoolExecutor(1) as threads:
            update = threads.submit(stream.update, whole)
            while not update.done():
                seen.add(stream.copy().intdigest())
        self.assertLessEqual(seen, {komihash_int(b"a"), komihash_int(b"a" + whole)})

    def test_threads_may_share_a_generator(self):
        shared, alone, lengths = Komirand(7), Komirand(7), [2**20] * 16
        with ThreadPoolExecutor(4) as threads:
            parts = {komihash_int(part) for part in threads.map(shared.fill, lengths)}
        self.assertEqual(parts, {komihash_int(alone.fill(length)) for length in lengths})

    @unittest.skipIf(sys.version_info < (3, 12), "older subinterpreters share one lock")
    def test_isolated_subinterpreters(self):
        known = "_xxsubinterpreters" if sys.version_info < (3, 13) else "_interpreters"
        interpreters, (read, write) = importlib.import_module(known), os.pipe()
        self.addCleanup(os.close, read)
        interpreters.run_string(interpreters.create(), f"""import os, sys
sys.path[:] = {sys.path}
from komihash_rattle import komihash_digest
os.write({write}, komihash_digest(b"port", 7))""")
        os.close(write)
        self.assertEqual(os.read(read, 9), komihash_digest(b"port", 7))

    def test_nothing_leaks(self):
        def use():
            seed = int("9" * 19)
            stream = Named("a", seed)
            stream.update(bytearray(2**17))
            stream.__init__("a", seed)
            for call in ONE_SHOTS:
                call(bytearray(8), seed)
            for it in (komihash.resume(bytearray(stream.save())), stream.copy(), *copies(stream)):
                it.digest(), it.hexdigest(), it.seed
            for it in (Komirand.from_words(seed, seed), *copies(Komirand(seed, seed))):
                it.fill(it.next() % 8), it.words()
            self.assertRaises(OverflowError, Komirand, 10 * seed)
            self.assertRaises(ValueError, komihash.resume, bytearray(8))
            self.assertRaises(BufferError, komihash, memoryview(bytearray(8))[::2], seed)

        tracemalloc.start()
        self.addCleanup(tracemalloc.stop)
        sizes = []
        for _ in range(5):
            for _ in range(200):
                use()
            gc.collect()
            sizes.append(tracemalloc.get_traced_memory()[0])
        self.assertLess(min(after - before for before, after in zip(sizes, sizes[1:])), 2000)
        self.assertLess(sys.getrefcount(komihash), 100)


if __name__ == "__main__":
    if not __debug__:
        sys.exit("with -O, some of these tests would see nothing")
    arguments = [name for name in sys.argv if not name.endswith(".tsv")]
    FILES += [Path(name) for name in sys.argv if name not in arguments]
    if missing := [str(file) for file in FILES if not file.exists()]:
        sys.exit("missing: " + ", ".join(missing))
    unittest.main(argv=arguments)
