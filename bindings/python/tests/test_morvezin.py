"""Calls over objects of the repository, whose plans are expected there: python3 -m unittest"""

import concurrent.futures
import doctest
import json
import os
import unittest

import morvezin
from morvezin import Kind

TOP = os.environ.get("MORVEZIN_TOP") or os.path.join(os.path.dirname(os.path.abspath(__file__)), "..", "..", "..")


def file(name):
    with open(os.path.join(TOP, name), "rb") as opened:
        return opened.read()


TRACE_UNLINK = file("examples/trace_unlink.o")
TASK_READS = file("tests/objects/task_reads.little.o")
STRUCTS, LATER = (file(f"tests/objects/kernel_{name}.little.btf") for name in ("structs", "later"))


def load_tests(_loader, tests, _pattern):
    tests.addTests(doctest.DocTestSuite(morvezin))
    return tests


class Prepare(unittest.TestCase):
    def test_texts_are_those_of_the_program(self):
        self.assertEqual(morvezin.prepare(TRACE_UNLINK), file("tests/rows/trace-unlink/stdout"))
        plan = morvezin.prepare(TASK_READS, [STRUCTS], settings='[maps]\n".bss" = 3\n')
        self.assertEqual(plan, file("tests/objects/task_reads.little.plan"))
        self.assertEqual(morvezin.prepare(bytearray(TRACE_UNLINK)), morvezin.prepare(TRACE_UNLINK))

    def test_types_are_of_either_byte_order(self):
        types, object, plan = (file(f"tests/rows/kernel-types-big-endian/{name}") for name in ("types.bin", "object.bin", "stdout"))
        self.assertEqual(types[:2], b"\xeb\x9f")
        self.assertEqual(morvezin.prepare(object, [types]), plan)

    def test_types_are_rewritten_first_or_last(self):
        plans = {morvezin.prepare(TASK_READS, [STRUCTS], b"", "", first, number_maps=True) for first in (False, True)}
        self.assertTrue(all(plan.startswith(b"bpf-plan 2\n") for plan in plans))

    def test_maps_are_numbered_where_that_is_asked_for(self):
        object = file("tests/objects/hash_and_constants.little.o")
        with self.assertRaises(morvezin.Refused) as caught:
            morvezin.prepare(object)
        self.assertEqual(caught.exception.kind, Kind.MAP_NUMBER)
        self.assertIn('"packets"', caught.exception.message)
        lines = morvezin.prepare(object, number_maps=True).split(b"\n")
        self.assertEqual([line.split()[2] for line in lines if line.startswith(b"map ")], [b"0", b"1"])

    def test_refusals_have_kinds_and_messages(self):
        for words, kind in (
            ((b"",), Kind.OBJECT),
            ((TRACE_UNLINK[:100],), Kind.OBJECT),
            ((TASK_READS, (), b"", "[maps]\n'.bss' = 1"), Kind.TYPES_REQUIRED),
            ((TRACE_UNLINK, (), b"", "maps = 1"), Kind.INVALID_SETTINGS),
            ((TRACE_UNLINK, [b"no types"]), Kind.INVALID_TYPES),
            ((TRACE_UNLINK, [b""]), Kind.INVALID_TYPES),
        ):
            with self.subTest(kind=kind), self.assertRaises(morvezin.Refused) as caught:
                morvezin.prepare(*words)
            self.assertEqual(caught.exception.kind, kind)
            self.assertEqual(str(caught.exception), caught.exception.message)
            self.assertTrue(caught.exception.message and "\n" not in caught.exception.message)

    def test_wrong_words_are_type_errors(self):
        for words in (("text",), (TRACE_UNLINK, ["text"]), (TRACE_UNLINK, (), "text")):
            with self.assertRaises(TypeError):
                morvezin.prepare(*words)

    def test_calls_on_four_threads_give_one_answer(self):
        with concurrent.futures.ThreadPoolExecutor(4) as pool:
            plans = list(pool.map(lambda _: morvezin.prepare(TASK_READS, [STRUCTS], number_maps=True), range(8)))
        self.assertEqual(plans, plans[:1] * 8)


class Others(unittest.TestCase):
    def test_kernels_are_checked(self):
        verdict = morvezin.check(TASK_READS, [STRUCTS])
        self.assertTrue(verdict.takes)
        self.assertEqual(json.loads(verdict.report)["object"], "object")
        self.assertFalse(morvezin.check(TASK_READS, [LATER]).takes)
        with self.assertRaises(morvezin.Refused):
            morvezin.check(b"")

    def test_code_is_listed(self):
        listing = morvezin.code(TRACE_UNLINK)
        self.assertIn("r0 = 0", listing)
        self.assertIn("exit", listing)

    def test_the_version_is_that_of_the_repository(self):
        self.assertEqual(".".join(map(str, morvezin.version())), file("VERSION").decode().strip())


if __name__ == "__main__":
    unittest.main()
