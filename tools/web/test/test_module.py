#!/usr/bin/env python3
"""module.py: on modules that are written out here."""
import os
import sys
import unittest

sys.dont_write_bytecode = True
sys.path.insert(0, os.path.join(os.path.dirname(os.path.abspath(__file__)), '..'))
from module import Fault, check, table32

HEAD = b'\0asm\1\0\0\0'


def section(kind, content):
    return bytes((kind, len(content))) + content


def exported(*names):
    kinds = {'memory': 2}
    return section(7, bytes((len(names),)) + b''.join(bytes((len(n),)) + n.encode() + bytes((kinds.get(n, 0), 0)) for n in names))


MEMORY_64_BITS, MEMORY_32_BITS = section(5, b'\1\4\1'), section(5, b'\1\0\1')
ALL = exported('memory', 'mudflatjar', 'room')


class Module(unittest.TestCase):
    def test_a_module_with_its_exports_is_taken(self):
        self.assertTrue(check(HEAD + MEMORY_64_BITS + ALL))
        self.assertFalse(check(HEAD + MEMORY_32_BITS + ALL))

    def test_others_are_not(self):
        for data, why in [(b'', 'no wasm'), (HEAD[:-1], 'no wasm'), (HEAD + b'\5\3\1', 'cut'), (HEAD + b'\5', 'cut'), (HEAD + ALL, 'not one memory'),
                          (HEAD + section(2, b'\1\1a\1b\0\0') + MEMORY_64_BITS + ALL, 'imports'),
                          (HEAD + MEMORY_64_BITS + exported('memory', 'room'), 'does not export mudflatjar'), (HEAD + MEMORY_64_BITS, 'does not export memory')]:
            with self.subTest(why), self.assertRaisesRegex(Fault, why):
                check(data)

    def test_an_empty_table_becomes_one_of_32_bits(self):
        before, table, after = section(1, b'\0'), section(4, b'\1\x70\5\1\1'), MEMORY_64_BITS
        self.assertEqual(table32(HEAD + before + table + after), HEAD + before + section(4, b'\1\x70\1\1\1') + after)
        self.assertEqual(table32(HEAD + after), HEAD + after)

    def test_a_table_with_entries_stays_as_it_is(self):
        with self.assertRaisesRegex(Fault, 'places'):
            table32(HEAD + section(4, b'\1\x70\4\2'))
        with self.assertRaisesRegex(Fault, 'entries'):
            table32(HEAD + section(4, b'\1\x70\4\1') + section(9, b'\0'))


if __name__ == '__main__':
    unittest.main()
