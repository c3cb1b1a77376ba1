#!/usr/bin/env python3
"""retarget.py: what it changes, and what it stops at."""
import os
import sys
import unittest

sys.dont_write_bytecode = True
sys.path.insert(0, os.path.join(os.path.dirname(os.path.abspath(__file__)), '..'))
from retarget import Stop, outside, retarget

HEAD = '''target datalayout = "e-m:e-p270:32:32-i64:64-S128"
target triple = "x86_64-unknown-linux-gnu"

'''
CALL = '''define hidden noundef i32 @call(ptr noundef captures(none) %0, i64 noundef %1) local_unnamed_addr #0 {
  %3 = call { i64, i64 } @rattle_alloc(i64 8, i64 8)
  ret i32 0
}

declare { i64, i64 } @rattle_alloc(i64 noundef, i64 noundef) #1
declare i64 @llvm.ctlz.i64(i64, i1 immarg) #2

attributes #0 = { nounwind sanitize_address "frame-pointer"="all" "probe-stack"="inline-asm" "stack-probe-size"="3072" "target-cpu"="x86-64" }
attributes #1 = { nobuiltin nounwind }
attributes #2 = { nounwind }
attributes #3 = { sanitize_address "frame-pointer"="all" }
'''


class Retarget(unittest.TestCase):
    def test_names_of_the_target_change_and_nothing_of_the_code(self):
        text = retarget(HEAD + CALL, ['call'])
        self.assertIn('target triple = "wasm64-unknown-unknown"', text)
        self.assertIn('p:64:64', text.split('\n')[0])
        self.assertIn('define noundef i32 @call(ptr noundef captures(none) %0, i64 noundef %1) local_unnamed_addr #0 "wasm-export-name"="call" {', text)
        self.assertIn('attributes #0 = { nounwind "target-cpu"="lime1" }', text)
        self.assertIn('attributes #3 = { "target-cpu"="lime1" }', text)
        self.assertNotIn('x86', text)
        body = lambda it: [line for line in it.split('\n') if line.startswith('  ')]
        self.assertEqual(body(text), body(HEAD + CALL))

    def test_a_function_of_another_name_is_given_under_the_export(self):
        text = retarget(HEAD + CALL.replace('hidden noundef i32 @call(', 'internal noundef i32 @"page::call"('), ['call=page::call'])
        self.assertIn('define noundef i32 @"page::call"(ptr noundef captures(none) %0, i64 noundef %1) local_unnamed_addr #0 "wasm-export-name"="call" {', text)

    def test_what_is_called_outside_is_told(self):
        self.assertEqual(outside(retarget(HEAD + CALL, ['call'])), ['llvm.ctlz.i64', 'rattle_alloc'])

    def test_it_stops_at_what_the_target_has_not(self):
        for line in ['  call void asm sideeffect "nop", ""()', '  %2 = call <16 x i8> @llvm.x86.ssse3.pshuf.b.128(<16 x i8> %0, <16 x i8> %1)',
                     '  %2 = cmpxchg ptr %0, i32 0, i32 1 seq_cst seq_cst', '  fence seq_cst', '  %2 = load atomic i32, ptr %0 seq_cst, align 4',
                     '  call void @f(ptr byval(i64) %0)', '  %2 = fadd x86_fp80 %0, %1', '@x = thread_local global i32 0', '  %2 = load i8, ptr addrspace(256) %0']:
            with self.subTest(line), self.assertRaisesRegex(Stop, 'which the target has not'):
                retarget(HEAD + line + '\n' + CALL, ['call'])

    def test_the_same_words_in_a_name_or_in_bytes_are_nothing(self):
        retarget(HEAD + '@text = constant [3 x i8] c"asm fence "\n@"a.asm" = constant i8 0\n' + CALL, ['call'])

    def test_it_stops_where_an_export_is_missing_or_the_target_is_not_named(self):
        with self.assertRaisesRegex(Stop, '0 places'):
            retarget(HEAD + CALL, ['other'])
        with self.assertRaisesRegex(Stop, '0 places'):
            retarget(CALL, ['call'])


if __name__ == '__main__':
    unittest.main()
