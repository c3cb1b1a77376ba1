;; OUT is driven high; the memory grows page by page until it can grow no more; 32 timers are given, and a 33rd is asked for.
(module
  (import "env" "pinInit" (func $pinInit (param i32 i32) (result i32)))
  (import "env" "timerInit" (func $timerInit (param i32) (result i32)))
  (memory 1)
  (data (i32.const 0) "OUT\00")
  (func $chipInit (export "chipInit") (local $i i32)
    (drop (call $pinInit (i32.const 0) (i32.const 17)))
    (loop (br_if 0 (i32.ne (memory.grow (i32.const 1)) (i32.const -1))))
    (if (i32.ne (memory.size) (i32.const 64)) (then unreachable))
    (loop
      (if (i32.ne (call $timerInit (i32.const 4194296)) (local.get $i)) (then unreachable))
      (local.set $i (i32.add (local.get $i) (i32.const 1)))
      (br_if 0 (i32.lt_u (local.get $i) (i32.const 32))))
    (drop (call $timerInit (i32.const 4194296)))
    unreachable))
