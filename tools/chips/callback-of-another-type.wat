(module
  (import "env" "timerInit" (func $timerInit (param i32) (result i32)))
  (import "env" "timerStartNanos" (func $start (param i32 i64 i32)))
  (memory 1) (table 4 funcref) (elem (i32.const 1) $callback)
  (data (i32.const 4) "\01\00\00\00")
  (func $chipInit (export "chipInit") (call $start (call $timerInit (i32.const 0)) (i64.const 0) (i32.const 0)))
  (func $callback))
