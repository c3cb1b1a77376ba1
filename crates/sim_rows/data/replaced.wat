;; Timers that are started anew, stopped, or stop themselves, a pin that is set up twice and a watch that is replaced.
(module
  (import "env" "pinInit" (func $pinInit (param i32 i32) (result i32)))
  (import "env" "pinRead" (func $pinRead (param i32) (result i32)))
  (import "env" "pinWrite" (func $pinWrite (param i32 i32)))
  (import "env" "pinWatch" (func $pinWatch (param i32 i32) (result i32)))
  (import "env" "timerInit" (func $timerInit (param i32) (result i32)))
  (import "env" "timerStartNanos" (func $start (param i32 i64 i32)))
  (import "env" "timerStop" (func $stop (param i32)))
  (memory 1)
  (table 6 funcref) (elem (i32.const 1) $turn $others $twice $never $falls)
  (data (i32.const 0) "A\00B\00C\00D\00E\00F\00")
  ;; timers: what `turn` turns is the pin that is the first word
  (data (i32.const 16) "\00\00\00\00\01\00\00\00\00\00\00\00\02\00\00\00\01\00\00\00\01\00\00\00\02\00\00\00\01\00\00\00\03\00\00\00\03\00\00\00")
  ;; watches: rising, falling
  (data (i32.const 64) "\00\00\00\00\01\00\00\00\04\00\00\00")
  (data (i32.const 80) "\05\00\00\00\02\00\00\00\05\00\00\00")
  (func $drive (param i32) (drop (call $pinInit (local.get 0) (i32.const 16))))
  (func $timer (param i32 i64 i32) (call $start (call $timerInit (local.get 0)) (local.get 1) (local.get 2)))
  (func $chipInit (export "chipInit")
    ;; A was high before it is low
    (drop (call $pinInit (i32.const 0) (i32.const 17)))
    (call $drive (i32.const 0)) (call $drive (i32.const 2)) (call $drive (i32.const 4)) (call $drive (i32.const 6)) (call $drive (i32.const 10))
    (drop (call $pinInit (i32.const 8) (i32.const 0)))
    ;; timer 0 would turn A in each cycle, and then it turns it in cycle 2 alone
    (call $timer (i32.const 16) (i64.const 62) (i32.const 1))
    (call $start (i32.const 0) (i64.const 125) (i32.const 0))
    ;; timers 1, 2 and 3 are due in cycle 5
    (call $timer (i32.const 24) (i64.const 312) (i32.const 0))
    (call $timer (i32.const 32) (i64.const 312) (i32.const 0))
    (call $timer (i32.const 40) (i64.const 312) (i32.const 0))
    ;; timer 4 is due in the cycles 3 and 6, and then it has stopped itself
    (call $timer (i32.const 48) (i64.const 187) (i32.const 1))
    (drop (call $pinWatch (i32.const 4) (i32.const 64)))
    (drop (call $pinWatch (i32.const 4) (i32.const 80))))
  (func $turn (param i32) (call $pinWrite (local.get 0) (i32.eqz (call $pinRead (local.get 0)))))
  ;; timer 1: timer 2 turns B in cycle 7 in place of this one, and timer 3 turns C in none
  (func $others (param i32)
    (call $start (i32.const 2) (i64.const 125) (i32.const 0))
    (call $stop (i32.const 3)))
  (func $twice (param i32)
    (if (call $pinRead (local.get 0)) (then (call $stop (i32.const 4))))
    (call $turn (local.get 0)))
  (func $never (param i32 i32 i32) unreachable)
  (func $falls (param i32 i32 i32) (call $turn (local.get 0))))
