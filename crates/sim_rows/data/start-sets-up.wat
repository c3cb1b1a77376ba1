;; The inverter, whose start function asks for the pins, within 8 units of fuel; 4 are enough for chipInit and for the callback.
(module
  (import "env" "pinInit" (func $pinInit (param i32 i32) (result i32)))
  (import "env" "pinWrite" (func $pinWrite (param i32 i32)))
  (import "env" "pinWatch" (func $pinWatch (param i32 i32) (result i32)))
  (memory 1) (table 2 funcref) (elem (i32.const 1) $changed)
  (data (i32.const 0) "IN\00OUT\00")
  (data (i32.const 16) "\00\00\00\00\03\00\00\00\01\00\00\00")
  (func $pins
    (drop (call $pinInit (i32.const 0) (i32.const 0)))
    (drop (call $pinInit (i32.const 3) (i32.const 17))))
  (start $pins)
  (func $chipInit (export "chipInit")
    (drop (call $pinWatch (i32.const 0) (i32.const 16))))
  (func $changed (param i32 i32 i32)
    (call $pinWrite (i32.const 1) (i32.eqz (local.get 2)))))
