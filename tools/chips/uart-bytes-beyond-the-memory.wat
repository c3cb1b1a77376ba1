(module
  (import "env" "uartInit" (func $uartInit (param i32) (result i32)))
  (import "env" "uartWrite" (func $uartWrite (param i32 i32 i32) (result i32)))
  (memory 1)
  (func $chipInit (export "chipInit")
    (drop (call $uartWrite (call $uartInit (i32.const 0)) (i32.const 65535) (i32.const 2)))))
