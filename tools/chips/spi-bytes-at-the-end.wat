(module
  (import "env" "pinInit" (func $pinInit (param i32 i32) (result i32)))
  (import "env" "spiInit" (func $spiInit (param i32) (result i32)))
  (import "env" "spiStart" (func $spiStart (param i32 i32 i32)))
  (memory 1) (table 2 funcref) (elem (i32.const 1) $done)
  (data (i32.const 0) "SCK\00MOSI\00MISO\00")
  (data (i32.const 32) "\00\00\00\00\00\00\00\00\01\00\00\00\02\00\00\00\00\00\00\00\01\00\00\00")
  (data (i32.const 65534) "\a5\3c")
  (func $chipInit (export "chipInit")
    (drop (call $pinInit (i32.const 0) (i32.const 0)))
    (drop (call $pinInit (i32.const 4) (i32.const 0)))
    (drop (call $pinInit (i32.const 9) (i32.const 0)))
    (call $spiStart (call $spiInit (i32.const 32)) (i32.const 65534) (i32.const 2)))
  (func $done (param i32 i32 i32)
    ;; what came in stands there by now
    (if (i32.ne (i32.load16_u (i32.const 65534)) (i32.const 0x00ff)) (then unreachable))
    ;; no bytes behind the memory are inside of it, two of which one is behind it are not
    (call $spiStart (i32.const 0) (i32.const 65536) (i32.const 0))
    (call $spiStart (i32.const 0) (i32.const 65535) (i32.const 2))))
