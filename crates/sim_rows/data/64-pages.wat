;; A memory of 64 pages whose last bytes a segment fills, and a table of 8,192 entries.
(module
  (import "env" "pinInit" (func $pinInit (param i32 i32) (result i32)))
  (memory 64)
  (table 8192 funcref)
  (data (i32.const 4194300) "OUT\00")
  (func $chipInit (export "chipInit")
    (drop (call $pinInit (i32.const 4194300) (i32.const 17)))
    (i32.store8 (i32.const 4194303) (i32.const 1))))
