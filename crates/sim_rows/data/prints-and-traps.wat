(module
  (import "wasi_snapshot_preview1" "fd_write" (func $fd_write (param i32 i32 i32 i32) (result i32)))
  (memory 1)
  (data (i32.const 0) "\10\00\00\00\06\00\00\00\18\00\00\00\04\00\00\00")
  (data (i32.const 16) "\1f\20\7e\7f\0d\ff\0a\00\0a\0ada")
  (func (export "chipInit")
    (drop (call $fd_write (i32.const 1) (i32.const 0) (i32.const 1) (i32.const 32)))
    (drop (call $fd_write (i32.const 2) (i32.const 8) (i32.const 1) (i32.const 32)))
    unreachable))
