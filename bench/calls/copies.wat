;; Copies and fills of memory, as frames of a display are moved and cleared: ranges of 16 to 4,096 bytes that overlap.
(module
  (memory 4)
  (func (export "run") (result i32) (local $turn i32) (local $size i32) (local $to i32)
    (loop $turns
      (local.set $size (i32.shl (i32.const 16) (i32.rem_u (local.get $turn) (i32.const 9))))
      (local.set $to (i32.and (i32.mul (local.get $turn) (i32.const 97)) (i32.const 65535)))
      (memory.fill (local.get $to) (local.get $turn) (local.get $size))
      (memory.copy (i32.add (local.get $to) (i32.const 8)) (local.get $to) (local.get $size))
      (memory.copy (i32.const 131072) (local.get $to) (local.get $size))
      (br_if $turns (i32.lt_u (local.tee $turn (i32.add (local.get $turn) (i32.const 1))) (i32.const 2000000))))
    (i32.load (i32.const 131080)))
  (func (export "chipInit")))
