;; The attribute `case` says which call is made that ends the chip. Pin A is an input. Cases 7 to 10 are calls in the callback
;; of a timer that is due in cycle 1, and cases 11 to 13 callbacks of a watch on A for rising edges.
(module
  (type $case (func))
  (import "env" "pinInit" (func $pinInit (param i32 i32) (result i32)))
  (import "env" "pinWatch" (func $pinWatch (param i32 i32) (result i32)))
  (import "env" "attrInit" (func $attrInit (param i32 i32) (result i32)))
  (import "env" "attrRead" (func $attrRead (param i32) (result i32)))
  (import "env" "timerInit" (func $timerInit (param i32) (result i32)))
  (import "env" "timerStartNanos" (func $start (param i32 i64 i32)))
  (memory 1)
  (table 24 funcref)
  (elem (i32.const 0) $name-at-the-end $name-of-64-bytes $attribute-65 $timer-over-the-end $timer-around-the-end $watch-over-the-end
    $pin-outside $late $late $late $late $watch-no-place $watch-no-function $watch-another-type)
  (elem (i32.const 17) $late-attribute $late-timer $late-timer-outside $late-watch-outside)
  (data (i32.const 0) "case\00A\00")
  (data (i32.const 16) "0123456789abcdef0123456789abcdef0123456789abcdef0123456789abcdef")
  (data (i32.const 65535) "I")
  (global $number (mut i32) (i32.const 0))
  (func $chipInit (export "chipInit")
    (global.set $number (call $attrRead (call $attrInit (i32.const 0) (i32.const 99))))
    (drop (call $pinInit (i32.const 5) (i32.const 0)))
    (call_indirect (type $case) (global.get $number)))
  ;; 0: the memory ends before the name does
  (func $name-at-the-end (drop (call $attrInit (i32.const 65535) (i32.const 0))))
  ;; 1
  (func $name-of-64-bytes (drop (call $attrInit (i32.const 16) (i32.const 0))))
  ;; 2: one attribute is there; 63 more may be, and the number is tested before the address
  (func $attribute-65 (local $i i32)
    (loop
      (local.set $i (i32.add (local.get $i) (i32.const 1)))
      (if (i32.ne (call $attrInit (i32.const 0) (i32.const 0)) (local.get $i)) (then unreachable))
      (br_if 0 (i32.lt_u (local.get $i) (i32.const 63))))
    (drop (call $attrInit (i32.const 65536) (i32.const 0)))
    unreachable)
  ;; 3: of 8 bytes the last is outside
  (func $timer-over-the-end (drop (call $timerInit (i32.const 65529))))
  ;; 4: the sum of address and length has 33 bits
  (func $timer-around-the-end (drop (call $timerInit (i32.const -4))))
  ;; 5: of 12 bytes the last is outside
  (func $watch-over-the-end (drop (call $pinWatch (i32.const 0) (i32.const 65525))))
  ;; 6
  (func $pin-outside (drop (call $pinInit (i32.const -1) (i32.const 0))))
  ;; 7 to 10: the callback stands ten places behind the case
  (func $late
    (i32.store (i32.const 100) (i32.const 0))
    (i32.store (i32.const 104) (i32.add (global.get $number) (i32.const 10)))
    (call $start (call $timerInit (i32.const 100)) (i64.const 0) (i32.const 0)))
  (func $late-attribute (param i32) (drop (call $attrInit (i32.const 0) (i32.const 0))))
  (func $late-timer (param i32) (drop (call $timerInit (i32.const 100))))
  ;; when a call is made is tested before its address
  (func $late-timer-outside (param i32) (drop (call $timerInit (i32.const 65536))))
  (func $late-watch-outside (param i32) (drop (call $pinWatch (i32.const 0) (i32.const 65536))))
  (func $watch (param i32)
    (i32.store (i32.const 104) (i32.const 1))
    (i32.store (i32.const 108) (local.get 0))
    (if (i32.ne (call $pinWatch (i32.const 0) (i32.const 100)) (i32.const 1)) (then unreachable)))
  ;; 11: a callback behind the end of the table; 12: one where the table is empty; 13: one that takes what a timer's takes
  (func $watch-no-place (call $watch (i32.const 9999)))
  (func $watch-no-function (call $watch (i32.const 21)))
  (func $watch-another-type (call $watch (i32.const 17))))
