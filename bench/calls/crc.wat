;; CRC-32 over the 1 MiB of zeros of the memory, bit by bit: 158,334,982 instructions.
(module (memory 16) (func (export "chipInit"))
 (func (export "crc") (result i32) (local i32 i32 i32)
  i32.const 0xffffffff local.set 1
  loop
   local.get 1 local.get 0 i32.load8_u i32.xor local.set 1 i32.const 8 local.set 2
   loop
    local.get 1 i32.const 1 i32.shr_u i32.const 0 local.get 1 i32.const 1 i32.and i32.sub i32.const 0xEDB88320 i32.and i32.xor local.set 1
    local.get 2 i32.const 1 i32.sub local.tee 2 br_if 0
   end
   local.get 0 i32.const 1 i32.add local.tee 0 i32.const 1048576 i32.lt_u br_if 0
  end
  local.get 1 i32.const 0xffffffff i32.xor))
