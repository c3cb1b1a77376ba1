// A chip that writes its count of changes in digits to a pin, bit by bit: Rust's core, with formatting, slices and checks of
// indexes.
#![no_std]
#![allow(non_snake_case)]
use core::fmt::Write;

extern "C" {
    fn pinInit(name: *const u8, mode: u32) -> i32;
    fn pinWrite(pin: i32, value: u32);
    fn pinWatch(pin: i32, config: *const Watch) -> i32;
}

#[repr(C)]
struct Watch {
    user_data: *mut Chip,
    edge: u32,
    pin_change: extern "C" fn(*mut Chip, i32, u32),
}

#[repr(C)]
struct Text {
    bytes: [u8; 16],
    len: usize,
}

impl Write for Text {
    fn write_str(&mut self, text: &str) -> core::fmt::Result {
        let end = self.len + text.len();
        self.bytes
            .get_mut(self.len..end)
            .ok_or(core::fmt::Error)?
            .copy_from_slice(text.as_bytes());
        self.len = end;
        Ok(())
    }
}

#[repr(C)]
struct Chip {
    out: i32,
    changes: u64,
    text: Text,
}

static mut CHIP: Chip = Chip { out: 0, changes: 0, text: Text { bytes: [0; 16], len: 0 } };

extern "C" fn changed(chip: *mut Chip, _pin: i32, level: u32) {
    let chip = unsafe { &mut *chip };
    chip.changes = chip.changes.wrapping_add(u64::from(level));
    chip.text = Text { bytes: [b' '; 16], len: 0 };
    if write!(chip.text, "{:>5}", chip.changes % 100_000).is_ok() {
        for byte in &chip.text.bytes[..chip.text.len] {
            for bit in 0..8 {
                unsafe { pinWrite(chip.out, u32::from(byte >> bit) & 1) };
            }
        }
    }
}

#[no_mangle]
pub extern "C" fn chipInit() {
    unsafe {
        CHIP.out = pinInit(b"OUT\0".as_ptr(), 3);
        let watch = Watch { user_data: &mut CHIP, edge: 3, pin_change: changed };
        pinWatch(pinInit(b"IN\0".as_ptr(), 0), &watch);
    }
}

#[panic_handler]
fn panic(_: &core::panic::PanicInfo) -> ! {
    core::arch::wasm32::unreachable()
}
