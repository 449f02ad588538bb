//! The same program with C's start: the kit's emulator stops at Rust's own.
#![no_main]

#[allow(dead_code)]
#[path = "main.rs"]
mod b2;

#[no_mangle]
pub extern "C" fn main() -> i32 {
    i32::from(b2::run().is_err())
}
