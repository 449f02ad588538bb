//! RFC 9204 B.2: the peer's encoder stream on a fresh table, and then the section that refers to it.
use qpack_table::{Error, Table, INCREMENT};

/// Set Dynamic Table Capacity 220, and two inserts with a static name.
const STREAM: &[u8] = b"\x3f\xbd\x01\xc0\x0fwww.example.com\xc1\x0c/sample/path";
const SECTION: &[u8] = &[0x03, 0x81, 0x10, 0x11];

pub fn run() -> Result<(), Error> {
    let mut table = Table::new();
    let mut increment = [0; INCREMENT];
    let received = table.on_encoder_recv(STREAM, &mut increment)?;
    print!(
        "consumed {}, inserted {}, increment",
        received.consumed, received.inserted
    );
    for byte in &increment[..received.written] {
        print!(" {byte:02x}");
    }
    println!();
    for field in table.decode_header(SECTION, 256)?.fields {
        println!(
            "{}: {}",
            String::from_utf8_lossy(&field.name),
            String::from_utf8_lossy(&field.value)
        );
    }
    Ok(())
}

fn main() -> Result<(), Error> {
    run()
}
