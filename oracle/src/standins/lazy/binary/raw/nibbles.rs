// Stands for `lazy/binary/raw/nibbles.rs`: the two halves of a byte. What they mean is decided by
// the Rust's own `type_descriptor.rs`.

pub const fn nibbles_from_byte(byte: u8) -> (u8, u8) {
    (byte >> 4, byte & 0x0F)
}
