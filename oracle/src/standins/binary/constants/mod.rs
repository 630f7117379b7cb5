// Stands for `binary/constants`: the Ion document's constants. It decodes nothing.

pub mod v1_0 {
    /// The marker of Ion 1.0. The reader uses its length only.
    pub const IVM: [u8; 4] = [0xE0, 0x01, 0x00, 0xEA];

    pub mod length_codes {
        pub const NULL: u8 = 15;
        pub const VAR_UINT: u8 = 14;
    }
}
