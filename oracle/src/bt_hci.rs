//! Stands in for the crate bt_hci, of which the five files use the names below and no more.

/// Carries behaviour only for `WriteCursor::write_hci`, which document 01 leaves out; nothing calls it here.
pub trait WriteHci {
    fn size(&self) -> usize;
    fn write_hci(&self, dest: &mut [u8]) -> Result<(), ()>;
}

pub mod uuid {
    /// Carries no behaviour here: only for conversions that document 01 leaves out.
    pub struct BluetoothUuid16(pub [u8; 2]);

    /// Carries no behaviour here: only for conversions that document 01 leaves out.
    pub struct BluetoothUuid32(pub [u8; 4]);

    /// Carries behaviour: `base`, `set_initial_group` and `to_le_bytes` make the sixteen bytes that `Uuid::att_bytes`
    /// gives for a 32-bit UUID. Agreement on those bytes is agreement with this file, which has them from the Core
    /// Specification, Volume 3 Part B, 2.5.1, and no comparison with the Rust.
    pub struct BluetoothUuid128(u128);

    impl BluetoothUuid128 {
        pub const fn base() -> Self {
            Self(0x0000_0000_0000_1000_8000_0080_5F9B_34FB)
        }

        pub const fn set_initial_group(self, value: u32) -> Self {
            Self(self.0 | ((value as u128) << 96))
        }

        pub const fn to_le_bytes(self) -> [u8; 16] {
            self.0.to_le_bytes()
        }
    }

    impl From<BluetoothUuid16> for [u8; 2] {
        fn from(u: BluetoothUuid16) -> Self {
            u.0
        }
    }

    impl From<BluetoothUuid32> for [u8; 4] {
        fn from(u: BluetoothUuid32) -> Self {
            u.0
        }
    }

    impl From<BluetoothUuid128> for [u8; 16] {
        fn from(u: BluetoothUuid128) -> Self {
            u.to_le_bytes()
        }
    }
}
