//! Records as bytes, with no rule of their own: what is in range is the library's matter.

/// The bytes of a record.
pub const RECORD: usize = 8;

/// A record's fields, as they stand in its bytes.
#[derive(Clone, Copy, Debug, PartialEq, Eq)]
pub struct Fields {
    pub address: u32,
    pub length: u8,
    pub action: u8,
    pub hop: u16,
}

pub const ANNOUNCE: u8 = 1;
pub const WITHDRAW: u8 = 2;

impl Fields {
    pub fn announcement(address: u32, length: u8, hop: u16) -> Fields {
        Fields { address, length, action: ANNOUNCE, hop }
    }

    pub fn withdrawal(address: u32, length: u8) -> Fields {
        Fields { address, length, action: WITHDRAW, hop: 0 }
    }

    pub fn bytes(self) -> [u8; RECORD] {
        let [a, b, c, d] = self.address.to_be_bytes();
        let [high, low] = self.hop.to_be_bytes();
        [a, b, c, d, self.length, self.action, high, low]
    }

    pub fn of(record: [u8; RECORD]) -> Fields {
        let [a, b, c, d, length, action, high, low] = record;
        Fields { address: u32::from_be_bytes([a, b, c, d]), length, action, hop: u16::from_be_bytes([high, low]) }
    }
}
