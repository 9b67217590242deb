//! Stands in for the crate byteorder: what iterator/raw.rs reads pixels of 16, 24 and 32 bits with.
//! `BEHAVES` marks what the oracle's answers rest on.

pub trait ByteOrder {
    fn read_u16(bytes: &[u8]) -> u16;
    fn read_u24(bytes: &[u8]) -> u32;
    fn read_u32(bytes: &[u8]) -> u32;
}

pub enum LE {}

pub enum BE {}

// BEHAVES: the first byte is the lowest.
impl ByteOrder for LE {
    fn read_u16(bytes: &[u8]) -> u16 {
        u16::from_le_bytes([bytes[0], bytes[1]])
    }

    fn read_u24(bytes: &[u8]) -> u32 {
        u32::from_le_bytes([bytes[0], bytes[1], bytes[2], 0])
    }

    fn read_u32(bytes: &[u8]) -> u32 {
        u32::from_le_bytes([bytes[0], bytes[1], bytes[2], bytes[3]])
    }
}

// BEHAVES: the first byte is the highest.
impl ByteOrder for BE {
    fn read_u16(bytes: &[u8]) -> u16 {
        u16::from_be_bytes([bytes[0], bytes[1]])
    }

    fn read_u24(bytes: &[u8]) -> u32 {
        u32::from_be_bytes([0, bytes[0], bytes[1], bytes[2]])
    }

    fn read_u32(bytes: &[u8]) -> u32 {
        u32::from_be_bytes([bytes[0], bytes[1], bytes[2], bytes[3]])
    }
}
