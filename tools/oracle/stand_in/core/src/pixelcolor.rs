//! Raw colours: a number of 1 to 32 bits and its bytes in either order.

pub trait PixelColor: Copy + PartialEq {
    type Raw: raw::RawData;
}

pub mod raw {
    use super::PixelColor;

    pub trait RawData: Sized + Copy + PartialEq {
        type Storage: Copy;

        const BITS_PER_PIXEL: usize;

        fn into_inner(self) -> Self::Storage;
    }

    pub trait ToBytes {
        type Bytes;

        fn to_le_bytes(self) -> Self::Bytes;

        fn to_be_bytes(self) -> Self::Bytes;
    }

    pub trait ByteOrder {}

    #[derive(Debug, Clone, Copy, PartialEq, Eq)]
    pub enum LittleEndian {}

    #[derive(Debug, Clone, Copy, PartialEq, Eq)]
    pub enum BigEndian {}

    impl ByteOrder for LittleEndian {}

    impl ByteOrder for BigEndian {}

    macro_rules! raw_colour {
        ($name:ident, $storage:ty, $bits:literal) => {
            #[derive(Debug, Clone, Copy, PartialEq, Eq, PartialOrd, Ord, Hash, Default)]
            pub struct $name($storage);

            impl $name {
                // BEHAVES: the low bits; the given text reads a pixel by shifting its byte and leaves the higher bits to this.
                pub const fn new(value: $storage) -> Self {
                    $name(value & (<$storage>::MAX >> (<$storage>::BITS - $bits)))
                }
            }

            impl RawData for $name {
                type Storage = $storage;

                // BEHAVES
                const BITS_PER_PIXEL: usize = $bits;

                // BEHAVES
                fn into_inner(self) -> $storage {
                    self.0
                }
            }

            // BEHAVES
            impl From<$storage> for $name {
                fn from(value: $storage) -> Self {
                    Self::new(value)
                }
            }

            impl PixelColor for $name {
                type Raw = Self;
            }
        };
    }

    raw_colour!(RawU1, u8, 1);
    raw_colour!(RawU2, u8, 2);
    raw_colour!(RawU4, u8, 4);
    raw_colour!(RawU8, u8, 8);
    raw_colour!(RawU16, u16, 16);
    raw_colour!(RawU24, u32, 24);
    raw_colour!(RawU32, u32, 32);

    // BEHAVES: little end first is the lowest byte first.
    impl ToBytes for RawU16 {
        type Bytes = [u8; 2];

        fn to_le_bytes(self) -> [u8; 2] {
            self.0.to_le_bytes()
        }

        fn to_be_bytes(self) -> [u8; 2] {
            self.0.to_be_bytes()
        }
    }

    // BEHAVES: the three low bytes, in either order.
    impl ToBytes for RawU24 {
        type Bytes = [u8; 3];

        fn to_le_bytes(self) -> [u8; 3] {
            let [low, middle, high, _] = self.0.to_le_bytes();
            [low, middle, high]
        }

        fn to_be_bytes(self) -> [u8; 3] {
            let [_, high, middle, low] = self.0.to_be_bytes();
            [high, middle, low]
        }
    }

    // BEHAVES: as for 16 bits.
    impl ToBytes for RawU32 {
        type Bytes = [u8; 4];

        fn to_le_bytes(self) -> [u8; 4] {
            self.0.to_le_bytes()
        }

        fn to_be_bytes(self) -> [u8; 4] {
            self.0.to_be_bytes()
        }
    }
}
