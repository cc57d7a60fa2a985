//! Stand-in for the crate `firmware_services`. Document 01: `crc32` is the 32-bit check of ITU-T V.42 (reflected, EDB88320
//! hexadecimal, all ones in and out); `put_` and `get_` are little-endian. Of `files` and `volume` there is only what makes
//! history.rs compile: no volume ever opens, and `save`, `forget` and `load` aren't compared.

pub mod checksum {
    /// Bit by bit, as the shift register of V.42 does it.
    pub fn crc32(bytes: &[u8]) -> u32 {
        let mut register = u32::MAX;
        for &byte in bytes {
            register ^= u32::from(byte);
            for _ in 0..8 {
                let out = register & 1;
                register >>= 1;
                if out == 1 {
                    register ^= 0xEDB8_8320;
                }
            }
        }
        !register
    }
}

pub mod le {
    pub fn get_u16(bytes: &[u8], at: usize) -> u16 {
        u16::from_le_bytes(bytes[at..at + 2].try_into().unwrap())
    }

    pub fn get_u32(bytes: &[u8], at: usize) -> u32 {
        u32::from_le_bytes(bytes[at..at + 4].try_into().unwrap())
    }

    pub fn get_u64(bytes: &[u8], at: usize) -> u64 {
        u64::from_le_bytes(bytes[at..at + 8].try_into().unwrap())
    }

    pub fn put_u16(bytes: &mut [u8], at: usize, value: u16) {
        bytes[at..at + 2].copy_from_slice(&value.to_le_bytes());
    }

    pub fn put_u32(bytes: &mut [u8], at: usize, value: u32) {
        bytes[at..at + 4].copy_from_slice(&value.to_le_bytes());
    }

    pub fn put_u64(bytes: &mut [u8], at: usize, value: u64) {
        bytes[at..at + 8].copy_from_slice(&value.to_le_bytes());
    }
}

pub mod volume {
    use device_api::bulk::{ReadWrite, SECTOR_SIZE};

    #[derive(Clone, Copy, Debug, PartialEq, Eq)]
    pub struct Error;

    pub struct Volume;
    pub const FILES: Volume = Volume;

    pub struct Store;

    pub fn open(_: &mut impl ReadWrite, _: &Volume, _: &mut [u8; SECTOR_SIZE]) -> Result<Store, Error> {
        Err(Error)
    }
}

pub mod files {
    use super::volume::Store;
    use device_api::bulk::SECTOR_SIZE;

    pub const NAME: usize = 48;

    #[derive(Clone, Copy, Debug, PartialEq, Eq)]
    pub struct Error;

    #[derive(Clone, Copy, Debug, PartialEq, Eq)]
    pub struct Name {
        bytes: [u8; NAME],
        len: usize,
    }

    impl Name {
        pub fn new(text: &str) -> Result<Self, Error> {
            if text.len() > NAME {
                return Err(Error);
            }
            let mut bytes = [0; NAME];
            bytes[..text.len()].copy_from_slice(text.as_bytes());
            Ok(Self { bytes, len: text.len() })
        }

        pub fn as_str(&self) -> &str {
            std::str::from_utf8(&self.bytes[..self.len]).unwrap_or("")
        }
    }

    #[derive(Clone, Copy, Debug, PartialEq, Eq)]
    pub struct Entry {
        pub name: Name,
        pub revision: u32,
        pub length: u32,
    }

    pub struct Dir;

    impl Dir {
        pub fn list(&self, _: &mut Store, _: &mut [u8; SECTOR_SIZE], _: impl FnMut(&Entry)) -> Result<(), Error> {
            Err(Error)
        }

        pub fn find(&self, _: &mut Store, _: &Name, _: &mut [u8; SECTOR_SIZE]) -> Result<Option<Entry>, Error> {
            Err(Error)
        }

        pub fn read(
            &self,
            _: &mut Store,
            _: &Entry,
            _: u32,
            _: &mut [u8],
            _: &mut [u8; SECTOR_SIZE],
        ) -> Result<(), Error> {
            Err(Error)
        }

        pub fn delete(&self, _: &mut Store, _: &Name, _: &mut [u8; SECTOR_SIZE]) -> Result<(), Error> {
            Err(Error)
        }
    }

    pub fn mount(_: &mut Store, _: &mut [u8; SECTOR_SIZE]) -> Result<Dir, Error> {
        Err(Error)
    }

    pub fn write(_: &mut Store, _: &Name, _: &[u8], _: &mut [u8; SECTOR_SIZE]) -> Result<(), Error> {
        Err(Error)
    }

    pub fn delete(_: &mut Store, _: &Name, _: &mut [u8; SECTOR_SIZE]) -> Result<(), Error> {
        Err(Error)
    }
}
