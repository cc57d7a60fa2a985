//! Stand-in for the crate `device_api`: the names that history.rs uses. Nothing here reads or writes a medium.

pub mod bulk {
    pub const SECTOR_SIZE: usize = 512;

    pub trait ReadWrite {}
}
