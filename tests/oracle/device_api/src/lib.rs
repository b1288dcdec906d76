//! Shim of the crate `device_api`, which was not supplied: only what store.rs
//! itself uses of `device_api::bulk`. The names and types are those that its
//! uses show; nothing here is copied from the missing crate.
pub mod bulk {
    pub const SECTOR_SIZE: usize = 512;

    /// store.rs only carries it along, in `Error::Media`.
    #[derive(Clone, Copy, Debug, PartialEq, Eq)]
    pub enum Error {
        Refused,
    }

    #[derive(Clone, Copy, Debug, PartialEq, Eq)]
    pub struct OwnedInfo {
        pub sectors: u64,
    }

    pub trait ReadWrite {
        fn owned_info(&mut self) -> Result<OwnedInfo, Error>;
        fn owned_read(&mut self, sector: u64, out: &mut [u8; SECTOR_SIZE]) -> Result<(), Error>;
        fn owned_write(&mut self, sector: u64, data: &[u8; SECTOR_SIZE]) -> Result<(), Error>;
        fn entropy(&mut self) -> u64;
    }
}
