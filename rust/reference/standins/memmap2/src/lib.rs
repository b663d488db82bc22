//! Stand-in for `memmap2`: the file is read, not mapped.

use std::{
    fs::File,
    io::{self, Read},
    ops::Deref,
};

pub struct Mmap(Vec<u8>);

impl Mmap {
    /// Reads the whole file.
    ///
    /// # Safety
    ///
    /// Nothing is asked of the caller; `unsafe` is kept from the crate.
    pub unsafe fn map(mut file: &File) -> io::Result<Self> {
        let mut bytes = Vec::new();
        file.read_to_end(&mut bytes)?;
        Ok(Self(bytes))
    }
}

impl Deref for Mmap {
    type Target = [u8];

    fn deref(&self) -> &[u8] {
        &self.0
    }
}

impl AsRef<[u8]> for Mmap {
    fn as_ref(&self) -> &[u8] {
        &self.0
    }
}
