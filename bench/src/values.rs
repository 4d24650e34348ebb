//! Versions, keys and secrets, as in docs/FORMATS.md.

#[derive(Clone, Copy, PartialEq, Eq, PartialOrd, Ord)]
pub struct Version {
    pub number: u32,
    pub seat: u16,
}

pub type Key = Version;

pub const NONE: Version = Version { number: 0, seat: 0 };
pub const STANDING: Key = NONE;

#[derive(Clone, Copy)]
pub struct Secret {
    pub len: u8,
    pub bytes: [u8; 48],
}

impl Secret {
    pub const WIDTH: usize = 49;
    pub const BLANK: Secret = Secret { len: 0, bytes: [0; 48] };

    pub fn as_bytes(&self) -> &[u8] {
        self.bytes.get(..self.len as usize).unwrap_or(&[])
    }

    /// Writes the length, the text, and zeros up to 49 bytes.
    pub fn encode(&self, out: &mut [u8]) {
        let text = self.as_bytes();
        out[0] = text.len() as u8;
        out[1..=text.len()].copy_from_slice(text);
        out[text.len() + 1..Self::WIDTH].fill(0);
    }

    pub fn decode(bytes: &[u8]) -> Secret {
        let len = bytes[0].min(48);
        let mut secret = Secret { len, bytes: [0; 48] };
        secret.bytes[..len as usize].copy_from_slice(&bytes[1..=len as usize]);
        secret
    }
}

#[derive(Clone, Copy)]
pub struct Stored {
    pub version: Version,
    pub value: Secret,
}

/// A put found no room.
pub struct StoreFull;
