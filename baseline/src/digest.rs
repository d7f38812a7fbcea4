//! Digests: SHA-256 of a tag byte and then the bytes.

use crate::codec::{Fault, Read, Reader, Spell};
use crate::sha256::Sha256;
use std::fmt;

/// What a digest is of.
#[derive(Clone, Copy)]
pub enum Tag {
    /// The name of a user.
    Address = 0x41,
    /// A checkpoint.
    Checkpoint = 0x43,
    /// The effects of a transaction.
    Effects = 0x45,
    /// The number of an object of the set-up.
    Genesis = 0x47,
    /// A transaction's digest and the number of a creation.
    Created = 0x49,
    /// An object.
    Object = 0x4f,
    /// A seal.
    Seal = 0x53,
    /// A transaction without its seal.
    Transaction = 0x54,
}

macro_rules! bytes32 {
    ($($(#[$doc:meta])* $name:ident),*) => {$(
        $(#[$doc])*
        #[derive(Clone, Copy, PartialEq, Eq, PartialOrd, Ord, Hash)]
        pub struct $name(pub [u8; 32]);

        impl Spell for $name {
            fn spell(&self, out: &mut Vec<u8>) {
                out.extend_from_slice(&self.0);
            }
        }

        impl Read<'_> for $name {
            fn read(from: &mut Reader) -> Result<Self, Fault> {
                from.array().map(Self)
            }
        }

        impl fmt::Debug for $name {
            fn fmt(&self, out: &mut fmt::Formatter) -> fmt::Result {
                self.0.iter().try_for_each(|byte| write!(out, "{byte:02x}"))
            }
        }
    )*};
}

bytes32! {
    /// A SHA-256 digest, or a seal.
    Digest,
    /// The id of an object.
    ObjectId,
    /// The address of a user.
    Address
}

impl Digest {
    /// 32 zero bytes.
    pub const ZERO: Digest = Digest([0; 32]);

    /// The digest of bytes that are handed over in pieces.
    pub fn of_pieces(tag: Tag, pieces: &[&[u8]]) -> Digest {
        let mut hasher = Sha256::default();
        hasher.update(&[tag as u8]);
        pieces.iter().for_each(|piece| hasher.update(piece));
        Digest(hasher.finish())
    }

    /// The digest of bytes.
    pub fn of(tag: Tag, bytes: &[u8]) -> Digest {
        Self::of_pieces(tag, &[bytes])
    }

    /// The same with the last bit of the first byte turned.
    pub fn spoiled(mut self) -> Digest {
        self.0[0] ^= 1;
        self
    }
}

/// The id of the object that a transaction creates under this number.
pub fn created_id(tx: &Digest, number: u64) -> ObjectId {
    ObjectId(Digest::of_pieces(Tag::Created, &[&tx.0, &number.to_le_bytes()]).0)
}

/// The id of the object of the set-up with this number.
pub fn genesis_id(number: u64) -> ObjectId {
    ObjectId(Digest::of(Tag::Genesis, &number.to_le_bytes()).0)
}

/// The address of the user with this name.
pub fn address_of(name: &str) -> Address {
    Address(Digest::of(Tag::Address, name.as_bytes()).0)
}
