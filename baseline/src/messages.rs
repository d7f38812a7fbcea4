//! What members are handed, state and keep.

use crate::codec::{enum_codec, put_bytes, struct_codec, Fault, Read, Reader, Spell, Spelled};
use crate::digest::{Digest, Tag};
use crate::quorum::{accepts, seal, Signer};
use crate::types::Transaction;

/// For each object of a transaction, which transaction of the epoch made it.
pub type Origins = Vec<Option<Digest>>;

/// A transaction as its sender hands it over.
pub struct SignedTx<'a> {
    /// The transaction.
    pub tx: Spelled<'a, Transaction>,
    /// The sender's seal.
    pub seal: Digest,
}

impl<'a> Read<'a> for SignedTx<'a> {
    fn read(from: &mut Reader<'a>) -> Result<Self, Fault> {
        Ok(Self { tx: Read::read(from)?, seal: Read::read(from)? })
    }
}

/// What a member seals.
#[derive(Clone, PartialEq, Eq, Debug)]
pub enum Statement {
    /// It votes for a transaction.
    Vote { epoch: u64, tx: Digest, origins: Origins },
    /// It is done with the epoch.
    End { epoch: u64 },
    /// It built a checkpoint.
    Checkpoint { epoch: u64, number: u64, digest: Digest },
    /// It executed a transaction with these effects.
    Ack { epoch: u64, tx: Digest, effects: Digest },
}

enum_codec!(Statement {
    0 Vote { epoch, tx, origins };
    1 End { epoch };
    2 Checkpoint { epoch, number, digest };
    3 Ack { epoch, tx, effects };
});

/// A statement under a member's seal.
#[derive(Clone, Debug)]
pub struct Sealed {
    /// The member.
    pub member: u32,
    /// What it states.
    pub statement: Statement,
    /// Its seal.
    pub seal: Digest,
}

struct_codec!(Sealed { member, statement, seal });

impl Sealed {
    /// The statement under the seal of this member.
    pub fn new(member: u32, statement: Statement) -> Self {
        let seal = seal(Signer::Member(member), &statement.spelled());
        Self { member, statement, seal }
    }

    /// Whether the seal is the member's over the statement.
    pub fn is_accepted(&self) -> bool {
        accepts(Signer::Member(self.member), &self.statement.spelled(), &self.seal)
    }
}

/// A member's seal in a certificate.
pub struct MemberSeal {
    /// The member.
    pub member: u32,
    /// Its seal.
    pub seal: Digest,
}

struct_codec!(MemberSeal { member, seal });

/// A transaction with the votes of members.
pub struct Certificate<'a> {
    /// The transaction.
    pub tx: Spelled<'a, Transaction>,
    /// The origins for which all of them voted.
    pub origins: Origins,
    /// Their seals.
    pub seals: Vec<MemberSeal>,
}

impl<'a> Read<'a> for Certificate<'a> {
    fn read(from: &mut Reader<'a>) -> Result<Self, Fault> {
        Ok(Self { tx: Read::read(from)?, origins: Read::read(from)?, seals: Read::read(from)? })
    }
}

/// The spelling of a certificate, from that of its transaction.
pub fn spell_certificate(tx: &[u8], origins: &Origins, seals: &[MemberSeal]) -> Vec<u8> {
    let mut out = tx.to_vec();
    origins.spell(&mut out);
    seals.spell(&mut out);
    out
}

/// The digest of a transaction from its spelling.
pub fn tx_digest(spelling: &[u8]) -> Digest {
    Digest::of(Tag::Transaction, spelling)
}

/// An entry of the sequence.
pub enum Entry<'a> {
    /// A certificate.
    Certificate(Certificate<'a>),
    /// A member's End.
    End(Sealed),
    /// A mark.
    Commit,
}

impl<'a> Read<'a> for Entry<'a> {
    fn read(from: &mut Reader<'a>) -> Result<Self, Fault> {
        Ok(match from.tag(|tag| tag < 3)? {
            0 => Entry::Certificate(Read::read(from)?),
            1 => Entry::End(Read::read(from)?),
            _ => Entry::Commit,
        })
    }
}

/// The spelling of an entry with a certificate, from the certificate's.
pub fn spell_certificate_entry(certificate: &[u8]) -> Vec<u8> {
    [&[0], certificate].concat()
}

/// The spelling of an entry with an End.
pub fn spell_end_entry(end: &Sealed) -> Vec<u8> {
    let mut out = vec![1];
    end.spell(&mut out);
    out
}

/// The spelling of a mark.
pub fn spell_commit_entry() -> Vec<u8> {
    vec![2]
}

/// A transaction and the digest of its effects: what a checkpoint lists, and what a run keeps.
#[derive(Clone, PartialEq, Eq, Debug)]
pub struct Item {
    /// The transaction.
    pub tx: Digest,
    /// The digest of its effects.
    pub effects: Digest,
}

struct_codec!(Item { tx, effects });

/// A checkpoint.
#[derive(Clone, Debug)]
pub struct Checkpoint {
    /// Its epoch.
    pub epoch: u64,
    /// Its number, over all epochs.
    pub number: u64,
    /// The digest of the one before it.
    pub parent: Digest,
    /// What it lists.
    pub items: Vec<Item>,
    /// Whether it is the last one of its epoch.
    pub last: bool,
}

struct_codec!(Checkpoint { epoch, number, parent, items, last });

impl Checkpoint {
    /// Its digest.
    pub fn digest(&self) -> Digest {
        Digest::of(Tag::Checkpoint, &self.spelled())
    }
}

/// What a member keeps of a call.
pub enum Record<'a> {
    /// It voted.
    Vote { tx: Spelled<'a, Transaction>, origins: Origins },
    /// It was handed a certificate.
    Hold(Certificate<'a>),
    /// It saw an entry with these bytes.
    See(&'a [u8]),
    /// It closed.
    Close,
    /// It executed these transactions; read, and no longer written.
    Ran(Vec<Digest>),
    /// It turned.
    Turn,
    /// It executed these transactions with these effects.
    Ran2(Vec<Item>),
}

impl<'a> Read<'a> for Record<'a> {
    fn read(from: &mut Reader<'a>) -> Result<Self, Fault> {
        Ok(match from.tag(|tag| tag < 7)? {
            0 => Record::Vote { tx: Read::read(from)?, origins: Read::read(from)? },
            1 => Record::Hold(Read::read(from)?),
            2 => Record::See(from.bytes()?),
            3 => Record::Close,
            4 => Record::Ran(Read::read(from)?),
            5 => Record::Turn,
            _ => Record::Ran2(Read::read(from)?),
        })
    }
}

/// The spellings of records.
pub mod record {
    use super::*;

    /// Of a vote.
    pub fn vote(tx: &[u8], origins: &Origins) -> Vec<u8> {
        let mut out = [&[0], tx].concat();
        origins.spell(&mut out);
        out
    }

    /// Of a certificate.
    pub fn hold(certificate: &[u8]) -> Vec<u8> {
        [&[1], certificate].concat()
    }

    /// Of an entry.
    pub fn see(entry: &[u8]) -> Vec<u8> {
        let mut out = vec![2];
        put_bytes(entry, &mut out);
        out
    }

    /// Of a close.
    pub fn close() -> Vec<u8> {
        vec![3]
    }

    /// Of a turn.
    pub fn turn() -> Vec<u8> {
        vec![5]
    }

    /// Of a run.
    pub fn ran(items: &[Item]) -> Vec<u8> {
        let mut out = vec![6];
        items.spell(&mut out);
        out
    }
}

#[cfg(test)]
mod tests {
    use super::*;

    #[test]
    fn worked_bytes() {
        assert_eq!(Statement::End { epoch: 1 }.spelled(), [1, 1, 0, 0, 0, 0, 0, 0, 0]);
        assert_eq!(vec![None::<Digest>].spelled(), [1, 0]);
        assert_eq!(spell_commit_entry(), [2]);
        assert_eq!(record::see(&[2]), [2, 1, 2]);
    }

    #[test]
    fn records_come_back() {
        assert!(matches!(Record::decode(&record::close()), Ok(Record::Close)));
        assert!(matches!(Record::decode(&[7]), Err(Fault { at: 0, .. })));
        assert!(matches!(Record::decode(&[6]), Err(Fault { at: 1, .. })));
        let items = vec![Item { tx: Digest([1; 32]), effects: Digest([2; 32]) }];
        assert!(matches!(Record::decode(&record::ran(&items)), Ok(Record::Ran2(read)) if read == items));
    }
}
