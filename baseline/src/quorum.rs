//! Stakes, quorums and seals.

use crate::codec::{enum_codec, Spell};
use crate::digest::{Address, Digest, Tag};

/// The stakes of all members.
pub struct Committee {
    stakes: Vec<u32>,
    total: u64,
}

impl Committee {
    /// A committee of these stakes.
    pub fn new(stakes: Vec<u32>) -> Self {
        let total = stakes.iter().map(|&stake| u64::from(stake)).sum();
        Self { stakes, total }
    }

    /// Whether there is such a member.
    pub fn knows(&self, member: u32) -> bool {
        (member as usize) < self.stakes.len()
    }

    /// The stake of all.
    pub fn total(&self) -> u64 {
        self.total
    }

    /// The stake of these members, which are known and distinct.
    pub fn weight(&self, members: impl IntoIterator<Item = u32>) -> u64 {
        members.into_iter().map(|member| u64::from(self.stakes[member as usize])).sum()
    }

    /// Whether this stake is more than two thirds of all.
    pub fn is_quorum(&self, weight: u64) -> bool {
        3 * weight > 2 * self.total
    }
}

/// Who seals.
#[derive(Clone, Copy)]
pub enum Signer {
    /// A member, what it states.
    Member(u32),
    /// A user, a transaction.
    User(Address),
}

enum_codec!(Signer { 0 Member(member); 1 User(address); });

const SECRET: [u8; 32] = [0x5a; 32];

/// The seal of this signer over these bytes: a keyed digest, which is no security.
pub fn seal(signer: Signer, bytes: &[u8]) -> Digest {
    let mut name = Vec::with_capacity(33);
    signer.spell(&mut name);
    Digest::of_pieces(Tag::Seal, &[&SECRET, &name, bytes])
}

/// Whether this is the seal of this signer over these bytes.
pub fn accepts(signer: Signer, bytes: &[u8], made: &Digest) -> bool {
    seal(signer, bytes) == *made
}

/// The Ends of one epoch: each member counts once.
#[derive(Default)]
pub struct EndCount {
    counted: u64,
    weight: u64,
}

impl EndCount {
    /// Counts a member that is known, and gives the stake of all that are counted; none where it was counted before.
    pub fn count(&mut self, committee: &Committee, member: u32) -> Option<u64> {
        let bit = 1 << member;
        if self.counted & bit != 0 {
            return None;
        }
        self.counted |= bit;
        self.weight += committee.weight([member]);
        Some(self.weight)
    }
}

#[cfg(test)]
mod tests {
    use super::*;

    #[test]
    fn more_than_two_thirds_are_a_quorum() {
        let committee = Committee::new(vec![1, 1, 4]);
        assert_eq!(committee.total(), 6);
        assert!(committee.is_quorum(5) && !committee.is_quorum(4));
    }

    #[test]
    fn a_member_counts_once() {
        let committee = Committee::new(vec![1; 4]);
        let mut ends = EndCount::default();
        let counts: Vec<_> = [0, 0, 1, 2].iter().map(|&member| ends.count(&committee, member)).collect();
        assert_eq!(counts, [Some(1), None, Some(2), Some(3)]);
    }
}
