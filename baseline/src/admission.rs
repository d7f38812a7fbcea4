//! Which certificates of the sequence are admitted, in which order, and which versions of shared objects they are assigned.

use crate::digest::{Digest, ObjectId};
use crate::messages::Origins;
use crate::store::{Producer, Store};
use crate::types::{Named, Transaction};
use std::collections::{BTreeMap, BTreeSet, HashMap, HashSet};

/// A version that was assigned for a shared input.
#[derive(Clone, Copy, Debug)]
pub struct Assigned {
    /// The version.
    pub version: u64,
    /// Who makes it.
    pub writer: Producer,
}

/// What admission knows of a certificate.
pub struct Candidate {
    tx: Digest,
    /// The greatest version among its objects that are not shared.
    greatest: u64,
    origins: Origins,
    shared: Vec<SharedInput>,
    /// How many of its origins are not admitted, each counted as often as it is named.
    missing: usize,
    /// The object behind whose writers it waited when it was tried again.
    released_by: Option<ObjectId>,
}

struct SharedInput {
    id: ObjectId,
    initial: u64,
    mutable: bool,
    origin: Producer,
}

impl Candidate {
    /// A certificate's transaction, with one origin for each of its objects.
    pub fn new(tx: &Transaction, digest: Digest, origins: &Origins) -> Self {
        let shared = tx.objects().zip(origins).filter_map(|(object, &origin)| match object {
            Named::Shared { id, initial, mutable } => Some(SharedInput { id, initial, mutable, origin }),
            _ => None,
        });
        let versions = tx.objects().filter_map(|object| object.reference().map(|it| it.version));
        Self {
            tx: digest,
            greatest: versions.max().unwrap_or(0),
            origins: origins.clone(),
            shared: shared.collect(),
            missing: 0,
            released_by: None,
        }
    }

    fn written(&self) -> impl Iterator<Item = ObjectId> + '_ {
        self.shared.iter().filter(|input| input.mutable).map(|input| input.id)
    }
}

/// What one entry led to, in order.
#[derive(Default)]
pub struct Taken {
    /// The admitted transactions, with what their shared inputs were assigned.
    pub admitted: Vec<(Digest, Vec<Assigned>)>,
    /// The dropped ones.
    pub dropped: Vec<Digest>,
}

impl Taken {
    /// Whether it led to nothing.
    pub fn is_empty(&self) -> bool {
        self.admitted.is_empty() && self.dropped.is_empty()
    }
}

/// Why a transaction waits in the sequence.
pub enum Waits {
    /// For this origin, the first that is not admitted.
    Origin(Digest),
    /// For a mark, since this object has as many writers as the limit allows.
    Writers(ObjectId),
}

/// The admission of one epoch.
#[derive(Default)]
pub struct Admission {
    limit: Option<u32>,
    admitted: HashSet<Digest>,
    /// What is pending, by arrival.
    pending: BTreeMap<u64, Candidate>,
    arrivals: u64,
    /// For each origin that is not admitted, which ones wait for it.
    waiting: HashMap<Digest, Vec<u64>>,
    /// Which ones have all their origins, and are to be tried.
    ready: BTreeSet<u64>,
    /// For each object with as many writers as the limit allows, which ones wait for a mark; the first of them is ready
    /// where there is room again.
    deferred: HashMap<ObjectId, BTreeSet<u64>>,
    /// How many admitted writers each object has since the last mark.
    writers: HashMap<ObjectId, u32>,
    /// The current version of each shared object, and who makes it.
    current: HashMap<ObjectId, Assigned>,
    /// What was admitted since the last mark.
    since_mark: Vec<Digest>,
}

impl Admission {
    /// Begins with a limit of writers, or none.
    pub fn new(limit: Option<u32>) -> Self {
        Self { limit, ..Self::default() }
    }

    /// Takes a certificate that is not in the sequence yet.
    pub fn push(&mut self, mut candidate: Candidate, opening: &Store) -> Taken {
        let number = self.arrivals;
        self.arrivals += 1;
        for origin in candidate.origins.iter().flatten().filter(|origin| !self.admitted.contains(*origin)) {
            self.waiting.entry(*origin).or_default().push(number);
            candidate.missing += 1;
        }
        if candidate.missing == 0 {
            self.ready.insert(number);
        }
        self.pending.insert(number, candidate);
        self.settle(opening)
    }

    /// Cuts what was admitted since the last mark.
    pub fn cut(&mut self) -> Vec<Digest> {
        std::mem::take(&mut self.since_mark)
    }

    /// Goes on behind a mark, which was cut.
    pub fn mark(&mut self, opening: &Store) -> Taken {
        self.writers.clear();
        let objects: Vec<ObjectId> = self.deferred.keys().copied().collect();
        objects.into_iter().for_each(|id| self.release(id));
        self.settle(opening)
    }

    /// Why the last certificate that was pushed waits; none where it does not.
    pub fn last_waits(&self) -> Option<Waits> {
        let candidate = self.pending.get(&(self.arrivals.checked_sub(1)?))?;
        let missing = candidate.origins.iter().flatten().find(|origin| !self.admitted.contains(*origin));
        match missing {
            Some(origin) => Some(Waits::Origin(*origin)),
            None => self.full_for(candidate).map(Waits::Writers),
        }
    }

    fn is_full(&self, id: &ObjectId) -> bool {
        self.limit.is_some_and(|limit| self.writers.get(id).copied().unwrap_or(0) >= limit)
    }

    fn full_for(&self, candidate: &Candidate) -> Option<ObjectId> {
        candidate.written().find(|id| self.is_full(id))
    }

    /// Has the first one that was deferred behind an object tried again.
    fn release(&mut self, id: ObjectId) {
        let Some(deferred) = self.deferred.get_mut(&id) else { return };
        if let Some(number) = deferred.pop_first() {
            if let Some(candidate) = self.pending.get_mut(&number) {
                candidate.released_by = Some(id);
            }
            self.ready.insert(number);
        }
        if deferred.is_empty() {
            self.deferred.remove(&id);
        }
    }

    /// Takes the first that is free, again and again.
    fn settle(&mut self, opening: &Store) -> Taken {
        let mut taken = Taken::default();
        while let Some(number) = self.ready.pop_first() {
            let Some(mut candidate) = self.pending.remove(&number) else { continue };
            let released_by = candidate.released_by.take();
            match self.full_for(&candidate) {
                Some(id) => {
                    self.deferred.entry(id).or_default().insert(number);
                    self.pending.insert(number, candidate);
                }
                None => self.take(candidate, opening, &mut taken),
            }
            if let Some(id) = released_by.filter(|id| !self.is_full(id)) {
                self.release(id);
            }
        }
        taken
    }

    fn take(&mut self, candidate: Candidate, opening: &Store, taken: &mut Taken) {
        match self.assign(&candidate, opening) {
            Some((assigned, version)) => {
                self.admit(&candidate, &assigned, version);
                taken.admitted.push((candidate.tx, assigned));
            }
            None => taken.dropped.push(candidate.tx),
        }
    }

    /// What the shared inputs are assigned, and the version that the transaction makes; none where it is dropped.
    fn assign(&self, candidate: &Candidate, opening: &Store) -> Option<(Vec<Assigned>, u64)> {
        let assign = |input: &SharedInput| {
            let base = match input.origin {
                None => Assigned { version: opening.opening_shared(&input.id)?, writer: None },
                origin => Assigned { version: input.initial, writer: origin },
            };
            Some(self.current.get(&input.id).copied().unwrap_or(base))
        };
        let assigned = candidate.shared.iter().map(assign).collect::<Option<Vec<_>>>()?;
        let greatest = assigned.iter().map(|it| it.version).fold(candidate.greatest, u64::max);
        (greatest + 1 < 1 << 62).then_some((assigned, greatest + 1))
    }

    fn admit(&mut self, candidate: &Candidate, assigned: &[Assigned], version: u64) {
        for (input, &assigned) in candidate.shared.iter().zip(assigned) {
            let current = match input.mutable {
                true => Assigned { version, writer: Some(candidate.tx) },
                false => assigned,
            };
            self.current.insert(input.id, current);
        }
        if self.limit.is_some() {
            candidate.written().for_each(|id| *self.writers.entry(id).or_default() += 1);
        }
        self.admitted.insert(candidate.tx);
        self.since_mark.push(candidate.tx);
        for number in self.waiting.remove(&candidate.tx).unwrap_or_default() {
            if let Some(waiting) = self.pending.get_mut(&number) {
                waiting.missing -= 1;
                if waiting.missing == 0 {
                    self.ready.insert(number);
                }
            }
        }
    }
}
