//! The certificates that a member holds: which are ready to be executed, and their execution round by round.

use crate::admission::Assigned;
use crate::block::{execute, fits, Executed};
use crate::digest::Digest;
use crate::messages::Origins;
use crate::pool;
use crate::store::{Producer, Store};
use crate::types::{Effects, Named, Object, ObjectKey, Transaction};
use std::collections::{BTreeMap, BTreeSet, HashMap};

/// A certificate that is held.
pub struct Held {
    /// The transaction's digest.
    pub digest: Digest,
    /// The transaction.
    pub tx: Transaction,
    /// The origins that it names.
    pub origins: Origins,
    /// Whether its transaction is in the sequence, admitted or not.
    pub in_sequence: bool,
    /// Whether the certificate in the sequence names the same origins.
    pub same_origins: bool,
    /// What its shared inputs were assigned, where it was admitted.
    pub assigned: Option<Vec<Assigned>>,
    /// The digest of its effects, where it was executed.
    pub effects: Option<Digest>,
    /// How many of the versions that it wants are of transactions that are not executed.
    missing: usize,
}

/// A version that a certificate wants, and who must have made it.
struct Want {
    key: ObjectKey,
    producer: Producer,
}

impl Held {
    /// Executed by the certificate that was admitted.
    pub fn is_done(&self) -> bool {
        self.effects.is_some() && self.same_origins
    }

    /// What it wants, one version for each object. Its shared inputs must have been assigned.
    fn wants(&self) -> impl Iterator<Item = Want> + '_ {
        let mut assigned = self.assigned.iter().flatten();
        self.tx.objects().zip(&self.origins).map(move |(object, &origin)| match object {
            Named::Shared { id, .. } => {
                let Assigned { version, writer } = *assigned.next().expect("assigned when it was admitted");
                Want { key: ObjectKey { id, version }, producer: writer }
            }
            _ => Want { key: object.key(), producer: origin },
        })
    }
}

/// Why a certificate was not executed though all that it comes from was.
#[derive(Clone, Copy)]
pub enum Left {
    /// This version is not there, or another transaction made it.
    Absent(ObjectKey),
    /// All are there, and one does not fit.
    Unfit,
}

/// What a run did.
#[derive(Default)]
pub struct Ran {
    /// What was executed, in order.
    pub executed: Vec<(Effects, Digest)>,
    /// What is left, in the order in which certificates came.
    pub left: Vec<(Digest, Left)>,
}

/// All certificates of an epoch that a member holds, in the order in which they came.
#[derive(Default)]
pub struct Holdings {
    list: Vec<Held>,
    places: HashMap<Digest, usize>,
    consumers: HashMap<ObjectKey, Digest>,
    /// For each transaction that is not executed, which ones want a version that it makes.
    waiting: HashMap<Digest, Vec<usize>>,
    /// Which ones wait for nothing, and are not executed.
    ready: BTreeSet<usize>,
    /// All before this place are in the sequence.
    sequenced: usize,
}

/// A thread more is worth its start for each so many commands.
const COMMANDS_A_THREAD: usize = 64;

impl Holdings {
    /// The certificate of a transaction.
    pub fn get(&self, tx: &Digest) -> Option<&Held> {
        self.places.get(tx).map(|&place| &self.list[place])
    }

    fn get_mut(&mut self, tx: &Digest) -> Option<&mut Held> {
        self.places.get(tx).map(|&place| &mut self.list[place])
    }

    /// The digest of the effects of a transaction that was executed.
    pub fn executed(&self, tx: &Digest) -> Option<Digest> {
        self.get(tx)?.effects
    }

    /// The first version that a transaction consumes and that a certificate consumes which is held, and that one.
    pub fn conflict(&self, tx: &Transaction) -> Option<(ObjectKey, Digest)> {
        tx.consumed().find_map(|key| self.consumers.get(&key).map(|first| (key, *first)))
    }

    /// Holds a certificate that is not held.
    pub fn hold(&mut self, digest: Digest, tx: Transaction, origins: Origins) {
        let place = self.list.len();
        for key in tx.consumed() {
            self.consumers.entry(key).or_insert(digest);
        }
        let has_shared = tx.has_shared();
        self.places.insert(digest, place);
        self.list.push(Held {
            digest,
            tx,
            origins,
            in_sequence: false,
            same_origins: false,
            assigned: None,
            effects: None,
            missing: 0,
        });
        if !has_shared {
            self.gather(place);
        }
    }

    /// Notes that a transaction is in the sequence now, by a certificate with these origins.
    pub fn sequence(&mut self, tx: &Digest, origins: &Origins) {
        if let Some(held) = self.get_mut(tx) {
            held.in_sequence = true;
            held.same_origins = held.origins == *origins;
        }
    }

    /// Notes that a transaction was admitted.
    pub fn admit(&mut self, tx: &Digest, assigned: Vec<Assigned>) {
        let Some(&place) = self.places.get(tx) else { return };
        self.list[place].assigned = Some(assigned);
        if self.list[place].tx.has_shared() {
            self.gather(place);
        }
    }

    /// The first certificate whose transaction is not in the sequence.
    pub fn first_unsequenced(&mut self) -> Option<Digest> {
        self.sequenced += self.list[self.sequenced..].iter().take_while(|held| held.in_sequence).count();
        self.list.get(self.sequenced).map(|held| held.digest)
    }

    /// Counts what a certificate waits for; where that is nothing it is ready.
    fn gather(&mut self, place: usize) {
        let producers = self.list[place].wants().filter_map(|want| want.producer);
        let missing: Vec<Digest> = producers.filter(|producer| self.executed(producer).is_none()).collect();
        self.list[place].missing = missing.len();
        if missing.is_empty() {
            self.ready.insert(place);
        }
        missing.into_iter().for_each(|producer| self.waiting.entry(producer).or_default().push(place));
    }

    /// Executes all that is ready, and what that makes ready, round by round.
    pub fn run(&mut self, store: &mut Store, workers: usize) -> Ran {
        let mut ran = Ran::default();
        let mut left = BTreeMap::new();
        let mut round: Vec<usize> = self.ready.iter().copied().collect();
        while !round.is_empty() {
            let outcomes = self.evaluate(&round, store, workers);
            let mut next = Vec::new();
            for (place, outcome) in round.into_iter().zip(outcomes) {
                match outcome {
                    Ok(executed) => {
                        self.ready.remove(&place);
                        ran.executed.push(self.take(place, executed, store, &mut next));
                    }
                    Err(why) => {
                        left.insert(place, why);
                    }
                }
            }
            self.ready.extend(&next);
            next.sort_unstable();
            round = next;
        }
        let told = left.into_iter().map(|(place, why)| (&self.list[place], why));
        ran.left = told.filter(|(held, _)| self.has_origins(held)).map(|(held, why)| (held.digest, why)).collect();
        ran
    }

    /// Whether all origins that a certificate names are executed, those of shared inputs too.
    fn has_origins(&self, held: &Held) -> bool {
        held.origins.iter().flatten().all(|origin| self.executed(origin).is_some())
    }

    /// Executes independent certificates.
    fn evaluate(&self, round: &[usize], store: &Store, workers: usize) -> Vec<Result<Executed, Left>> {
        let commands: usize = round.iter().map(|&place| self.list[place].tx.commands.len()).sum();
        let threads = workers.min(1 + commands / COMMANDS_A_THREAD);
        pool::map(round, threads, |&place| evaluate(&self.list[place], store))
    }

    /// Stores what was executed, and adds to `next` what it made ready.
    fn take(&mut self, place: usize, executed: Executed, store: &mut Store, next: &mut Vec<usize>) -> (Effects, Digest) {
        let Executed { effects, digest, objects } = executed;
        let held = &mut self.list[place];
        held.effects = Some(digest);
        let written = objects.into_iter().zip(effects.written.iter().map(|it| it.digest)).collect();
        store.write(held.digest, held.tx.consumed(), written, &effects.deleted);
        for waiting in self.waiting.remove(&effects.tx).unwrap_or_default() {
            self.list[waiting].missing -= 1;
            if self.list[waiting].missing == 0 {
                next.push(waiting);
            }
        }
        (effects, digest)
    }
}

/// Executes one certificate, where all that it wants is there and fits.
fn evaluate(held: &Held, store: &Store) -> Result<Executed, Left> {
    let find = |want: Want| {
        let version = store.get(&want.key).filter(|version| version.producer == want.producer);
        version.ok_or(Left::Absent(want.key))
    };
    let versions = held.wants().map(find).collect::<Result<Vec<_>, _>>()?;
    let inputs: Vec<&Object> = versions.iter().map(|version| &version.object).collect();
    if !fits(&held.tx, &inputs, |place| versions[place].digest()) {
        return Err(Left::Unfit);
    }
    Ok(execute(&held.tx, &held.digest, &inputs))
}
