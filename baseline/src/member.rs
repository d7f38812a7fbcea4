//! One member: what it answers to what it is handed, and the records that it keeps of it.

use crate::admission::{Admission, Candidate, Taken, Waits};
use crate::codec::{Fault, Read, Spell};
use crate::digest::Digest;
use crate::held::{Holdings, Ran};
use crate::journal::{Journal, Stopped};
use crate::messages::{
    record, tx_digest, Certificate, Checkpoint, Entry, Item, Origins, Record, Sealed, SignedTx, Statement,
};
use crate::quorum::{accepts, Committee, EndCount, Signer};
use crate::shape;
use crate::store::Store;
use crate::types::{Content, Effects, Named, Object, ObjectKey, Owner, Transaction};
use std::collections::{HashMap, VecDeque};
use std::ops::Range;
use std::sync::Arc;

/// What all members agree on.
pub struct Rules {
    /// The stakes.
    pub committee: Committee,
    /// How many writers of a shared object are admitted between two marks.
    pub writers: Option<u32>,
}

/// Two transactions whose certificates consume one version.
#[derive(Clone, Copy, Debug)]
pub struct Fork {
    /// The version.
    pub key: ObjectKey,
    /// The one that was held.
    pub first: Digest,
    /// The one that came second.
    pub second: Digest,
}

/// Why a member refuses what it is asked.
#[derive(Clone, Copy, Debug)]
pub enum Refusal {
    Stopped,
    Halted(Fork),
    Malformed(Fault),
    WrongEpoch { had: u64, want: u64 },
    Closed,
    // Of votes.
    Invalid(u8),
    Unsealed,
    Absent(ObjectKey),
    Consumed { key: ObjectKey, by: Digest },
    WrongDigest(ObjectKey),
    WrongOwner(ObjectKey),
    WrongKind(ObjectKey),
    PoorGas { had: u64, want: u64 },
    Locked { key: ObjectKey, by: Digest },
    // Of certificates.
    Shape(u8),
    Order,
    ShortStake { weight: u64, total: u64 },
    BadSeal(u32),
    Fork(Fork),
    // Of the end of an epoch, and of acknowledgements.
    NotClosed,
    NotEnded,
    NotExecuted,
    Waits(Digest),
}

impl From<Stopped> for Refusal {
    fn from(_: Stopped) -> Self {
        Refusal::Stopped
    }
}

/// A vote, and whether it is a new one.
pub struct Voted {
    /// The vote.
    pub sealed: Sealed,
    /// Whether it was not given before.
    pub fresh: bool,
}

/// Why an entry is ignored.
#[derive(Clone, Copy, PartialEq, Eq, Debug)]
pub enum Ignore {
    Malformed,
    Statement,
    Epoch,
    Certificate,
    Seal,
    Repeat,
}

/// What became of an entry.
pub enum Seen {
    Taken(Taken),
    Waits { tx: Digest, on: Waits },
    Commit(Taken),
    Counted { member: u32, weight: u64, ended: bool },
    Ignored(Ignore),
    Fork(Fork),
}

/// What a mark, or the end of an epoch, cut off the sequence.
struct Cut {
    txs: Vec<Digest>,
    /// How many of them are known to be done.
    done: usize,
    last: bool,
}

/// What a member has of its epoch alone.
#[derive(Default)]
struct Course {
    closed: bool,
    halted: Option<Fork>,
    votes: HashMap<Digest, Origins>,
    locks: HashMap<ObjectKey, Digest>,
    held: Holdings,
    admission: Admission,
    seen: usize,
    ends: EndCount,
    ended: bool,
    cuts: VecDeque<Cut>,
}

/// An honest member that is up.
pub struct Member {
    number: u32,
    rules: Arc<Rules>,
    epoch: u64,
    store: Store,
    course: Course,
    checkpoints: Vec<Checkpoint>,
    last_checkpoint: Digest,
}

/// A record that no call would have kept; its place.
#[derive(Debug)]
pub struct BadRecord(pub usize);

impl Member {
    /// A member that was handed nothing.
    pub fn new(number: u32, rules: Arc<Rules>, opening: &[Object]) -> Self {
        let course = Course { admission: Admission::new(rules.writers), ..Course::default() };
        Self {
            number,
            rules,
            epoch: 0,
            store: Store::opening(opening),
            course,
            checkpoints: Vec::new(),
            last_checkpoint: Digest::ZERO,
        }
    }

    /// A member that takes its records back.
    pub fn start(number: u32, rules: Arc<Rules>, opening: &[Object], records: &[Vec<u8>]) -> Result<Self, BadRecord> {
        let mut member = Self::new(number, rules, opening);
        for (place, record) in records.iter().enumerate() {
            member.replay(record).ok_or(BadRecord(place))?;
        }
        Ok(member)
    }

    /// The epoch in which it is.
    pub fn epoch(&self) -> u64 {
        self.epoch
    }

    /// How many entries of its epoch's sequence it has seen.
    pub fn seen(&self) -> usize {
        self.course.seen
    }

    /// The fork that it met.
    pub fn halted(&self) -> Option<Fork> {
        self.course.halted
    }

    /// The checkpoints that it built, over all epochs.
    pub fn checkpoints(&self) -> &[Checkpoint] {
        &self.checkpoints
    }

    /// Its live objects, in no order.
    pub fn live_objects(&self) -> impl Iterator<Item = &Object> {
        self.store.live_objects()
    }

    /// The digest of a version that it holds.
    pub fn held_digest(&self, key: &ObjectKey) -> Option<Digest> {
        self.store.get(key).map(|version| version.digest())
    }

    /// The digest of the effects of a transaction that it executed in this epoch.
    pub fn executed_digest(&self, tx: &Digest) -> Option<Digest> {
        self.course.held.executed(tx)
    }

    // Votes.

    /// Is asked to vote for a sealed transaction.
    pub fn vote(&mut self, journal: &mut Journal, bytes: &[u8]) -> Result<Voted, Refusal> {
        self.check_halted()?;
        let signed = SignedTx::decode(bytes).map_err(Refusal::Malformed)?;
        let (tx, spelling) = (&signed.tx.value, signed.tx.bytes);
        if tx.epoch != self.epoch {
            return Err(Refusal::WrongEpoch { had: tx.epoch, want: self.epoch });
        }
        let digest = tx_digest(spelling);
        if let Some(origins) = self.course.votes.get(&digest) {
            return Ok(Voted { sealed: self.seal_vote(digest, origins.clone()), fresh: false });
        }
        if self.course.closed {
            return Err(Refusal::Closed);
        }
        if let Some(number) = shape::fault_of(tx, spelling.len()) {
            return Err(Refusal::Invalid(number));
        }
        if !accepts(Signer::User(tx.sender), spelling, &signed.seal) {
            return Err(Refusal::Unsealed);
        }
        let origins = self.decide(tx)?;
        journal.append(record::vote(spelling, &origins))?;
        self.take_vote(tx, digest, origins.clone());
        Ok(Voted { sealed: self.seal_vote(digest, origins), fresh: true })
    }

    fn seal_vote(&self, tx: Digest, origins: Origins) -> Sealed {
        Sealed::new(self.number, Statement::Vote { epoch: self.epoch, tx, origins })
    }

    fn take_vote(&mut self, tx: &Transaction, digest: Digest, origins: Origins) {
        self.course.locks.extend(tx.consumed().map(|key| (key, digest)));
        self.course.votes.insert(digest, origins);
    }

    /// The origins of a new vote, or the first case against it.
    fn decide(&self, tx: &Transaction) -> Result<Origins, Refusal> {
        self.check_presence(tx)?;
        self.check_references(tx)?;
        self.check_kinds(tx)?;
        self.check_gas(tx)?;
        let locked = |key: ObjectKey| self.course.locks.get(&key).map(|&by| Refusal::Locked { key, by });
        match tx.consumed().find_map(locked) {
            Some(refusal) => Err(refusal),
            None => Ok(tx.objects().map(|object| self.store.get(&object.key())?.producer).collect()),
        }
    }

    fn check_presence(&self, tx: &Transaction) -> Result<(), Refusal> {
        let is_absent = |object: &Named| match object {
            Named::Shared { id, .. } => !self.store.has(id),
            _ => self.store.get(&object.key()).is_none(),
        };
        if let Some(object) = tx.objects().find(is_absent) {
            return Err(Refusal::Absent(object.key()));
        }
        let consumed = |key: ObjectKey| self.store.get(&key)?.consumer.map(|by| Refusal::Consumed { key, by });
        tx.consumed().find_map(consumed).map_or(Ok(()), Err)
    }

    fn check_references(&self, tx: &Transaction) -> Result<(), Refusal> {
        let references = tx.objects().filter_map(|object| object.reference());
        for reference in references {
            let version = self.store.get(&reference.key());
            if version.is_some_and(|version| version.digest() != reference.digest) {
                return Err(Refusal::WrongDigest(reference.key()));
            }
        }
        let is_anothers = |key: &ObjectKey| match self.store.get(key).map(|version| version.object.owner) {
            Some(Owner::Address(owner)) => owner != tx.sender,
            _ => false,
        };
        tx.consumed().find(is_anothers).map_or(Ok(()), |key| Err(Refusal::WrongOwner(key)))
    }

    fn check_kinds(&self, tx: &Transaction) -> Result<(), Refusal> {
        let is_right = |object: &Named| {
            let version = match object {
                Named::Shared { id, .. } => self.store.live(id),
                _ => self.store.get(&object.key()),
            };
            version.is_some_and(|version| is_of_kind(object, &version.object))
        };
        match tx.objects().find(|object| !is_right(object)) {
            Some(object) => Err(Refusal::WrongKind(object.key())),
            None => Ok(()),
        }
    }

    fn check_gas(&self, tx: &Transaction) -> Result<(), Refusal> {
        match self.store.get(&tx.gas.key()).map(|version| version.object.content) {
            Some(Content::Coin { balance, .. }) if balance < tx.budget => {
                Err(Refusal::PoorGas { had: balance, want: tx.budget })
            }
            _ => Ok(()),
        }
    }

    // Certificates.

    /// Is handed a certificate; answers whether it is newly held.
    pub fn hold(&mut self, journal: &mut Journal, bytes: &[u8]) -> Result<bool, Refusal> {
        self.check_halted()?;
        let certificate = Certificate::decode(bytes).map_err(Refusal::Malformed)?;
        let Some(digest) = self.judge_hold(&certificate)? else { return Ok(false) };
        journal.append(record::hold(bytes))?;
        match self.keep(digest, certificate.tx.value, certificate.origins) {
            Some(fork) => Err(Refusal::Fork(fork)),
            None => Ok(true),
        }
    }

    /// The digest of a certificate that is to be held; none where it is held already.
    fn judge_hold(&self, certificate: &Certificate) -> Result<Option<Digest>, Refusal> {
        let epoch = certificate.tx.value.epoch;
        if epoch != self.epoch {
            return Err(Refusal::WrongEpoch { had: epoch, want: self.epoch });
        }
        let digest = tx_digest(certificate.tx.bytes);
        if self.course.held.get(&digest).is_some() {
            return Ok(None);
        }
        if self.course.closed {
            return Err(Refusal::Closed);
        }
        self.check_certificate(certificate, digest)?;
        Ok(Some(digest))
    }

    fn check_certificate(&self, certificate: &Certificate, digest: Digest) -> Result<(), Refusal> {
        let (tx, seals) = (&certificate.tx.value, &certificate.seals);
        if let Some(number) = shape::fault_of(tx, certificate.tx.bytes.len()) {
            return Err(Refusal::Shape(number));
        }
        if certificate.origins.len() != tx.objects().count() {
            return Err(Refusal::Shape(13));
        }
        let ascend = seals.windows(2).all(|pair| pair[0].member < pair[1].member);
        let committee = &self.rules.committee;
        if !ascend || !seals.iter().all(|it| committee.knows(it.member)) {
            return Err(Refusal::Order);
        }
        let weight = committee.weight(seals.iter().map(|it| it.member));
        if !committee.is_quorum(weight) {
            return Err(Refusal::ShortStake { weight, total: committee.total() });
        }
        let origins = certificate.origins.clone();
        let statement = Statement::Vote { epoch: tx.epoch, tx: digest, origins }.spelled();
        match seals.iter().find(|it| !accepts(Signer::Member(it.member), &statement, &it.seal)) {
            Some(bad) => Err(Refusal::BadSeal(bad.member)),
            None => Ok(()),
        }
    }

    /// Holds a valid certificate, or halts at a fork.
    fn keep(&mut self, digest: Digest, tx: Transaction, origins: Origins) -> Option<Fork> {
        match self.course.held.conflict(&tx) {
            Some((key, first)) => self.course.halted = Some(Fork { key, first, second: digest }),
            None => self.course.held.hold(digest, tx, origins),
        }
        self.course.halted
    }

    // The sequence.

    /// Takes the next entry of its epoch's sequence; answers what became of it, and which checkpoints it completed.
    pub fn see(&mut self, journal: &mut Journal, bytes: &[u8]) -> Result<(Seen, Range<usize>), Stopped> {
        journal.append(record::see(bytes))?;
        Ok(self.take_entry(bytes))
    }

    fn take_entry(&mut self, bytes: &[u8]) -> (Seen, Range<usize>) {
        self.course.seen += 1;
        let seen = match Entry::decode(bytes) {
            Err(_) => Seen::Ignored(Ignore::Malformed),
            Ok(Entry::Certificate(certificate)) => self.take_certificate(certificate),
            Ok(Entry::End(sealed)) => self.take_end(&sealed),
            Ok(Entry::Commit) => self.take_mark(),
        };
        (seen, self.build())
    }

    fn take_certificate(&mut self, certificate: Certificate) -> Seen {
        if certificate.tx.value.epoch != self.epoch {
            return Seen::Ignored(Ignore::Epoch);
        }
        let digest = tx_digest(certificate.tx.bytes);
        if self.check_certificate(&certificate, digest).is_err() {
            return Seen::Ignored(Ignore::Certificate);
        }
        let held = self.course.held.get(&digest);
        if held.is_some_and(|held| held.in_sequence) {
            return Seen::Ignored(Ignore::Repeat);
        }
        let (is_held, origins) = (held.is_some(), certificate.origins);
        let candidate = Candidate::new(&certificate.tx.value, digest, &origins);
        if !is_held {
            if let Some(fork) = self.keep(digest, certificate.tx.value, origins.clone()) {
                return Seen::Fork(fork);
            }
        }
        self.course.held.sequence(&digest, &origins);
        let taken = self.course.admission.push(candidate, &self.store);
        if taken.is_empty() {
            let on = self.course.admission.last_waits().expect("what is not taken waits");
            return Seen::Waits { tx: digest, on };
        }
        self.note_admitted(&taken);
        Seen::Taken(taken)
    }

    fn note_admitted(&mut self, taken: &Taken) {
        for (tx, assigned) in &taken.admitted {
            self.course.held.admit(tx, assigned.clone());
        }
    }

    fn take_end(&mut self, sealed: &Sealed) -> Seen {
        let Statement::End { epoch } = sealed.statement else { return Seen::Ignored(Ignore::Statement) };
        if epoch != self.epoch {
            return Seen::Ignored(Ignore::Epoch);
        }
        if !self.rules.committee.knows(sealed.member) || !sealed.is_accepted() {
            return Seen::Ignored(Ignore::Seal);
        }
        let Some(weight) = self.course.ends.count(&self.rules.committee, sealed.member) else {
            return Seen::Ignored(Ignore::Repeat);
        };
        let ended = self.rules.committee.is_quorum(weight);
        if ended {
            self.course.ended = true;
            let txs = self.course.admission.cut();
            self.course.cuts.push_back(Cut { txs, done: 0, last: true });
        }
        Seen::Counted { member: sealed.member, weight, ended }
    }

    fn take_mark(&mut self) -> Seen {
        let txs = self.course.admission.cut();
        if !txs.is_empty() {
            self.course.cuts.push_back(Cut { txs, done: 0, last: false });
        }
        let taken = self.course.admission.mark(&self.store);
        self.note_admitted(&taken);
        Seen::Commit(taken)
    }

    /// Builds the checkpoints whose transactions are all done.
    fn build(&mut self) -> Range<usize> {
        let before = self.checkpoints.len();
        while let Some(cut) = self.course.cuts.front_mut() {
            let held = &self.course.held;
            let is_done = |tx: &&Digest| held.get(tx).is_some_and(|held| held.is_done());
            cut.done += cut.txs[cut.done..].iter().take_while(is_done).count();
            if cut.done < cut.txs.len() {
                break;
            }
            let items = cut.txs.iter().filter_map(|&tx| Some(Item { tx, effects: held.executed(&tx)? })).collect();
            let last = cut.last;
            self.course.cuts.pop_front();
            let number = self.checkpoints.len() as u64;
            let checkpoint = Checkpoint { epoch: self.epoch, number, parent: self.last_checkpoint, items, last };
            self.last_checkpoint = checkpoint.digest();
            self.checkpoints.push(checkpoint);
        }
        before..self.checkpoints.len()
    }

    // Execution and the end of an epoch.

    /// Executes all that is ready; answers what it did, and which checkpoints that completed.
    pub fn run(&mut self, journal: &mut Journal, workers: usize) -> Result<(Ran, Range<usize>), Refusal> {
        self.check_halted()?;
        let ran = self.course.held.run(&mut self.store, workers);
        if !ran.executed.is_empty() {
            journal.append(record::ran(&items_of(&ran.executed)))?;
        }
        Ok((ran, self.build()))
    }

    fn check_halted(&self) -> Result<(), Refusal> {
        self.course.halted.map_or(Ok(()), |fork| Err(Refusal::Halted(fork)))
    }

    /// Closes; answers whether it was open.
    pub fn close(&mut self, journal: &mut Journal) -> Result<bool, Refusal> {
        self.check_halted()?;
        if self.course.closed {
            return Ok(false);
        }
        journal.append(record::close())?;
        self.course.closed = true;
        Ok(true)
    }

    /// States its End.
    pub fn end(&mut self) -> Result<Sealed, Refusal> {
        self.check_halted()?;
        if !self.course.closed {
            return Err(Refusal::NotClosed);
        }
        match self.course.held.first_unsequenced() {
            Some(tx) => Err(Refusal::Waits(tx)),
            None => Ok(Sealed::new(self.number, Statement::End { epoch: self.epoch })),
        }
    }

    /// Turns to the next epoch; answers which transactions were taken back, the oldest first.
    pub fn turn(&mut self, journal: &mut Journal) -> Result<Vec<Digest>, Refusal> {
        self.check_halted()?;
        self.check_turn()?;
        journal.append(record::turn())?;
        Ok(self.take_turn())
    }

    fn check_turn(&self) -> Result<(), Refusal> {
        if !self.course.ended {
            return Err(Refusal::NotEnded);
        }
        match self.course.cuts.front() {
            Some(cut) => Err(Refusal::Waits(cut.txs[cut.done])),
            None => Ok(()),
        }
    }

    fn take_turn(&mut self) -> Vec<Digest> {
        let held = &self.course.held;
        let is_kept = |tx: &Digest| held.get(tx).is_some_and(|held| held.assigned.is_some());
        let reverted = self.store.turn(is_kept);
        self.course = Course { admission: Admission::new(self.rules.writers), ..Course::default() };
        self.epoch += 1;
        reverted
    }

    /// Acknowledges the effects of a transaction.
    pub fn ack(&self, tx: &Digest) -> Result<Sealed, Refusal> {
        self.check_halted()?;
        let effects = self.executed_digest(tx).ok_or(Refusal::NotExecuted)?;
        Ok(Sealed::new(self.number, Statement::Ack { epoch: self.epoch, tx: *tx, effects }))
    }

    // Records.

    /// Takes a record back; none where no call would have kept it.
    fn replay(&mut self, record: &[u8]) -> Option<()> {
        let record = Record::decode(record).ok()?;
        if self.course.halted.is_some() {
            return None;
        }
        match record {
            Record::Vote { tx, origins } => self.replay_vote(&tx.value, tx.bytes, origins),
            Record::Hold(certificate) => {
                let digest = self.judge_hold(&certificate).ok()??;
                self.keep(digest, certificate.tx.value, certificate.origins);
                Some(())
            }
            Record::See(_) if self.course.ended => None,
            Record::See(entry) => {
                self.take_entry(entry);
                Some(())
            }
            Record::Close => (!std::mem::replace(&mut self.course.closed, true)).then_some(()),
            Record::Ran(txs) => self.replay_run(|ran| ran.iter().map(|item| item.tx).eq(txs.iter().copied())),
            Record::Ran2(items) => self.replay_run(|ran| *ran == items),
            Record::Turn => self.check_turn().ok().map(|()| drop(self.take_turn())),
        }
    }

    fn replay_vote(&mut self, tx: &Transaction, spelling: &[u8], origins: Origins) -> Option<()> {
        let digest = tx_digest(spelling);
        let is_open = tx.epoch == self.epoch && !self.course.closed && !self.course.votes.contains_key(&digest);
        let is_due = is_open && shape::fault_of(tx, spelling.len()).is_none() && self.decide(tx).ok()? == origins;
        is_due.then(|| self.take_vote(tx, digest, origins))
    }

    fn replay_run(&mut self, is_due: impl Fn(&Vec<Item>) -> bool) -> Option<()> {
        let ran = self.course.held.run(&mut self.store, 1);
        let items = items_of(&ran.executed);
        self.build();
        (!items.is_empty() && is_due(&items)).then_some(())
    }
}

fn items_of(executed: &[(Effects, Digest)]) -> Vec<Item> {
    executed.iter().map(|(effects, digest)| Item { tx: effects.tx, effects: *digest }).collect()
}

/// Whether a version is what a transaction names it to be, as far as its kind and sort of owner go.
fn is_of_kind(named: &Named, object: &Object) -> bool {
    match named {
        Named::Gas(_) => {
            matches!(object.owner, Owner::Address(_)) && matches!(object.content, Content::Coin { currency: 0, .. })
        }
        Named::Owned(_) => matches!(object.owner, Owner::Address(_)),
        Named::Immutable(_) => object.owner == Owner::Immutable,
        Named::Shared { initial, .. } => object.owner == Owner::Shared(*initial),
    }
}
