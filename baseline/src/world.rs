//! The committee, the sequence, and what was made and stated: each event of a schedule is one step.

use crate::codec::{Bytes, Spell};
use crate::digest::{genesis_id, Digest, ObjectId};
use crate::journal::{Journal, Stop};
use crate::member::{Member, Refusal, Rules, Seen, Voted};
use crate::messages::{
    spell_certificate, spell_certificate_entry, spell_commit_entry, spell_end_entry, tx_digest, MemberSeal, Origins, Sealed,
    Statement,
};
use crate::names::Names;
use crate::quorum::{seal, Committee, EndCount, Signer};
use crate::report::{CollectRefusal, Report};
use crate::schedule::{Event, InputWord, ObjectWord, RefWord, Schedule, SetupObject, TxLine};
use crate::types::{Content, Input, Object, ObjectKey, ObjectRef, Owner, Transaction};
use std::collections::{BTreeMap, HashMap};
use std::fmt::Write;
use std::sync::Arc;

/// A record that was read back is bad; the run ends.
#[derive(Debug)]
pub struct BadRecord;

/// An honest member: its records, and what it is while it is up.
struct Seat {
    journal: Journal,
    member: Option<Member>,
}

/// A transaction that a line made.
struct Made<'a> {
    name: &'a str,
    epoch: u64,
    digest: Digest,
    objects: usize,
    /// The spellings of the transaction and of the sender's seal.
    signed: Vec<u8>,
    certificate: Option<Vec<u8>>,
}

impl Made<'_> {
    fn spelling(&self) -> &[u8] {
        &self.signed[..self.signed.len() - 32]
    }
}

/// Everything that happens in a schedule.
pub struct World<'a> {
    rules: Arc<Rules>,
    opening: Vec<Object>,
    setup_ids: Vec<ObjectId>,
    /// Each member, none where it is faulty.
    seats: Vec<Option<Seat>>,
    names: Names<'a>,
    txs: Vec<Made<'a>>,
    /// The last vote of each member, by transaction.
    votes: HashMap<Digest, BTreeMap<u32, Sealed>>,
    /// The effects that each member acknowledged last, by transaction.
    acks: HashMap<Digest, BTreeMap<u32, Digest>>,
    /// The last End of each member.
    ends: Vec<Option<Sealed>>,
    /// The sequences of all epochs up to the open one, as spelled entries.
    sequences: Vec<Vec<Vec<u8>>>,
    open_ends: EndCount,
}

/// What a member holds, for the line that sums up a run.
pub struct Sums {
    /// How many transactions stand in checkpoints.
    pub transactions: usize,
    /// How many checkpoints there are.
    pub checkpoints: usize,
    /// How many objects live.
    pub objects: usize,
    /// What they hold of currency 0.
    pub sum: u128,
}

impl<'a> World<'a> {
    /// The world before the first event.
    pub fn new(schedule: &Schedule<'a>) -> Self {
        let committee = Committee::new(schedule.members.iter().map(|member| member.stake).collect());
        let rules = Arc::new(Rules { committee, writers: schedule.writers });
        let mut names = Names::default();
        let mut opening = Vec::new();
        for (number, line) in schedule.objects.iter().enumerate() {
            let object = setup_object(number as u64, &line.what, &mut names);
            names.add_setup(object.id, line.name);
            opening.push(object);
        }
        let seat = |(number, honest)| {
            let member = Member::new(number, Arc::clone(&rules), &opening);
            Some(Seat { journal: Journal::default(), member: Some(member) }).filter(|_| honest)
        };
        let members = schedule.members.iter().enumerate();
        let seats = members.map(|(number, member)| seat((number as u32, member.honest))).collect();
        Self {
            setup_ids: opening.iter().map(|object| object.id).collect(),
            ends: vec![None; schedule.members.len()],
            seats,
            rules,
            opening,
            names,
            txs: Vec::new(),
            votes: HashMap::new(),
            acks: HashMap::new(),
            sequences: vec![Vec::new()],
            open_ends: EndCount::default(),
        }
    }

    /// Runs one event, and writes its lines.
    pub fn step(&mut self, event: &Event<'a>, out: &mut String) -> Result<(), BadRecord> {
        match event {
            Event::Tx(line) => self.make_tx(line, out),
            Event::Vote { member, tx } => self.vote(*member, *tx, out),
            Event::FaultyVote { member, tx, origins } => self.faulty_vote(*member, *tx, origins, out),
            Event::Certify { tx, members } => self.certify(*tx, members, out),
            Event::Send { member, tx } => self.send(*member, *tx, out),
            Event::Order(tx) => self.order(*tx, out),
            Event::OrderEnd(member) => self.order_end(*member, out),
            Event::OrderCommit => {
                let number = self.push_entry(spell_commit_entry());
                self.report(out).end(format_args!("order commit: entry {number}"));
            }
            Event::See { member, entries } => self.see(*member, *entries, out),
            Event::Run { member, workers } => self.run(*member, *workers, out),
            Event::Close(member) => self.close(*member, out),
            Event::End(member) => self.end(*member, out),
            Event::Turn(member) => self.turn(*member, out),
            Event::Show(member) => self.show(*member, out),
            Event::Stop { member, stop } => self.stop(*member, *stop, out),
            Event::Restart(member) => return self.restart(*member, out),
            Event::RawVote { member, bytes } => {
                let _ = write!(out, "raw {member} vote: ");
                self.hand_vote(*member, bytes, out);
            }
            Event::RawHold { member, bytes } => {
                let _ = write!(out, "raw {member} hold: ");
                self.hand_certificate(*member, bytes, out);
            }
            Event::Ack { member, tx, spoiled } => self.ack(*member, *tx, *spoiled, out),
            Event::Final { tx, members } => self.finalize(*tx, members, out),
        }
        Ok(())
    }

    /// What a member holds; none where it is not honest or is down.
    pub fn sums(&self, member: u32) -> Option<Sums> {
        let member = self.member(member)?;
        let balance = |object: &Object| match object.content {
            Content::Coin { currency: 0, balance } | Content::Vault { currency: 0, balance } => u128::from(balance),
            _ => 0,
        };
        Some(Sums {
            transactions: member.checkpoints().iter().map(|checkpoint| checkpoint.items.len()).sum(),
            checkpoints: member.checkpoints().len(),
            objects: member.live_objects().count(),
            sum: member.live_objects().map(balance).sum(),
        })
    }

    fn report<'n>(&'n mut self, out: &'n mut String) -> Report<'n, 'a> {
        Report::new(&mut self.names, out)
    }

    fn member(&self, number: u32) -> Option<&Member> {
        self.seats[number as usize].as_ref()?.member.as_ref()
    }

    /// The honest members that are up, by their numbers.
    fn members_up(&self) -> impl Iterator<Item = &Member> {
        self.seats.iter().flatten().filter_map(|seat| seat.member.as_ref())
    }

    /// A member that is up with its journal; where it is down the line says so.
    fn up(&mut self, number: u32, out: &mut String) -> Option<(&mut Member, &mut Journal)> {
        match self.seats[number as usize].as_mut() {
            Some(Seat { journal, member: Some(member) }) => Some((member, journal)),
            _ => {
                out.push_str("down\n");
                None
            }
        }
    }

    /// A member stopped at a record.
    fn take_down(&mut self, number: u32) {
        if let Some(seat) = self.seats[number as usize].as_mut() {
            seat.member = None;
        }
    }

    /// Writes why a call is refused, and takes the member down where it stopped.
    fn refuse(&mut self, number: u32, refusal: &Refusal, out: &mut String) {
        if let Refusal::Stopped = refusal {
            self.take_down(number);
        }
        self.report(out).refusal(refusal);
    }

    // Transactions.

    fn make_tx(&mut self, line: &TxLine<'a>, out: &mut String) {
        let tx = Transaction {
            epoch: line.epoch,
            sender: self.names.address(line.sender),
            gas: self.reference(&line.gas),
            budget: line.budget,
            inputs: line.inputs.iter().map(|word| self.input(word)).collect(),
            commands: line.commands.clone(),
        };
        let mut signed = tx.spelled();
        let digest = tx_digest(&signed);
        let seal = seal(Signer::User(tx.sender), &signed);
        if line.spoiled { seal.spoiled() } else { seal }.spell(&mut signed);
        self.names.add_tx(line.name, digest, tx.may_create());
        let objects = tx.objects().count();
        self.txs.push(Made { name: line.name, epoch: tx.epoch, digest, objects, signed, certificate: None });
        self.report(out).end(format_args!("tx {}: made", line.name));
    }

    fn input(&mut self, word: &InputWord<'a>) -> Input {
        match word {
            InputWord::Number(number) => Input::Pure(Bytes(number.to_le_bytes().to_vec())),
            InputWord::Address(user) => Input::Pure(Bytes(self.names.address(user).0.to_vec())),
            InputWord::Bytes(bytes) => Input::Pure(Bytes(bytes.clone())),
            InputWord::Owned(word) => Input::Owned(self.reference(word)),
            InputWord::Immutable(word) => Input::Immutable(self.reference(word)),
            InputWord::Shared { object, initial, mutable } => {
                Input::Shared { id: self.object_id(*object), initial: *initial, mutable: *mutable }
            }
        }
    }

    fn object_id(&mut self, word: ObjectWord) -> ObjectId {
        match word {
            ObjectWord::Setup(place) => self.setup_ids[place],
            ObjectWord::Created { tx, number } => self.names.add_created(&self.txs[tx].digest, number),
        }
    }

    fn reference(&mut self, word: &RefWord) -> ObjectRef {
        let key = ObjectKey { id: self.object_id(word.object), version: word.version };
        let digest = self.members_up().find_map(|member| member.held_digest(&key)).unwrap_or(Digest::ZERO);
        let digest = if word.spoiled { digest.spoiled() } else { digest };
        ObjectRef { id: key.id, version: key.version, digest }
    }

    // Votes and certificates.

    fn vote(&mut self, member: u32, tx: usize, out: &mut String) {
        let _ = write!(out, "vote {member} {}: ", self.txs[tx].name);
        let signed = std::mem::take(&mut self.txs[tx].signed);
        self.hand_vote(member, &signed, out);
        self.txs[tx].signed = signed;
    }

    fn hand_vote(&mut self, number: u32, bytes: &[u8], out: &mut String) {
        let Some((member, journal)) = self.up(number, out) else { return };
        match member.vote(journal, bytes) {
            Ok(Voted { sealed, fresh }) => {
                let Statement::Vote { tx, origins, .. } = &sealed.statement else { unreachable!("a vote was given") };
                self.report(out).voted(if fresh { "voted" } else { "again" }, origins);
                self.votes.entry(*tx).or_default().insert(number, sealed);
            }
            Err(refusal) => self.refuse(number, &refusal, out),
        }
    }

    fn faulty_vote(&mut self, member: u32, tx: usize, words: &[Option<usize>], out: &mut String) {
        let Made { name, epoch, digest, objects, .. } = self.txs[tx];
        let origins = match words {
            [] => self.copied_origins(&digest).unwrap_or_else(|| vec![None; objects]),
            words => words.iter().map(|word| word.map(|tx| self.txs[tx].digest)).collect(),
        };
        self.report(out).put(format_args!("fvote {member} {name}: "));
        self.report(out).voted("voted", &origins);
        let sealed = Sealed::new(member, Statement::Vote { epoch, tx: digest, origins });
        self.votes.entry(digest).or_default().insert(member, sealed);
    }

    /// The origins for which the lowest honest member voted last.
    fn copied_origins(&self, tx: &Digest) -> Option<Origins> {
        let votes = self.votes.get(tx)?.iter();
        let mut honest = votes.filter(|(member, _)| self.seats[**member as usize].is_some());
        honest.next().map(|(_, sealed)| origins_of(sealed).clone())
    }

    fn certify(&mut self, tx: usize, members: &[u32], out: &mut String) {
        let _ = write!(out, "cert {}: ", self.txs[tx].name);
        let votes = self.votes.get(&self.txs[tx].digest);
        match collect(&self.rules.committee, members, votes, |sealed| origins_of(sealed)) {
            Ok(votes) => {
                let seals: Vec<_> = votes.iter().map(|vote| MemberSeal { member: vote.member, seal: vote.seal }).collect();
                let certificate = spell_certificate(self.txs[tx].spelling(), origins_of(votes[0]), &seals);
                self.txs[tx].certificate = Some(certificate);
                self.report(out).by("formed", members);
            }
            Err(refusal) => self.report(out).collect_refusal("vote", &refusal),
        }
    }

    fn send(&mut self, member: u32, tx: usize, out: &mut String) {
        let _ = write!(out, "send {member} {}: ", self.txs[tx].name);
        match self.txs[tx].certificate.take() {
            Some(certificate) => {
                self.hand_certificate(member, &certificate, out);
                self.txs[tx].certificate = Some(certificate);
            }
            None => out.push_str("no certificate\n"),
        }
    }

    fn hand_certificate(&mut self, number: u32, bytes: &[u8], out: &mut String) {
        let Some((member, journal)) = self.up(number, out) else { return };
        match member.hold(journal, bytes) {
            Ok(is_new) => out.push_str(if is_new { "held\n" } else { "again\n" }),
            Err(refusal) => self.refuse(number, &refusal, out),
        }
    }

    // The sequence.

    fn open_epoch(&self) -> u64 {
        self.sequences.len() as u64 - 1
    }

    fn push_entry(&mut self, entry: Vec<u8>) -> usize {
        let sequence = self.sequences.last_mut().expect("there is an open epoch");
        sequence.push(entry);
        sequence.len() - 1
    }

    fn order(&mut self, tx: usize, out: &mut String) {
        let made = &self.txs[tx];
        let name = made.name;
        match &made.certificate {
            None => self.report(out).end(format_args!("order {name}: no certificate")),
            Some(_) if made.epoch != self.open_epoch() => self.report(out).end(format_args!("order {name}: not taken")),
            Some(certificate) => {
                let number = self.push_entry(spell_certificate_entry(certificate));
                self.report(out).end(format_args!("order {name}: entry {number}"));
            }
        }
    }

    fn order_end(&mut self, member: u32, out: &mut String) {
        let open = Statement::End { epoch: self.open_epoch() };
        if self.seats[member as usize].is_none() {
            self.ends[member as usize] = Some(Sealed::new(member, open.clone()));
        }
        match &self.ends[member as usize] {
            None => self.report(out).end(format_args!("order end {member}: no statement")),
            Some(end) if end.statement != open => self.report(out).end(format_args!("order end {member}: not taken")),
            Some(end) => {
                let number = self.push_entry(spell_end_entry(end));
                self.report(out).end(format_args!("order end {member}: entry {number}"));
                self.count_end(member);
            }
        }
    }

    /// Opens the next epoch where the Ends of the open one have become a quorum.
    fn count_end(&mut self, member: u32) {
        let committee = &self.rules.committee;
        if self.open_ends.count(committee, member).is_some_and(|weight| committee.is_quorum(weight)) {
            self.open_ends = EndCount::default();
            self.sequences.push(Vec::new());
        }
    }

    fn see(&mut self, number: u32, entries: u32, out: &mut String) {
        let Some(Seat { journal, member: Some(member) }) = self.seats[number as usize].as_mut() else {
            return self.report(out).end(format_args!("see {number}: down"));
        };
        let mut report = Report::new(&mut self.names, out);
        if let Some(fork) = member.halted() {
            report.put(format_args!("see {number}: "));
            return report.refusal(&Refusal::Halted(fork));
        }
        let sequence = self.sequences.get(member.epoch() as usize).map_or(&[][..], |entries| entries);
        let first = member.seen().min(sequence.len());
        if first == sequence.len() {
            return report.end(format_args!("see {number}: nothing"));
        }
        for (place, entry) in sequence.iter().enumerate().skip(first).take(entries as usize) {
            report.put(format_args!("see {number} entry {place}: "));
            let Ok((seen, built)) = member.see(journal, entry) else {
                report.refusal(&Refusal::Stopped);
                return self.take_down(number);
            };
            report.seen(&seen, self.rules.committee.total());
            report.checkpoints(&member.checkpoints()[built]);
            if let Seen::Fork(_) = seen {
                return;
            }
        }
    }

    // Execution and the end of an epoch.

    fn run(&mut self, number: u32, workers: u32, out: &mut String) {
        let _ = write!(out, "run {number}: ");
        let Some((member, journal)) = self.up(number, out) else { return };
        match member.run(journal, workers as usize) {
            Ok((ran, built)) => {
                self.report(out).ran(&ran);
                if let Some(Seat { member: Some(member), .. }) = &self.seats[number as usize] {
                    Report::new(&mut self.names, out).checkpoints(&member.checkpoints()[built]);
                }
            }
            Err(refusal) => self.refuse(number, &refusal, out),
        }
    }

    fn close(&mut self, number: u32, out: &mut String) {
        let _ = write!(out, "close {number}: ");
        let Some((member, journal)) = self.up(number, out) else { return };
        match member.close(journal) {
            Ok(was_open) => out.push_str(if was_open { "closed\n" } else { "again\n" }),
            Err(refusal) => self.refuse(number, &refusal, out),
        }
    }

    fn end(&mut self, number: u32, out: &mut String) {
        let _ = write!(out, "end {number}: ");
        let Some((member, _)) = self.up(number, out) else { return };
        match member.end() {
            Ok(sealed) => {
                self.ends[number as usize] = Some(sealed);
                out.push_str("said\n");
            }
            Err(refusal) => self.refuse(number, &refusal, out),
        }
    }

    fn turn(&mut self, number: u32, out: &mut String) {
        let _ = write!(out, "turn {number}: ");
        let Some((member, journal)) = self.up(number, out) else { return };
        match member.turn(journal) {
            Ok(reverted) => {
                let epoch = member.epoch();
                self.report(out).reverted(epoch, &reverted);
            }
            Err(refusal) => self.refuse(number, &refusal, out),
        }
    }

    fn show(&mut self, number: u32, out: &mut String) {
        let mut report = Report::new(&mut self.names, out);
        report.put(format_args!("show {number}: "));
        match &self.seats[number as usize] {
            Some(Seat { member: Some(member), .. }) => report.show(member.epoch(), member.live_objects()),
            _ => report.end(format_args!("down")),
        }
    }

    // Stops.

    fn stop(&mut self, number: u32, stop: Stop, out: &mut String) {
        if let Some(seat) = self.seats[number as usize].as_mut() {
            seat.journal.arm(Some(stop));
        }
        let word = if stop == Stop::Kept { "kept" } else { "lost" };
        self.report(out).end(format_args!("stop {number}: armed {word}"));
    }

    fn restart(&mut self, number: u32, out: &mut String) -> Result<(), BadRecord> {
        let Some(seat) = self.seats[number as usize].as_mut() else { return Ok(()) };
        seat.journal.arm(None);
        let records = seat.journal.records();
        match Member::start(number, Arc::clone(&self.rules), &self.opening, records) {
            Ok(member) => {
                let _ = writeln!(out, "restart {number}: records {}", records.len());
                seat.member = Some(member);
                Ok(())
            }
            Err(bad) => {
                let _ = writeln!(out, "restart {number}: bad record {}", bad.0);
                Err(BadRecord)
            }
        }
    }

    // Finality.

    fn ack(&mut self, number: u32, tx: usize, spoiled: bool, out: &mut String) {
        let Made { name, digest, .. } = self.txs[tx];
        let _ = write!(out, "ack {number} {name}: ");
        let effects = if self.seats[number as usize].is_none() {
            let copied = self.members_up().find_map(|member| member.executed_digest(&digest)).unwrap_or(Digest::ZERO);
            if spoiled {
                copied.spoiled()
            } else {
                copied
            }
        } else {
            let Some((member, _)) = self.up(number, out) else { return };
            match member.ack(&digest).map(|sealed| sealed.statement) {
                Ok(Statement::Ack { effects, .. }) => effects,
                Ok(_) => unreachable!("an acknowledgement was given"),
                Err(refusal) => return self.refuse(number, &refusal, out),
            }
        };
        self.acks.entry(digest).or_default().insert(number, effects);
        out.push_str("said\n");
    }

    fn finalize(&mut self, tx: usize, members: &[u32], out: &mut String) {
        let Made { name, digest, .. } = self.txs[tx];
        let _ = write!(out, "final {name}: ");
        match collect(&self.rules.committee, members, self.acks.get(&digest), |effects| effects) {
            Ok(_) => self.report(out).by("final", members),
            Err(refusal) => self.report(out).collect_refusal("ack", &refusal),
        }
    }
}

fn origins_of(vote: &Sealed) -> &Origins {
    match &vote.statement {
        Statement::Vote { origins, .. } => origins,
        _ => unreachable!("kept among the votes"),
    }
}

/// What these members stated, where all of them did, are a quorum and said the same.
fn collect<'v, V, P: PartialEq + ?Sized>(
    committee: &Committee,
    members: &[u32],
    stated: Option<&'v BTreeMap<u32, V>>,
    part: impl Fn(&V) -> &P,
) -> Result<Vec<&'v V>, CollectRefusal> {
    let of = |&member: &u32| stated.and_then(|stated| stated.get(&member)).ok_or(CollectRefusal::Missing(member));
    let statements = members.iter().map(of).collect::<Result<Vec<_>, _>>()?;
    let (weight, total) = (committee.weight(members.iter().copied()), committee.total());
    if !committee.is_quorum(weight) {
        return Err(CollectRefusal::Short { weight, total });
    }
    let differs = |statement: &&&V| part(statement) != part(statements[0]);
    match statements.iter().position(|statement| differs(&statement)) {
        Some(place) => Err(CollectRefusal::Differ { first: members[0], other: members[place] }),
        None => Ok(statements),
    }
}

fn setup_object<'a>(number: u64, what: &SetupObject<'a>, names: &mut Names<'a>) -> Object {
    let (owner, content) = match what {
        SetupObject::Coin { owner, balance } => {
            (Owner::Address(names.address(owner)), Content::Coin { currency: 0, balance: *balance })
        }
        SetupObject::Counter { value } => (Owner::Shared(1), Content::Counter { value: *value }),
        SetupObject::Cap { owner, currency } => {
            (Owner::Address(names.address(owner)), Content::Cap { currency: *currency, supply: 0 })
        }
    };
    Object { id: genesis_id(number), version: 1, owner, content }
}
