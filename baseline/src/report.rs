//! The lines of a report.

use crate::admission::{Taken, Waits};
use crate::digest::Digest;
use crate::held::{Left, Ran};
use crate::member::{Fork, Ignore, Refusal, Seen};
use crate::messages::{Checkpoint, Origins};
use crate::names::Names;
use crate::types::{Content, Effects, Object, ObjectKey, Owner, Status};
use std::fmt::{Arguments, Write};

/// A report in progress, with the names that it uses.
pub struct Report<'n, 'a> {
    names: &'n mut Names<'a>,
    out: &'n mut String,
}

/// Why votes or acknowledgements are not collected.
pub enum CollectRefusal {
    Missing(u32),
    Short { weight: u64, total: u64 },
    Differ { first: u32, other: u32 },
}

impl<'n, 'a> Report<'n, 'a> {
    /// Goes on behind what was written.
    pub fn new(names: &'n mut Names<'a>, out: &'n mut String) -> Self {
        Self { names, out }
    }

    /// Writes a part of a line.
    pub fn put(&mut self, text: Arguments) {
        self.out.write_fmt(text).expect("a string takes all text");
    }

    /// Writes the rest of a line.
    pub fn end(&mut self, text: Arguments) {
        self.put(text);
        self.out.push('\n');
    }

    fn key(&mut self, before: &str, key: &ObjectKey) {
        self.out.push_str(before);
        self.names.write_object(&key.id, self.out);
        self.put(format_args!("@{}", key.version));
    }

    fn txs<'t>(&mut self, txs: impl IntoIterator<Item = &'t Digest>) {
        for tx in txs {
            self.out.push(' ');
            self.out.push_str(self.names.tx(tx));
        }
    }

    fn fork(&mut self, fork: &Fork) {
        self.key("fork ", &fork.key);
        self.txs([&fork.first, &fork.second]);
        self.out.push('\n');
    }

    /// `voted` or `again`, and the origins.
    pub fn voted(&mut self, word: &str, origins: &Origins) {
        self.out.push_str(word);
        for origin in origins {
            self.out.push(' ');
            self.out.push_str(origin.as_ref().map_or("-", |tx| self.names.tx(tx)));
        }
        self.out.push('\n');
    }

    /// Why a member refuses what it is asked.
    pub fn refusal(&mut self, refusal: &Refusal) {
        match refusal {
            Refusal::Stopped => self.end(format_args!("stopped")),
            Refusal::Halted(fork) => {
                self.out.push_str("halted");
                self.txs([&fork.first, &fork.second]);
                self.out.push('\n');
            }
            Refusal::Malformed(fault) => self.end(format_args!("malformed at {} why {}", fault.at, fault.why as u8)),
            Refusal::WrongEpoch { had, want } => self.end(format_args!("wrong epoch had {had} want {want}")),
            Refusal::Closed => self.end(format_args!("closed")),
            Refusal::Invalid(number) => self.end(format_args!("invalid {number}")),
            Refusal::Unsealed => self.end(format_args!("unsealed")),
            Refusal::Absent(key) => self.key_line("absent ", key, None),
            Refusal::Consumed { key, by } => self.key_line("consumed ", key, Some(by)),
            Refusal::WrongDigest(key) => self.key_line("wrong digest ", key, None),
            Refusal::WrongOwner(key) => self.key_line("wrong owner ", key, None),
            Refusal::WrongKind(key) => self.key_line("wrong kind ", key, None),
            Refusal::PoorGas { had, want } => self.end(format_args!("poor gas had {had} want {want}")),
            Refusal::Locked { key, by } => self.key_line("locked ", key, Some(by)),
            Refusal::Shape(number) => self.end(format_args!("shape {number}")),
            Refusal::Order => self.end(format_args!("order")),
            Refusal::ShortStake { weight, total } => self.end(format_args!("short stake {weight} of {total}")),
            Refusal::BadSeal(member) => self.end(format_args!("bad seal {member}")),
            Refusal::Fork(fork) => self.fork(fork),
            Refusal::NotClosed => self.end(format_args!("not closed")),
            Refusal::NotEnded => self.end(format_args!("not ended")),
            Refusal::NotExecuted => self.end(format_args!("not executed")),
            Refusal::Waits(tx) => self.end(format_args!("waits {}", self.names.tx(tx))),
        }
    }

    fn key_line(&mut self, word: &str, key: &ObjectKey, by: Option<&Digest>) {
        self.key(word, key);
        if let Some(by) = by {
            self.put(format_args!(" by {}", self.names.tx(by)));
        }
        self.out.push('\n');
    }

    /// Why votes make no certificate, or acknowledgements nothing final.
    pub fn collect_refusal(&mut self, missing: &str, refusal: &CollectRefusal) {
        match refusal {
            CollectRefusal::Missing(member) => self.end(format_args!("no {missing} of {member}")),
            CollectRefusal::Short { weight, total } => self.end(format_args!("short {weight} of {total}")),
            CollectRefusal::Differ { first, other } => self.end(format_args!("differ {first} {other}")),
        }
    }

    /// `formed by` or `final by`, and the members.
    pub fn by(&mut self, word: &str, members: &[u32]) {
        self.put(format_args!("{word} by"));
        members.iter().for_each(|member| self.put(format_args!(" {member}")));
        self.out.push('\n');
    }

    /// What became of an entry.
    pub fn seen(&mut self, seen: &Seen, total: u64) {
        match seen {
            Seen::Taken(taken) => {
                let words = if taken.admitted.is_empty() { ["", "dropped"] } else { ["admitted", " dropped"] };
                self.taken(taken, words);
            }
            Seen::Commit(taken) => {
                self.out.push_str("commit");
                self.taken(taken, [" admitted", " dropped"]);
            }
            Seen::Waits { tx, on: Waits::Origin(origin) } => {
                self.put(format_args!("pending {} on {}", self.names.tx(tx), self.names.tx(origin)));
            }
            Seen::Waits { tx, on: Waits::Writers(id) } => {
                self.put(format_args!("deferred {} on ", self.names.tx(tx)));
                self.names.write_object(id, self.out);
            }
            Seen::Counted { member, weight, ended } => {
                let ended = if *ended { ", epoch ended" } else { "" };
                self.put(format_args!("end of {member} weight {weight} of {total}{ended}"));
            }
            Seen::Ignored(ignore) => self.put(format_args!("ignored {}", ignored(*ignore))),
            Seen::Fork(fork) => return self.fork(fork),
        }
        self.out.push('\n');
    }

    fn taken(&mut self, taken: &Taken, [admitted, dropped]: [&str; 2]) {
        if !taken.admitted.is_empty() {
            self.out.push_str(admitted);
            self.txs(taken.admitted.iter().map(|(tx, _)| tx));
        }
        if !taken.dropped.is_empty() {
            self.out.push_str(dropped);
            self.txs(&taken.dropped);
        }
    }

    /// The checkpoints that a call completed.
    pub fn checkpoints(&mut self, checkpoints: &[Checkpoint]) {
        for checkpoint in checkpoints {
            self.put(format_args!("  checkpoint {}:", checkpoint.number));
            self.txs(checkpoint.items.iter().map(|item| &item.tx));
            self.out.push_str(if checkpoint.last { " last\n" } else { "\n" });
        }
    }

    /// What a run did.
    pub fn ran(&mut self, ran: &Ran) {
        self.end(format_args!("executed {}", ran.executed.len()));
        ran.executed.iter().for_each(|(effects, _)| self.executed(effects));
        for (tx, why) in &ran.left {
            self.put(format_args!("  {} ", self.names.tx(tx)));
            match why {
                Left::Absent(key) => self.key_line("absent ", key, None),
                Left::Unfit => self.end(format_args!("unfit")),
            }
        }
    }

    fn executed(&mut self, effects: &Effects) {
        let Effects { version, gas, .. } = effects;
        self.put(format_args!("  {} ", self.names.tx(&effects.tx)));
        match effects.status {
            Status::Done => self.put(format_args!("done")),
            Status::Failed { command, cause } => self.put(format_args!("failed at {command} cause {cause}")),
            Status::Aborted { command, code } => self.put(format_args!("aborted at {command} code {code}")),
        }
        self.end(format_args!(" v{version} gas {gas}"));
    }

    /// The transactions that a turn took back.
    pub fn reverted(&mut self, epoch: u64, txs: &[Digest]) {
        self.end(format_args!("epoch {epoch} reverted {}", txs.len()));
        txs.iter().for_each(|tx| self.end(format_args!("  reverted {}", self.names.tx(tx))));
    }

    /// All objects of a member.
    pub fn show<'o>(&mut self, epoch: u64, objects: impl Iterator<Item = &'o Object>) {
        let mut ranked: Vec<_> = objects.map(|object| (self.names.rank(&object.id), object)).collect();
        ranked.sort_unstable_by_key(|(rank, _)| *rank);
        self.end(format_args!("epoch {epoch} objects {}", ranked.len()));
        ranked.into_iter().for_each(|(_, object)| self.object(object));
    }

    fn object(&mut self, object: &Object) {
        self.out.push_str("  ");
        self.names.write_object(&object.id, self.out);
        self.put(format_args!(" v{} ", object.version));
        match &object.owner {
            Owner::Address(address) => self.out.push_str(self.names.user(address)),
            Owner::Shared(initial) => self.put(format_args!("shared {initial}")),
            Owner::Immutable => self.out.push_str("frozen"),
        }
        match &object.content {
            Content::Coin { currency, balance } => self.put(format_args!(" coin {currency} {balance}")),
            Content::Cap { currency, supply } => self.put(format_args!(" cap {currency} {supply}")),
            Content::Counter { value } => self.put(format_args!(" counter {value}")),
            Content::Vault { currency, balance } => self.put(format_args!(" vault {currency} {balance}")),
            Content::VaultKey { vault } => {
                self.out.push_str(" key ");
                self.names.write_object(vault, self.out);
            }
            Content::Limit { value } => self.put(format_args!(" limit {value}")),
        }
        self.out.push('\n');
    }
}

fn ignored(ignore: Ignore) -> &'static str {
    match ignore {
        Ignore::Malformed => "malformed",
        Ignore::Statement => "statement",
        Ignore::Epoch => "epoch",
        Ignore::Certificate => "certificate",
        Ignore::Seal => "seal",
        Ignore::Repeat => "repeat",
    }
}
