//! What things are called in a report, by the lines that ran so far.

use crate::digest::{address_of, created_id, Address, Digest, ObjectId};
use std::collections::HashMap;
use std::fmt::Write;

/// Where a shown object stands among the others.
#[derive(Clone, Copy, PartialEq, Eq, PartialOrd, Ord, Debug)]
pub enum Rank {
    /// An object of the set-up, by its line.
    Setup(usize),
    /// What a transaction created, by its first line and the number.
    Created(usize, u64),
    /// Without a name, by its id.
    Unnamed(ObjectId),
}

/// A transaction that a line made for the first time.
struct Made<'a> {
    name: &'a str,
    digest: Digest,
    may_create: u64,
}

/// The names of users, objects and transactions.
#[derive(Default)]
pub struct Names<'a> {
    setup: Vec<&'a str>,
    objects: HashMap<ObjectId, Rank>,
    txs: Vec<Made<'a>>,
    tx_places: HashMap<Digest, usize>,
    /// How many transactions have the ids that they can create in `objects`.
    expanded: usize,
    addresses: HashMap<&'a str, Address>,
    users: HashMap<Address, &'a str>,
}

impl<'a> Names<'a> {
    /// The address of a user, whom a line names.
    pub fn address(&mut self, user: &'a str) -> Address {
        if let Some(address) = self.addresses.get(user) {
            return *address;
        }
        let address = address_of(user);
        self.addresses.insert(user, address);
        self.users.entry(address).or_insert(user);
        address
    }

    /// A line of the set-up names an object.
    pub fn add_setup(&mut self, id: ObjectId, name: &'a str) {
        self.objects.entry(id).or_insert(Rank::Setup(self.setup.len()));
        self.setup.push(name);
    }

    /// A line makes a transaction.
    pub fn add_tx(&mut self, name: &'a str, digest: Digest, may_create: u64) {
        if !self.tx_places.contains_key(&digest) {
            self.tx_places.insert(digest, self.txs.len());
            self.txs.push(Made { name, digest, may_create });
        }
    }

    /// A line writes the id of what a transaction creates.
    pub fn add_created(&mut self, tx: &Digest, number: u64) -> ObjectId {
        let id = created_id(tx, number);
        if let Some(&place) = self.tx_places.get(tx) {
            self.objects.entry(id).or_insert(Rank::Created(place, number));
        }
        id
    }

    /// The name of a transaction.
    pub fn tx(&self, digest: &Digest) -> &'a str {
        self.tx_places.get(digest).map_or("?", |&place| self.txs[place].name)
    }

    /// The name of a user.
    pub fn user(&self, address: &Address) -> &'a str {
        self.users.get(address).copied().unwrap_or("?")
    }

    /// Where an object stands among others.
    pub fn rank(&mut self, id: &ObjectId) -> Rank {
        if !self.objects.contains_key(id) {
            self.expand();
        }
        self.objects.get(id).copied().unwrap_or(Rank::Unnamed(*id))
    }

    /// Gives names to all that the transactions can create. The ids are needed only where one of them is printed.
    fn expand(&mut self) {
        for (place, made) in self.txs.iter().enumerate().skip(self.expanded) {
            for number in 0..made.may_create {
                let id = created_id(&made.digest, number);
                self.objects.entry(id).or_insert(Rank::Created(place, number));
            }
        }
        self.expanded = self.txs.len();
    }

    /// Writes the name of an object.
    pub fn write_object(&mut self, id: &ObjectId, out: &mut String) {
        match self.rank(id) {
            Rank::Setup(place) => out.push_str(self.setup[place]),
            Rank::Created(place, number) => {
                let _ = write!(out, "{}.{number}", self.txs[place].name);
            }
            Rank::Unnamed(_) => out.push('?'),
        }
    }
}
