//! Objects and transactions.

use crate::codec::{enum_codec, struct_codec, Bytes, Spell};
use crate::digest::{Address, Digest, ObjectId, Tag};

/// One version of an object.
#[derive(Clone, Copy, PartialEq, Eq, Hash, Debug)]
pub struct ObjectKey {
    /// The object.
    pub id: ObjectId,
    /// Its version.
    pub version: u64,
}

/// One version of an object, with the digest that it should have.
#[derive(Clone, PartialEq, Eq, Debug)]
pub struct ObjectRef {
    /// The object.
    pub id: ObjectId,
    /// Its version.
    pub version: u64,
    /// The digest of that version.
    pub digest: Digest,
}

struct_codec!(ObjectRef { id, version, digest });

impl ObjectRef {
    /// The version that is named.
    pub fn key(&self) -> ObjectKey {
        ObjectKey { id: self.id, version: self.version }
    }
}

/// Who may use an object.
#[derive(Clone, Copy, PartialEq, Eq, Debug)]
pub enum Owner {
    /// One user.
    Address(Address),
    /// Everybody, by the sequence, since this version.
    Shared(u64),
    /// Everybody, to read.
    Immutable,
}

enum_codec!(Owner { 0 Address(address); 1 Shared(initial); 2 Immutable; });

/// The kinds of contents.
#[derive(Clone, Copy, PartialEq, Eq, Debug)]
pub enum Kind {
    /// A coin of a currency.
    Coin,
    /// The right to mint a currency.
    Cap,
    /// A number.
    Counter,
    /// A store of a currency.
    Vault,
    /// The key of a vault.
    VaultKey,
    /// A bound for counters.
    Limit,
}

enum_codec!(Kind { 0 Coin; 1 Cap; 2 Counter; 3 Vault; 4 VaultKey; 5 Limit; });

impl Kind {
    /// All kinds, by their numbers.
    pub const ALL: [Kind; 6] = [Kind::Coin, Kind::Cap, Kind::Counter, Kind::Vault, Kind::VaultKey, Kind::Limit];
}

/// What an object holds.
#[derive(Clone, Copy, PartialEq, Eq, Debug)]
pub enum Content {
    /// An amount of a currency.
    Coin { currency: u64, balance: u64 },
    /// The supply of a currency.
    Cap { currency: u64, supply: u64 },
    /// A number.
    Counter { value: u64 },
    /// An amount of a currency, opened by a key.
    Vault { currency: u64, balance: u64 },
    /// The key of this vault.
    VaultKey { vault: ObjectId },
    /// A bound.
    Limit { value: u64 },
}

enum_codec!(Content {
    0 Coin { currency, balance };
    1 Cap { currency, supply };
    2 Counter { value };
    3 Vault { currency, balance };
    4 VaultKey { vault };
    5 Limit { value };
});

impl Content {
    /// Its kind.
    pub fn kind(&self) -> Kind {
        match self {
            Content::Coin { .. } => Kind::Coin,
            Content::Cap { .. } => Kind::Cap,
            Content::Counter { .. } => Kind::Counter,
            Content::Vault { .. } => Kind::Vault,
            Content::VaultKey { .. } => Kind::VaultKey,
            Content::Limit { .. } => Kind::Limit,
        }
    }
}

/// A version of an object.
#[derive(Clone, PartialEq, Eq, Debug)]
pub struct Object {
    /// Its id.
    pub id: ObjectId,
    /// Its version.
    pub version: u64,
    /// Who may use it.
    pub owner: Owner,
    /// What it holds.
    pub content: Content,
}

struct_codec!(Object { id, version, owner, content });

impl Object {
    /// Its key.
    pub fn key(&self) -> ObjectKey {
        ObjectKey { id: self.id, version: self.version }
    }

    /// Its digest.
    pub fn digest(&self) -> Digest {
        Digest::of(Tag::Object, &self.spelled())
    }
}

/// What a transaction is handed.
#[derive(Clone, PartialEq, Eq, Debug)]
pub enum Input {
    /// Bytes.
    Pure(Bytes),
    /// An object of the sender's, which is consumed.
    Owned(ObjectRef),
    /// An immutable object.
    Immutable(ObjectRef),
    /// An object that is shared since the initial version.
    Shared { id: ObjectId, initial: u64, mutable: bool },
}

enum_codec!(Input { 0 Pure(bytes); 1 Owned(reference); 2 Immutable(reference); 3 Shared { id, initial, mutable }; });

/// What a command names.
#[derive(Clone, Copy, PartialEq, Eq, Debug)]
pub enum Argument {
    /// The gas coin.
    Gas,
    /// An input.
    Input(u16),
    /// The one result of a command.
    Result(u16),
    /// A result of a command.
    Nested { command: u16, number: u16 },
}

enum_codec!(Argument { 0 Gas; 1 Input(number); 2 Result(command); 3 Nested { command, number }; });

/// One step of a transaction.
#[derive(Clone, PartialEq, Eq, Debug)]
pub enum Command {
    /// Calls a native.
    Call { native: u8, args: Vec<Argument> },
    /// Gives objects to an address.
    Transfer { values: Vec<Argument>, to: Argument },
    /// Makes new coins of a part of one.
    Split { coin: Argument, amounts: Vec<Argument> },
    /// Puts coins into one.
    Merge { target: Argument, sources: Vec<Argument> },
    /// Makes a vector of objects of one kind.
    MakeVec { kind: Kind, values: Vec<Argument> },
}

enum_codec!(Command {
    0 Call { native, args };
    1 Transfer { values, to };
    2 Split { coin, amounts };
    3 Merge { target, sources };
    5 MakeVec { kind, values };
});

impl Command {
    /// Its list of arguments, and the one beside it.
    pub fn parts(&self) -> (&[Argument], Option<Argument>) {
        match self {
            Command::Call { args, .. } => (args, None),
            Command::Transfer { values, to } => (values, Some(*to)),
            Command::Split { coin, amounts } => (amounts, Some(*coin)),
            Command::Merge { target, sources } => (sources, Some(*target)),
            Command::MakeVec { values, .. } => (values, None),
        }
    }

    /// How many ids it can draw at most.
    pub fn may_create(&self) -> u64 {
        match self {
            Command::Split { amounts, .. } => amounts.len() as u64,
            Command::Call { .. } => 2,
            _ => 0,
        }
    }
}

/// A transaction, without its seal.
#[derive(Clone, PartialEq, Eq, Debug)]
pub struct Transaction {
    /// The epoch for which it is made.
    pub epoch: u64,
    /// Who makes it.
    pub sender: Address,
    /// The coin that pays.
    pub gas: ObjectRef,
    /// The most that it may pay.
    pub budget: u64,
    /// What it is handed.
    pub inputs: Vec<Input>,
    /// What it does.
    pub commands: Vec<Command>,
}

struct_codec!(Transaction { epoch, sender, gas, budget, inputs, commands });

/// An object that a transaction names, by its role.
#[derive(Clone, Copy)]
pub enum Named<'a> {
    /// The coin that pays.
    Gas(&'a ObjectRef),
    /// An owned input.
    Owned(&'a ObjectRef),
    /// An immutable input.
    Immutable(&'a ObjectRef),
    /// A shared input.
    Shared { id: ObjectId, initial: u64, mutable: bool },
}

impl<'a> Named<'a> {
    /// The object.
    pub fn id(&self) -> ObjectId {
        self.key().id
    }

    /// The version that is named: of a shared object the initial one.
    pub fn key(&self) -> ObjectKey {
        match *self {
            Named::Gas(it) | Named::Owned(it) | Named::Immutable(it) => it.key(),
            Named::Shared { id, initial, .. } => ObjectKey { id, version: initial },
        }
    }

    /// The reference, of all but shared objects.
    pub fn reference(&self) -> Option<&'a ObjectRef> {
        match *self {
            Named::Gas(it) | Named::Owned(it) | Named::Immutable(it) => Some(it),
            Named::Shared { .. } => None,
        }
    }

    /// Whether the transaction writes it.
    pub fn is_written(&self) -> bool {
        !matches!(self, Named::Immutable(_) | Named::Shared { mutable: false, .. })
    }
}

impl Transaction {
    /// What it costs.
    pub fn cost(&self) -> u64 {
        1000 + 100 * self.commands.len() as u64
    }

    /// Its objects: the gas coin, and the inputs other than pure ones in order.
    pub fn objects(&self) -> impl Iterator<Item = Named<'_>> {
        std::iter::once(Named::Gas(&self.gas)).chain(self.inputs.iter().filter_map(|input| match input {
            Input::Pure(_) => None,
            Input::Owned(it) => Some(Named::Owned(it)),
            Input::Immutable(it) => Some(Named::Immutable(it)),
            &Input::Shared { id, initial, mutable } => Some(Named::Shared { id, initial, mutable }),
        }))
    }

    /// The versions that it consumes, the gas coin's first.
    pub fn consumed(&self) -> impl Iterator<Item = ObjectKey> + '_ {
        self.objects().filter_map(|object| match object {
            Named::Gas(it) | Named::Owned(it) => Some(it.key()),
            _ => None,
        })
    }

    /// Whether it names a shared object.
    pub fn has_shared(&self) -> bool {
        self.inputs.iter().any(|input| matches!(input, Input::Shared { .. }))
    }

    /// How many ids it can draw at most.
    pub fn may_create(&self) -> u64 {
        self.commands.iter().map(Command::may_create).sum()
    }
}

/// How a block ended.
#[derive(Clone, Copy, PartialEq, Eq, Debug)]
pub enum Status {
    /// All commands ran.
    Done,
    /// A command failed for this cause.
    Failed { command: u16, cause: u8 },
    /// A native aborted with this code.
    Aborted { command: u16, code: u8 },
}

enum_codec!(Status { 0 Done; 1 Failed { command, cause }; 2 Aborted { command, code }; });

/// An object that a transaction wrote.
#[derive(Clone, Debug)]
pub struct Written {
    pub id: ObjectId,
    pub owner: Owner,
    pub digest: Digest,
}

struct_codec!(Written { id, owner, digest });

/// What a transaction did.
#[derive(Clone, Debug)]
pub struct Effects {
    /// The transaction.
    pub tx: Digest,
    /// How it ended.
    pub status: Status,
    /// The version of all that it wrote.
    pub version: u64,
    /// What it paid.
    pub gas: u64,
    /// How many ids were drawn.
    pub created: u32,
    /// What it wrote.
    pub written: Vec<Written>,
    /// What it deleted.
    pub deleted: Vec<ObjectId>,
}

struct_codec!(Effects { tx, status, version, gas, created, written, deleted });

impl Effects {
    /// Their digest.
    pub fn digest(&self) -> Digest {
        Digest::of(Tag::Effects, &self.spelled())
    }
}

#[cfg(test)]
mod tests {
    use super::*;
    use crate::codec::{Fault, Read, Why};

    #[test]
    fn worked_bytes() {
        let split = Command::Split { coin: Argument::Gas, amounts: vec![Argument::Input(0)] };
        assert_eq!(split.spelled(), [2, 0, 1, 1, 0, 0]);
        let transfer = Command::Transfer { values: vec![Argument::Result(0)], to: Argument::Input(1) };
        assert_eq!(transfer.spelled(), [1, 1, 2, 0, 0, 1, 1, 0]);
        assert_eq!(Argument::Nested { command: 3, number: 1 }.spelled(), [3, 3, 0, 1, 0]);
        let pure = Input::Pure(Bytes(500u64.to_le_bytes().to_vec()));
        assert_eq!(pure.spelled(), [0, 8, 0xf4, 1, 0, 0, 0, 0, 0, 0]);
        assert_eq!(Input::decode(&pure.spelled()), Ok(pure));
    }

    #[test]
    fn there_is_no_command_of_number_four() {
        assert_eq!(Command::decode(&[4]), Err(Fault { at: 0, why: Why::BadTag }));
        assert!(Command::decode(&Command::MakeVec { kind: Kind::Limit, values: vec![] }.spelled()).is_ok());
    }
}
