//! The execution of one transaction: its commands in order, all or none.

use crate::digest::{created_id, Address, Digest, ObjectId};
use crate::natives;
use crate::types::{Argument, Command, Content, Effects, Input, Kind, Named, Object, Owner, Status, Transaction, Written};

/// Why a block stops before its end.
#[derive(Clone, Copy, PartialEq, Eq, Debug)]
pub enum Halt {
    /// A cause of failure.
    Failed(Cause),
    /// A native's own code.
    Aborted(u8),
}

/// The causes of failure; the numbers are those of the rules.
#[derive(Clone, Copy, PartialEq, Eq, Debug)]
pub enum Cause {
    /// The place was used by value by an earlier command.
    Spent = 1,
    /// There is no such result.
    NoResult = 2,
    /// Bytes of another length.
    BadPure = 3,
    /// A value of another kind.
    WrongKind = 4,
    /// By value what can only be lent.
    ByValue = 5,
    /// By mutable reference what can only be read.
    ByMut = 6,
    /// The command named the place before.
    Aliased = 7,
    /// A split of more than the coin shows.
    Balance = 8,
    /// A merge above 64 bits.
    Overflow = 9,
    /// A merge of another currency.
    Currency = 10,
    /// A native with another number of arguments.
    ArgCount = 11,
    /// A result is left at the end.
    Unused = 12,
}

impl From<Cause> for Halt {
    fn from(cause: Cause) -> Self {
        Halt::Failed(cause)
    }
}

/// Where an object in a block comes from.
#[derive(Clone, Copy, PartialEq, Eq)]
pub enum Source {
    /// The gas coin (0), or input n (n + 1).
    Place(usize),
    /// The block created it, under this number.
    Fresh(u32),
}

/// An object while a block runs.
pub struct Item {
    /// Its id.
    pub id: ObjectId,
    /// What it holds.
    pub content: Content,
    /// Where it comes from.
    pub from: Source,
}

/// What a place holds.
pub enum Value<'t> {
    /// Bytes of an input.
    Pure(&'t [u8]),
    /// An object.
    Item(Item),
    /// A vector of objects of one kind.
    Items(Kind, Vec<Item>),
}

/// What may be done with a place.
#[derive(Clone, Copy, PartialEq, Eq)]
enum Access {
    Gas,
    Owned,
    Immutable,
    Shared { mutable: bool },
    Result,
}

struct Place<'t> {
    access: Access,
    value: Option<Value<'t>>,
    /// The last command that named it, counted from 1.
    named_by: usize,
}

/// How a command takes an argument.
#[derive(Clone, Copy)]
pub enum Mode {
    /// Bytes of a number.
    Number,
    /// Bytes of an address.
    Address,
    /// An object by value, of this kind or of any.
    ByValue(Option<Kind>),
    /// An object by mutable reference.
    ByMut(Kind),
    /// An object by reference.
    ByRef(Kind),
    /// A vector of coins by value.
    Coins,
}

/// What a transaction did: its effects, their digest, and the objects that it wrote.
pub struct Executed {
    /// The effects.
    pub effects: Effects,
    /// Their digest.
    pub digest: Digest,
    /// The written objects, in the order of the effects.
    pub objects: Vec<Object>,
}

/// A block in progress.
pub struct Block<'t> {
    tx: &'t Transaction,
    digest: &'t Digest,
    /// The version of all that it writes.
    pub version: u64,
    places: Vec<Place<'t>>,
    /// Where the results of each command begin; and where the next ones will.
    results: Vec<usize>,
    made: u32,
    placed: Vec<(Item, Owner)>,
}

/// Executes a transaction whose shape is valid on objects that fit it, one for each that it names.
pub fn execute(tx: &Transaction, digest: &Digest, inputs: &[&Object]) -> Executed {
    let version = 1 + inputs.iter().map(|object| object.version).max().unwrap_or(0);
    let mut block = Block::new(tx, digest, version, inputs);
    let (status, made, objects, deleted) = match block.run() {
        Ok(()) => {
            let made = block.made;
            let (objects, deleted) = block.finish(inputs);
            (Status::Done, made, objects, deleted)
        }
        Err((command, Halt::Failed(cause))) => {
            (Status::Failed { command, cause: cause as u8 }, 0, unchanged(tx, version, inputs), Vec::new())
        }
        Err((command, Halt::Aborted(code))) => {
            (Status::Aborted { command, code }, 0, unchanged(tx, version, inputs), Vec::new())
        }
    };
    let written = objects.iter().map(written).collect();
    let effects = Effects { tx: *digest, status, version, gas: tx.cost(), created: made, written, deleted };
    Executed { digest: effects.digest(), effects, objects }
}

fn written(object: &Object) -> Written {
    Written { id: object.id, owner: object.owner, digest: object.digest() }
}

/// What a failed block writes: its gas coin pays, and all else stays.
fn unchanged(tx: &Transaction, version: u64, inputs: &[&Object]) -> Vec<Object> {
    let written = tx.objects().zip(inputs).filter(|(named, _)| named.is_written());
    let mut objects: Vec<Object> = written.map(|(_, &object)| Object { version, ..object.clone() }).collect();
    if let Content::Coin { balance, .. } = &mut objects[0].content {
        *balance -= tx.cost();
    }
    objects
}

impl<'t> Block<'t> {
    fn new(tx: &'t Transaction, digest: &'t Digest, version: u64, inputs: &[&Object]) -> Self {
        let mut objects = inputs.iter();
        let mut next = |place: usize| {
            let object = objects.next().expect("an object for each that is named");
            Value::Item(Item { id: object.id, content: object.content, from: Source::Place(place) })
        };
        let mut places = Vec::with_capacity(1 + tx.inputs.len() + tx.commands.len());
        places.push(Place { access: Access::Gas, value: Some(next(0)), named_by: 0 });
        for (number, input) in tx.inputs.iter().enumerate() {
            let (access, value) = match input {
                Input::Pure(bytes) => (Access::Result, Value::Pure(&bytes.0)),
                Input::Owned(_) => (Access::Owned, next(number + 1)),
                Input::Immutable(_) => (Access::Immutable, next(number + 1)),
                Input::Shared { mutable, .. } => (Access::Shared { mutable: *mutable }, next(number + 1)),
            };
            places.push(Place { access, value: Some(value), named_by: 0 });
        }
        let results = vec![places.len()];
        let mut block = Self { tx, digest, version, places, results, made: 0, placed: Vec::new() };
        *block.balance(0) -= tx.budget;
        block
    }

    /// Runs all commands; a halt comes with the number of its command.
    fn run(&mut self) -> Result<(), (u16, Halt)> {
        for (number, command) in self.tx.commands.iter().enumerate() {
            self.step(command).map_err(|halt| (number as u16, halt))?;
            self.results.push(self.places.len());
        }
        let results = &self.places[self.results[0]..];
        match results.iter().any(|place| place.value.is_some()) {
            true => Err((self.tx.commands.len() as u16, Cause::Unused.into())),
            false => Ok(()),
        }
    }

    fn step(&mut self, command: &'t Command) -> Result<(), Halt> {
        match command {
            Command::Split { coin, amounts } => self.split(*coin, amounts),
            Command::Merge { target, sources } => self.merge(*target, sources),
            Command::Transfer { values, to } => self.transfer(values, *to),
            Command::MakeVec { kind, values } => self.make_vec(*kind, values),
            Command::Call { native, args } => natives::call(self, *native, args),
        }
    }

    fn split(&mut self, coin: Argument, amounts: &[Argument]) -> Result<(), Halt> {
        let coin = self.check(coin, Mode::ByMut(Kind::Coin))?;
        let amounts = amounts.iter().map(|&amount| self.check_number(amount)).collect::<Result<Vec<u64>, _>>()?;
        let (currency, balance) = self.coin(coin);
        let total: u128 = amounts.iter().map(|&amount| u128::from(amount)).sum();
        if total > u128::from(balance) {
            return Err(Cause::Balance.into());
        }
        *self.balance(coin) = balance - total as u64;
        for balance in amounts {
            self.create(Content::Coin { currency, balance });
        }
        Ok(())
    }

    fn merge(&mut self, target: Argument, sources: &[Argument]) -> Result<(), Halt> {
        let target = self.check(target, Mode::ByMut(Kind::Coin))?;
        let mode = Mode::ByValue(Some(Kind::Coin));
        let sources = sources.iter().map(|&source| self.check(source, mode)).collect::<Result<Vec<usize>, _>>()?;
        let (currency, shown) = self.coin(target);
        if sources.iter().any(|&source| self.coin(source).0 != currency) {
            return Err(Cause::Currency.into());
        }
        let withheld = if target == 0 { self.tx.budget } else { 0 };
        let added: u128 = sources.iter().map(|&source| u128::from(self.coin(source).1)).sum();
        if u128::from(shown) + u128::from(withheld) + added > u128::from(u64::MAX) {
            return Err(Cause::Overflow.into());
        }
        *self.balance(target) = shown + added as u64;
        sources.into_iter().for_each(|source| drop(self.take(source)));
        Ok(())
    }

    fn transfer(&mut self, values: &[Argument], to: Argument) -> Result<(), Halt> {
        let check = |&value: &Argument| self.check_lending(value, Mode::ByValue(None), true);
        let values = values.iter().map(check).collect::<Result<Vec<usize>, _>>()?;
        let to = self.check_address(to)?;
        for value in values {
            let item = self.take_item(value);
            self.place(item, Owner::Address(to));
        }
        Ok(())
    }

    fn make_vec(&mut self, kind: Kind, values: &[Argument]) -> Result<(), Halt> {
        let mode = Mode::ByValue(Some(kind));
        let values = values.iter().map(|&value| self.check(value, mode)).collect::<Result<Vec<usize>, _>>()?;
        let items = values.into_iter().map(|value| self.take_item(value)).collect();
        self.push_result(Value::Items(kind, items));
        Ok(())
    }

    /// The place that an argument names, where there is one.
    fn locate(&self, argument: Argument) -> Result<usize, Cause> {
        let results = |command: u16| {
            let command = usize::from(command);
            (self.results[command], self.results[command + 1])
        };
        match argument {
            Argument::Gas => Ok(0),
            Argument::Input(number) => Ok(1 + usize::from(number)),
            Argument::Result(command) => match results(command) {
                (start, end) if end == start + 1 => Ok(start),
                _ => Err(Cause::NoResult),
            },
            Argument::Nested { command, number } => {
                let (start, end) = results(command);
                let place = start + usize::from(number);
                if place < end {
                    Ok(place)
                } else {
                    Err(Cause::NoResult)
                }
            }
        }
    }

    /// The place of an argument, where it can be taken in this mode.
    pub fn check(&mut self, argument: Argument, mode: Mode) -> Result<usize, Cause> {
        self.check_lending(argument, mode, false)
    }

    fn check_lending(&mut self, argument: Argument, mode: Mode, gives_gas: bool) -> Result<usize, Cause> {
        let number = self.locate(argument)?;
        let command = self.results.len();
        let place = &mut self.places[number];
        match (place.value.as_ref().ok_or(Cause::Spent)?, mode) {
            (Value::Pure(bytes), Mode::Number) => return right_length(bytes, 8).map(|()| number),
            (Value::Pure(bytes), Mode::Address) => return right_length(bytes, 32).map(|()| number),
            (Value::Item(_), Mode::ByValue(None)) => {}
            (Value::Item(item), Mode::ByValue(Some(kind)) | Mode::ByMut(kind) | Mode::ByRef(kind))
                if item.content.kind() == kind => {}
            (Value::Items(Kind::Coin, _), Mode::Coins) => {}
            _ => return Err(Cause::WrongKind),
        }
        match (mode, place.access) {
            (Mode::ByValue(_), Access::Gas) if !gives_gas => return Err(Cause::ByValue),
            (Mode::ByValue(_), Access::Immutable | Access::Shared { .. }) => return Err(Cause::ByValue),
            (Mode::ByMut(_), Access::Immutable | Access::Shared { mutable: false }) => return Err(Cause::ByMut),
            _ => {}
        }
        if place.named_by == command {
            return Err(Cause::Aliased);
        }
        place.named_by = command;
        Ok(number)
    }

    fn check_number(&mut self, argument: Argument) -> Result<u64, Cause> {
        let place = self.check(argument, Mode::Number)?;
        Ok(self.number(place))
    }

    fn check_address(&mut self, argument: Argument) -> Result<Address, Cause> {
        let place = self.check(argument, Mode::Address)?;
        match self.places[place].value {
            Some(Value::Pure(bytes)) => Ok(Address(bytes.try_into().expect("checked to be 32 bytes"))),
            _ => unreachable!("checked to be bytes"),
        }
    }

    /// The number at a place that was checked to be one.
    pub fn number(&self, place: usize) -> u64 {
        match self.places[place].value {
            Some(Value::Pure(bytes)) => u64::from_le_bytes(bytes.try_into().expect("checked to be 8 bytes")),
            _ => unreachable!("checked to be a number"),
        }
    }

    /// The object at a place that was checked to be one.
    pub fn item(&self, place: usize) -> &Item {
        match &self.places[place].value {
            Some(Value::Item(item)) => item,
            _ => unreachable!("checked to be an object"),
        }
    }

    /// What the object at a place holds, to be changed.
    pub fn content(&mut self, place: usize) -> &mut Content {
        match &mut self.places[place].value {
            Some(Value::Item(item)) => &mut item.content,
            _ => unreachable!("checked to be an object"),
        }
    }

    /// The currency and the balance of the coin at a place.
    pub fn coin(&self, place: usize) -> (u64, u64) {
        match self.item(place).content {
            Content::Coin { currency, balance } => (currency, balance),
            _ => unreachable!("checked to be a coin"),
        }
    }

    fn balance(&mut self, place: usize) -> &mut u64 {
        match self.content(place) {
            Content::Coin { balance, .. } => balance,
            _ => unreachable!("checked to be a coin"),
        }
    }

    /// Takes what a place holds.
    pub fn take(&mut self, place: usize) -> Value<'t> {
        self.places[place].value.take().expect("checked to hold something")
    }

    /// Takes the object at a place.
    pub fn take_item(&mut self, place: usize) -> Item {
        match self.take(place) {
            Value::Item(item) => item,
            _ => unreachable!("checked to be an object"),
        }
    }

    /// Gives a result.
    pub fn push_result(&mut self, value: Value<'t>) {
        self.places.push(Place { access: Access::Result, value: Some(value), named_by: 0 });
    }

    /// Gives a new object as a result, and answers its id.
    pub fn create(&mut self, content: Content) -> ObjectId {
        let id = created_id(self.digest, u64::from(self.made));
        self.push_result(Value::Item(Item { id, content, from: Source::Fresh(self.made) }));
        self.made += 1;
        id
    }

    /// Gives an object to its new owner.
    pub fn place(&mut self, item: Item, owner: Owner) {
        self.placed.push((item, owner));
    }

    /// The written objects and the deleted ids of a block whose commands all ran.
    fn finish(mut self, inputs: &[&Object]) -> (Vec<Object>, Vec<ObjectId>) {
        let mut left: Vec<Option<(Content, Owner)>> = vec![None; 1 + self.tx.inputs.len()];
        let mut created = Vec::new();
        for (item, owner) in std::mem::take(&mut self.placed) {
            match item.from {
                Source::Place(place) => left[place] = Some((item.content, owner)),
                Source::Fresh(number) => created.push((number, item, owner)),
            }
        }
        let originals = self.named_places().zip(inputs).map(|(place, object)| (place, object.owner));
        for (place, owner) in originals.collect::<Vec<_>>() {
            if let Some(Value::Item(item)) = &self.places[place].value {
                left[place] = Some((item.content, owner));
            }
        }
        self.give_back(&mut left[0]);
        created.sort_unstable_by_key(|(number, ..)| *number);
        let (mut objects, deleted) = self.sort_out(&left);
        let version = self.version;
        objects.extend(created.into_iter().map(|(_, Item { id, content, .. }, owner)| Object {
            id,
            version,
            owner,
            content,
        }));
        (objects, deleted)
    }

    /// The places of the objects that the transaction names, in order.
    fn named_places(&self) -> impl Iterator<Item = usize> + 't {
        let inputs = self.tx.inputs.iter().enumerate();
        let named = inputs.filter(|(_, input)| !matches!(input, Input::Pure(_))).map(|(number, _)| number + 1);
        std::iter::once(0).chain(named)
    }

    fn give_back(&self, gas: &mut Option<(Content, Owner)>) {
        if let Some((Content::Coin { balance, .. }, _)) = gas {
            *balance = balance.saturating_add(self.tx.budget - self.tx.cost());
        }
    }

    /// Of what was handed in, the written objects and the deleted ids.
    fn sort_out(&self, left: &[Option<(Content, Owner)>]) -> (Vec<Object>, Vec<ObjectId>) {
        let (mut objects, mut deleted) = (Vec::new(), Vec::new());
        for (place, named) in self.named_places().zip(self.tx.objects()) {
            match left[place] {
                Some((content, owner)) if named.is_written() => {
                    objects.push(Object { id: named.id(), version: self.version, owner, content });
                }
                None => deleted.push(named.id()),
                _ => {}
            }
        }
        (objects, deleted)
    }
}

fn right_length(bytes: &[u8], length: usize) -> Result<(), Cause> {
    if bytes.len() == length {
        Ok(())
    } else {
        Err(Cause::BadPure)
    }
}

/// Whether the objects are what the transaction says of them. `digest_of` answers the digest of the one at a place.
pub fn fits(tx: &Transaction, inputs: &[&Object], digest_of: impl Fn(usize) -> Digest) -> bool {
    const BOUND: u64 = 1 << 62;
    let each = |(place, named): (usize, Named)| {
        let object = inputs[place];
        let is_named = named.reference().is_none_or(|it| it.key() == object.key() && it.digest == digest_of(place));
        is_named && object.id == named.id() && fits_as(tx, named, object)
    };
    tx.objects().enumerate().all(each) && inputs.iter().all(|object| object.version + 1 < BOUND)
}

fn fits_as(tx: &Transaction, named: Named, object: &Object) -> bool {
    let is_senders = object.owner == Owner::Address(tx.sender);
    match named {
        Named::Gas(_) => {
            is_senders && matches!(object.content, Content::Coin { currency: 0, balance } if balance >= tx.budget)
        }
        Named::Owned(_) => is_senders,
        Named::Immutable(_) => object.owner == Owner::Immutable,
        Named::Shared { initial, .. } => object.owner == Owner::Shared(initial),
    }
}
