//! The schedule language: set-up lines, and then events, one a line.

use crate::journal::Stop;
use crate::natives;
use crate::types::{Argument, Command, Kind};
use std::collections::{HashMap, HashSet};

/// The most bytes that a schedule may have.
pub const MAX_BYTES: usize = 16_777_216;

const MAX_MEMBERS: usize = 64;
const MAX_TRANSACTIONS: usize = 65_535;

/// Why a text is no schedule; the numbers are those of the rules.
#[derive(Clone, Copy, PartialEq, Eq, PartialOrd, Ord, Debug)]
pub enum Cause {
    TooLarge = 1,
    NoMembers,
    BadByte,
    BadForm,
    BadNumber,
    LateSetup,
    TooManyMembers,
    TooManyTransactions,
    RepeatedName,
    UnknownName,
    UnknownMember,
    WrongRole,
    BadOrder,
}

/// The first bad line, or 0 for the whole text, and its least cause.
#[derive(Clone, Copy, PartialEq, Eq, Debug)]
pub struct Refused {
    /// The line.
    pub line: usize,
    /// The cause.
    pub cause: Cause,
}

/// A member of the committee.
#[derive(Clone, Copy)]
pub struct MemberLine {
    /// Its stake.
    pub stake: u32,
    /// Whether it keeps to the rules.
    pub honest: bool,
}

/// An object that is there when the first epoch opens.
pub struct ObjectLine<'a> {
    /// Its name.
    pub name: &'a str,
    /// What it is.
    pub what: SetupObject<'a>,
}

/// The objects of a set-up.
pub enum SetupObject<'a> {
    Coin { owner: &'a str, balance: u64 },
    Counter { value: u64 },
    Cap { owner: &'a str, currency: u64 },
}

/// An object as a line names it.
#[derive(Clone, Copy)]
pub enum ObjectWord {
    /// The object of a set-up line, counted among those.
    Setup(usize),
    /// What the transaction of a `tx` line creates under a number.
    Created { tx: usize, number: u64 },
}

/// A reference as a line has it.
#[derive(Clone, Copy)]
pub struct RefWord {
    /// The object.
    pub object: ObjectWord,
    /// The version.
    pub version: u64,
    /// Whether the digest is spoiled.
    pub spoiled: bool,
}

/// An input as a line has it.
pub enum InputWord<'a> {
    Number(u64),
    Address(&'a str),
    Bytes(Vec<u8>),
    Owned(RefWord),
    Immutable(RefWord),
    Shared { object: ObjectWord, initial: u64, mutable: bool },
}

/// A `tx` line.
pub struct TxLine<'a> {
    /// What the transaction is called.
    pub name: &'a str,
    /// Who seals it.
    pub sender: &'a str,
    /// Whether the seal is spoiled.
    pub spoiled: bool,
    /// The epoch for which it is made.
    pub epoch: u64,
    /// The coin that pays.
    pub gas: RefWord,
    /// The most that it may pay.
    pub budget: u64,
    /// What it is handed.
    pub inputs: Vec<InputWord<'a>>,
    /// What it does.
    pub commands: Vec<Command>,
}

/// An event. Transactions are numbered by their `tx` lines.
pub enum Event<'a> {
    Tx(Box<TxLine<'a>>),
    Vote { member: u32, tx: usize },
    FaultyVote { member: u32, tx: usize, origins: Vec<Option<usize>> },
    Certify { tx: usize, members: Vec<u32> },
    Send { member: u32, tx: usize },
    Order(usize),
    OrderEnd(u32),
    OrderCommit,
    See { member: u32, entries: u32 },
    Run { member: u32, workers: u32 },
    Close(u32),
    End(u32),
    Turn(u32),
    Show(u32),
    Stop { member: u32, stop: Stop },
    Restart(u32),
    RawVote { member: u32, bytes: Vec<u8> },
    RawHold { member: u32, bytes: Vec<u8> },
    Ack { member: u32, tx: usize, spoiled: bool },
    Final { tx: usize, members: Vec<u32> },
}

/// A schedule.
#[derive(Default)]
pub struct Schedule<'a> {
    /// The members, by their numbers.
    pub members: Vec<MemberLine>,
    /// The limit of writers.
    pub writers: Option<u32>,
    /// The objects of the set-up.
    pub objects: Vec<ObjectLine<'a>>,
    /// The names of the `tx` lines.
    pub txs: Vec<&'a str>,
    /// The events, in order.
    pub events: Vec<Event<'a>>,
}

/// Reads a schedule.
pub fn read(bytes: &[u8]) -> Result<Schedule<'_>, Refused> {
    let whole = |cause| Refused { line: 0, cause };
    if bytes.len() > MAX_BYTES {
        return Err(whole(Cause::TooLarge));
    }
    if !bytes.split(|&byte| byte == b'\n').any(|line| line.starts_with(b"member ")) {
        return Err(whole(Cause::NoMembers));
    }
    let mut parser = Parser::default();
    for (place, line) in bytes.split(|&byte| byte == b'\n').enumerate() {
        if !line.is_empty() && line[0] != b'#' {
            parser.line(line).map_err(|cause| Refused { line: place + 1, cause })?;
        }
    }
    Ok(parser.schedule)
}

/// The line has none of the forms.
struct NoForm;

type Parsed<T> = Result<T, NoForm>;

#[derive(Default)]
struct Parser<'a> {
    schedule: Schedule<'a>,
    object_names: HashMap<&'a str, usize>,
    tx_names: HashMap<&'a str, usize>,
    currencies: HashSet<u64>,
    /// The least cause against the line at hand, whose form is read to its end all the same.
    least: Option<Cause>,
}

/// Who may stand in the place of a member's number.
#[derive(Clone, Copy, PartialEq, Eq)]
enum Role {
    Honest,
    Faulty,
    Any,
}

impl<'a> Parser<'a> {
    fn line(&mut self, line: &'a [u8]) -> Result<(), Cause> {
        let text = std::str::from_utf8(line).map_err(|_| Cause::BadByte)?;
        if !line.iter().all(|byte| (0x20..=0x7e).contains(byte)) {
            return Err(Cause::BadByte);
        }
        let words: Vec<&str> = text.split(' ').collect();
        self.least = None;
        if self.setup_line(&words).is_err() {
            let event = self.event_line(&words).map_err(|NoForm| Cause::BadForm)?;
            self.schedule.events.push(event);
        }
        self.least.map_or(Ok(()), Err)
    }

    fn note(&mut self, cause: Cause, applies: bool) {
        if applies && self.least.is_none_or(|least| cause < least) {
            self.least = Some(cause);
        }
    }

    fn setup_line(&mut self, words: &[&'a str]) -> Parsed<()> {
        match *words {
            ["member", stake, role] => self.member_line(stake, role)?,
            ["coin", new, owner, balance] => {
                let what = SetupObject::Coin { owner: name(owner)?, balance: self.number(balance)? };
                self.object_line(new, what)?;
            }
            ["counter", new, value] => {
                let what = SetupObject::Counter { value: self.number(value)? };
                self.object_line(new, what)?;
            }
            ["cap", new, owner, currency] => {
                let currency = self.number_in(currency, 1, u64::MAX)?;
                self.object_line(new, SetupObject::Cap { owner: name(owner)?, currency })?;
                let is_new = self.currencies.insert(currency);
                self.note(Cause::BadOrder, !is_new);
            }
            ["writers", limit] => {
                let limit = self.number_in(limit, 1, 65_535)? as u32;
                let earlier = self.schedule.writers.replace(limit);
                self.note(Cause::BadOrder, earlier.is_some());
            }
            _ => return Err(NoForm),
        }
        self.note(Cause::LateSetup, !self.schedule.events.is_empty());
        Ok(())
    }

    fn member_line(&mut self, stake: &str, role: &str) -> Parsed<()> {
        let honest = match role {
            "honest" => true,
            "faulty" => false,
            _ => return Err(NoForm),
        };
        let stake = self.number_in(stake, 1, u64::from(u32::MAX))? as u32;
        self.note(Cause::TooManyMembers, self.schedule.members.len() >= MAX_MEMBERS);
        self.schedule.members.push(MemberLine { stake, honest });
        Ok(())
    }

    fn object_line(&mut self, new: &'a str, what: SetupObject<'a>) -> Parsed<()> {
        let name = name(new)?;
        let earlier = self.object_names.insert(name, self.schedule.objects.len());
        self.note(Cause::RepeatedName, earlier.is_some());
        self.schedule.objects.push(ObjectLine { name, what });
        Ok(())
    }

    fn event_line(&mut self, words: &[&'a str]) -> Parsed<Event<'a>> {
        use Role::{Any, Faulty, Honest};
        Ok(match *words {
            ["tx", new, sender, epoch, gas, budget, ref rest @ ..] => {
                let line = self.tx_line([new, sender, epoch, gas, budget], rest)?;
                Event::Tx(Box::new(line))
            }
            ["vote", member, tx] => Event::Vote { member: self.member(member, Honest)?, tx: self.tx(tx)? },
            ["fvote", member, tx, ref origins @ ..] => {
                let (member, tx) = (self.member(member, Faulty)?, self.tx(tx)?);
                let origin = |word: &&'a str| if *word == "-" { Ok(None) } else { self.tx(word).map(Some) };
                Event::FaultyVote { member, tx, origins: origins.iter().map(origin).collect::<Parsed<_>>()? }
            }
            ["cert", tx, ref members @ ..] => Event::Certify { tx: self.tx(tx)?, members: self.members(members)? },
            ["send", member, tx] => Event::Send { member: self.member(member, Honest)?, tx: self.tx(tx)? },
            ["order", "end", member] => Event::OrderEnd(self.member(member, Any)?),
            ["order", "commit"] => Event::OrderCommit,
            ["order", tx] => Event::Order(self.tx(tx)?),
            ["see", member, entries] => {
                let entries = self.number_in(entries, 1, u64::from(u32::MAX))? as u32;
                Event::See { member: self.member(member, Honest)?, entries }
            }
            ["run", member, workers] => {
                let workers = self.number_in(workers, 1, 16)? as u32;
                Event::Run { member: self.member(member, Honest)?, workers }
            }
            ["close", member] => Event::Close(self.member(member, Honest)?),
            ["end", member] => Event::End(self.member(member, Honest)?),
            ["turn", member] => Event::Turn(self.member(member, Honest)?),
            ["show", member] => Event::Show(self.member(member, Honest)?),
            ["stop", member, "kept"] => Event::Stop { member: self.member(member, Honest)?, stop: Stop::Kept },
            ["stop", member, "lost"] => Event::Stop { member: self.member(member, Honest)?, stop: Stop::Lost },
            ["restart", member] => Event::Restart(self.member(member, Honest)?),
            ["raw", member, "vote", bytes] => {
                Event::RawVote { member: self.member(member, Honest)?, bytes: raw_bytes(bytes)? }
            }
            ["raw", member, "hold", bytes] => {
                Event::RawHold { member: self.member(member, Honest)?, bytes: raw_bytes(bytes)? }
            }
            ["ack", member, tx] => Event::Ack { member: self.member(member, Any)?, tx: self.tx(tx)?, spoiled: false },
            ["ack", member, tx, "!"] => Event::Ack { member: self.member(member, Faulty)?, tx: self.tx(tx)?, spoiled: true },
            ["final", tx, ref members @ ..] => Event::Final { tx: self.tx(tx)?, members: self.members(members)? },
            _ => return Err(NoForm),
        })
    }

    /// Any digits, as a number between these; another one is noted.
    fn number_in(&mut self, word: &str, least: u64, most: u64) -> Parsed<u64> {
        if word.is_empty() || !word.bytes().all(|byte| byte.is_ascii_digit()) {
            return Err(NoForm);
        }
        let value = word.parse::<u64>().ok().filter(|value| (least..=most).contains(value));
        self.note(Cause::BadNumber, value.is_none() || (word.len() > 1 && word.starts_with('0')));
        Ok(value.unwrap_or(least))
    }

    fn number(&mut self, word: &str) -> Parsed<u64> {
        self.number_in(word, 0, u64::MAX)
    }

    fn number16(&mut self, word: &str) -> Parsed<u16> {
        Ok(self.number_in(word, 0, 65_535)? as u16)
    }

    fn member(&mut self, word: &str, role: Role) -> Parsed<u32> {
        let number = self.number(word)?;
        match usize::try_from(number).ok().and_then(|number| self.schedule.members.get(number)) {
            None => self.note(Cause::UnknownMember, true),
            Some(&MemberLine { honest, .. }) => {
                let is_right = role == Role::Any || honest == (role == Role::Honest);
                self.note(Cause::WrongRole, !is_right);
            }
        }
        Ok(u32::try_from(number).unwrap_or(u32::MAX))
    }

    /// One member at least, ascending.
    fn members(&mut self, words: &[&str]) -> Parsed<Vec<u32>> {
        if words.is_empty() {
            return Err(NoForm);
        }
        let members = words.iter().map(|word| self.member(word, Role::Any)).collect::<Parsed<Vec<u32>>>()?;
        let ascend = members.windows(2).all(|pair| pair[0] < pair[1]);
        self.note(Cause::BadOrder, !ascend);
        Ok(members)
    }

    fn tx(&mut self, word: &'a str) -> Parsed<usize> {
        let found = self.tx_names.get(name(word)?).copied();
        self.note(Cause::UnknownName, found.is_none());
        Ok(found.unwrap_or(0))
    }

    fn object(&mut self, word: &'a str) -> Parsed<ObjectWord> {
        if let Some((tx, number)) = word.split_once('.') {
            return Ok(ObjectWord::Created { tx: self.tx(tx)?, number: self.number(number)? });
        }
        let found = self.object_names.get(name(word)?).copied();
        self.note(Cause::UnknownName, found.is_none());
        Ok(ObjectWord::Setup(found.unwrap_or(0)))
    }

    fn reference(&mut self, word: &'a str) -> Parsed<RefWord> {
        let (word, spoiled) = match word.strip_suffix('!') {
            Some(word) => (word, true),
            None => (word, false),
        };
        let (object, version) = self.object_at(word)?;
        Ok(RefWord { object, version, spoiled })
    }

    fn object_at(&mut self, word: &'a str) -> Parsed<(ObjectWord, u64)> {
        let (object, version) = word.split_once('@').ok_or(NoForm)?;
        Ok((self.object(object)?, self.number(version)?))
    }

    fn tx_line(&mut self, head: [&'a str; 5], rest: &[&'a str]) -> Parsed<TxLine<'a>> {
        let [new, sender, epoch, gas, budget] = head;
        let new = name(new)?;
        let (sender, spoiled) = match sender.strip_suffix('?') {
            Some(sender) => (name(sender)?, true),
            None => (name(sender)?, false),
        };
        let (epoch, gas, budget) = (self.number(epoch)?, self.reference(gas)?, self.number(budget)?);
        let first_command = rest.iter().position(|word| word.contains('(')).unwrap_or(rest.len());
        let (inputs, commands) = rest.split_at(first_command);
        let inputs = inputs.iter().map(|word| self.input(word)).collect::<Parsed<_>>()?;
        let commands = commands.iter().map(|word| self.command(word)).collect::<Parsed<_>>()?;
        self.note(Cause::TooManyTransactions, self.schedule.txs.len() >= MAX_TRANSACTIONS);
        let earlier = self.tx_names.insert(new, self.schedule.txs.len());
        self.note(Cause::RepeatedName, earlier.is_some());
        self.schedule.txs.push(new);
        Ok(TxLine { name: new, sender, spoiled, epoch, gas, budget, inputs, commands })
    }

    fn input(&mut self, word: &'a str) -> Parsed<InputWord<'a>> {
        let (sort, word) = word.split_once(':').ok_or(NoForm)?;
        Ok(match sort {
            "n" => InputWord::Number(self.number(word)?),
            "a" => InputWord::Address(name(word)?),
            "x" => InputWord::Bytes(hex_bytes(word)?),
            "o" => InputWord::Owned(self.reference(word)?),
            "i" => InputWord::Immutable(self.reference(word)?),
            "s" | "r" => {
                let (object, initial) = self.object_at(word)?;
                InputWord::Shared { object, initial, mutable: sort == "s" }
            }
            _ => return Err(NoForm),
        })
    }

    fn command(&mut self, word: &'a str) -> Parsed<Command> {
        let (head, list) = word.strip_suffix(')').and_then(|word| word.split_once('(')).ok_or(NoForm)?;
        if head == "vec" {
            let (kind, list) = list.split_once(',').map_or((list, None), |(kind, list)| (kind, Some(list)));
            let values = list.map_or(Ok(Vec::new()), |list| self.arguments(list))?;
            return Ok(Command::MakeVec { kind: kind_of(kind)?, values });
        }
        let native = natives::NAMES.iter().position(|name| *name == head);
        if let (Some(native), true) = (native, list.is_empty()) {
            return Ok(Command::Call { native: native as u8, args: Vec::new() });
        }
        let mut args = self.arguments(list)?;
        Ok(match (head, native) {
            (_, Some(native)) => Command::Call { native: native as u8, args },
            ("split", _) => Command::Split { coin: args.remove(0), amounts: args },
            ("merge", _) => Command::Merge { target: args.remove(0), sources: args },
            ("transfer", _) => {
                let to = args.pop().ok_or(NoForm)?;
                Command::Transfer { values: args, to }
            }
            _ => return Err(NoForm),
        })
    }

    /// One argument at least.
    fn arguments(&mut self, list: &str) -> Parsed<Vec<Argument>> {
        list.split(',').map(|word| self.argument(word)).collect()
    }

    fn argument(&mut self, word: &str) -> Parsed<Argument> {
        if word == "gas" {
            return Ok(Argument::Gas);
        }
        if let Some(number) = word.strip_prefix('i') {
            return Ok(Argument::Input(self.number16(number)?));
        }
        let result = word.strip_prefix('r').ok_or(NoForm)?;
        Ok(match result.split_once('.') {
            Some((command, number)) => Argument::Nested { command: self.number16(command)?, number: self.number16(number)? },
            None => Argument::Result(self.number16(result)?),
        })
    }
}

/// A lower-case letter, and then at most 15 lower-case letters, digits or `_`.
fn name(word: &str) -> Parsed<&str> {
    let is_name = word.len() <= 16
        && word.starts_with(|first: char| first.is_ascii_lowercase())
        && word.bytes().all(|byte| byte.is_ascii_lowercase() || byte.is_ascii_digit() || byte == b'_');
    if is_name {
        Ok(word)
    } else {
        Err(NoForm)
    }
}

fn kind_of(word: &str) -> Parsed<Kind> {
    const WORDS: [&str; 6] = ["coin", "cap", "counter", "vault", "key", "limit"];
    WORDS.iter().position(|it| *it == word).map(|number| Kind::ALL[number]).ok_or(NoForm)
}

fn hex_bytes(word: &str) -> Parsed<Vec<u8>> {
    let digit = |byte: u8| match byte {
        b'0'..=b'9' => Ok(byte - b'0'),
        b'a'..=b'f' => Ok(byte - b'a' + 10),
        _ => Err(NoForm),
    };
    let (pairs, rest) = word.as_bytes().as_chunks::<2>();
    if !rest.is_empty() {
        return Err(NoForm);
    }
    pairs.iter().map(|&[high, low]| Ok(digit(high)? << 4 | digit(low)?)).collect()
}

fn raw_bytes(word: &str) -> Parsed<Vec<u8>> {
    if word.is_empty() {
        Err(NoForm)
    } else {
        hex_bytes(word)
    }
}

#[cfg(test)]
mod tests {
    use super::*;

    fn refusal(text: &str) -> Option<(usize, Cause)> {
        read(text.as_bytes()).err().map(|it| (it.line, it.cause))
    }

    #[test]
    fn the_least_cause_of_the_first_bad_line() {
        assert_eq!(refusal(""), Some((0, Cause::NoMembers)));
        assert_eq!(refusal("member 1 honest\nvote 9 t9"), Some((2, Cause::UnknownName)));
        assert_eq!(refusal("member 1 honest\n\n#\nvote 09 t9\nx"), Some((4, Cause::BadNumber)));
        assert_eq!(refusal("member 1 honest\nshow 0 "), Some((2, Cause::BadForm)));
        assert_eq!(refusal("member 1 honest\nshow 0\n"), None);
    }
}
