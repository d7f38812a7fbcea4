//! The natives, which stand in for code that is published.

use crate::block::{Block, Cause, Halt, Item, Mode, Source, Value};
use crate::types::{Argument, Content, Kind, Owner};

use Mode::{ByMut, ByRef, ByValue, Coins, Number};

/// The names of the natives, by their numbers.
pub const NAMES: [&str; 14] = [
    "coin_zero",
    "coin_mint",
    "coin_burn",
    "coin_join_all",
    "counter_new",
    "counter_add",
    "counter_require",
    "vault_new",
    "vault_deposit",
    "vault_withdraw",
    "share",
    "freeze",
    "limit_new",
    "counter_add_limited",
];

const PARAMETERS: [&[Mode]; 14] = [
    &[Number],
    &[ByMut(Kind::Cap), Number],
    &[ByMut(Kind::Cap), ByValue(Some(Kind::Coin))],
    &[Coins],
    &[Number],
    &[ByMut(Kind::Counter), Number],
    &[ByRef(Kind::Counter), Number],
    &[Number],
    &[ByMut(Kind::Vault), ByValue(Some(Kind::Coin))],
    &[ByMut(Kind::Vault), ByRef(Kind::VaultKey), Number],
    &[ByValue(None)],
    &[ByValue(None)],
    &[Number],
    &[ByMut(Kind::Counter), Number, ByRef(Kind::Limit)],
];

/// Calls a native of a block.
pub fn call(block: &mut Block, native: u8, args: &[Argument]) -> Result<(), Halt> {
    let parameters = PARAMETERS[usize::from(native)];
    if args.len() != parameters.len() {
        return Err(Cause::ArgCount.into());
    }
    let mut places = [0; 3];
    for ((place, &argument), &mode) in places.iter_mut().zip(args).zip(parameters) {
        *place = block.check(argument, mode)?;
    }
    let [first, second, third] = places;
    match native {
        0 => create(block, |currency| Content::Coin { currency, balance: 0 }, first),
        1 => coin_mint(block, first, second),
        2 => coin_burn(block, first, second),
        3 => coin_join_all(block, first),
        4 => create(block, |value| Content::Counter { value }, first),
        5 => counter_add(block, first, second, None),
        6 => counter_require(block, first, second),
        7 => vault_new(block, first),
        8 => vault_deposit(block, first, second),
        9 => vault_withdraw(block, first, second, third),
        10 => share(block, first),
        11 => freeze(block, first),
        12 => create(block, |value| Content::Limit { value }, first),
        _ => counter_add(block, first, second, Some(third)),
    }
}

/// Aborts with this code unless the condition holds.
fn require(code: u8, holds: bool) -> Result<(), Halt> {
    if holds {
        Ok(())
    } else {
        Err(Halt::Aborted(code))
    }
}

fn sum(code: u8, one: u64, other: u64) -> Result<u64, Halt> {
    one.checked_add(other).ok_or(Halt::Aborted(code))
}

fn create(block: &mut Block, content: impl Fn(u64) -> Content, number: usize) -> Result<(), Halt> {
    block.create(content(block.number(number)));
    Ok(())
}

fn cap(block: &Block, place: usize) -> (u64, u64) {
    match block.item(place).content {
        Content::Cap { currency, supply } => (currency, supply),
        _ => unreachable!("checked to be a cap"),
    }
}

fn coin_mint(block: &mut Block, place: usize, amount: usize) -> Result<(), Halt> {
    let (currency, supply) = cap(block, place);
    let balance = block.number(amount);
    let supply = sum(1, supply, balance)?;
    *block.content(place) = Content::Cap { currency, supply };
    block.create(Content::Coin { currency, balance });
    Ok(())
}

fn coin_burn(block: &mut Block, place: usize, coin: usize) -> Result<(), Halt> {
    let (currency, supply) = cap(block, place);
    let (burnt, balance) = block.coin(coin);
    require(1, currency == burnt)?;
    require(2, supply >= balance)?;
    *block.content(place) = Content::Cap { currency, supply: supply - balance };
    block.take(coin);
    Ok(())
}

fn coin_join_all(block: &mut Block, place: usize) -> Result<(), Halt> {
    let Value::Items(_, coins) = block.take(place) else { unreachable!("checked to be a vector") };
    let parts = |coin: &Item| match coin.content {
        Content::Coin { currency, balance } => (currency, balance),
        _ => unreachable!("a vector of coins"),
    };
    let currency = coins.first().map(|coin| parts(coin).0).ok_or(Halt::Aborted(1))?;
    require(2, coins.iter().all(|coin| parts(coin).0 == currency))?;
    let total: u128 = coins.iter().map(|coin| u128::from(parts(coin).1)).sum();
    let balance = u64::try_from(total).map_err(|_| Halt::Aborted(3))?;
    let first = coins.into_iter().next().expect("not empty");
    block.push_result(Value::Item(Item { content: Content::Coin { currency, balance }, ..first }));
    Ok(())
}

fn counter(block: &Block, place: usize) -> u64 {
    match block.item(place).content {
        Content::Counter { value } => value,
        _ => unreachable!("checked to be a counter"),
    }
}

fn counter_add(block: &mut Block, place: usize, amount: usize, limit: Option<usize>) -> Result<(), Halt> {
    let value = sum(1, counter(block, place), block.number(amount))?;
    if let Some(Content::Limit { value: limit }) = limit.map(|place| block.item(place).content) {
        require(2, value <= limit)?;
    }
    *block.content(place) = Content::Counter { value };
    Ok(())
}

fn counter_require(block: &mut Block, place: usize, least: usize) -> Result<(), Halt> {
    require(1, counter(block, place) >= block.number(least))
}

fn vault(block: &Block, place: usize) -> (u64, u64) {
    match block.item(place).content {
        Content::Vault { currency, balance } => (currency, balance),
        _ => unreachable!("checked to be a vault"),
    }
}

fn vault_new(block: &mut Block, currency: usize) -> Result<(), Halt> {
    let currency = block.number(currency);
    let vault = block.create(Content::Vault { currency, balance: 0 });
    block.create(Content::VaultKey { vault });
    Ok(())
}

fn vault_deposit(block: &mut Block, place: usize, coin: usize) -> Result<(), Halt> {
    let (currency, balance) = vault(block, place);
    let (given, amount) = block.coin(coin);
    require(1, currency == given)?;
    let balance = sum(2, balance, amount)?;
    *block.content(place) = Content::Vault { currency, balance };
    block.take(coin);
    Ok(())
}

fn vault_withdraw(block: &mut Block, place: usize, key: usize, amount: usize) -> Result<(), Halt> {
    let (currency, balance) = vault(block, place);
    let vault = block.item(place).id;
    require(1, block.item(key).content == Content::VaultKey { vault })?;
    let amount = block.number(amount);
    require(2, balance >= amount)?;
    *block.content(place) = Content::Vault { currency, balance: balance - amount };
    block.create(Content::Coin { currency, balance: amount });
    Ok(())
}

fn share(block: &mut Block, place: usize) -> Result<(), Halt> {
    let item = block.item(place);
    require(1, matches!(item.from, Source::Fresh(_)))?;
    require(2, matches!(item.content, Content::Counter { .. } | Content::Vault { .. }))?;
    let item = block.take_item(place);
    block.place(item, Owner::Shared(block.version));
    Ok(())
}

fn freeze(block: &mut Block, place: usize) -> Result<(), Halt> {
    let item = block.take_item(place);
    block.place(item, Owner::Immutable);
    Ok(())
}
