//! The faults of a transaction by itself.

use crate::natives::NAMES;
use crate::types::{Argument, Command, Input, Transaction};

const MAX_BYTES: usize = 131_072;
const MAX_COMMANDS: usize = 1024;
const MAX_INPUTS: usize = 256;
const MAX_ARGUMENTS: usize = 512;
const MAX_VERSION: u64 = (1 << 62) - 2;

/// The least number of a fault that the transaction has, which is spelled in so many bytes.
pub fn fault_of(tx: &Transaction, bytes: usize) -> Option<u8> {
    let faults: [(u8, &dyn Fn() -> bool); 12] = [
        (1, &|| bytes > MAX_BYTES),
        (2, &|| tx.commands.is_empty()),
        (3, &|| tx.commands.len() > MAX_COMMANDS),
        (4, &|| tx.inputs.len() > MAX_INPUTS),
        (5, &|| names_an_object_twice(tx)),
        (6, &|| arguments(tx).any(|(_, it)| matches!(it, Argument::Input(n) if usize::from(n) >= tx.inputs.len()))),
        (7, &|| arguments(tx).any(|(command, it)| is_not_earlier(it, command))),
        (8, &|| tx.commands.iter().any(lacks_operands)),
        (9, &|| tx.commands.iter().any(|it| matches!(it, Command::Call { native, .. } if usize::from(*native) >= NAMES.len()))),
        (10, &|| tx.budget < tx.cost()),
        (11, &|| tx.objects().any(|object| !(1..=MAX_VERSION).contains(&object.key().version))),
        (12, &|| tx.commands.iter().any(|it| argument_count(it) > MAX_ARGUMENTS)),
    ];
    faults.iter().find(|(_, holds)| holds()).map(|(number, _)| *number)
}

fn names_an_object_twice(tx: &Transaction) -> bool {
    if tx.inputs.iter().all(|input| matches!(input, Input::Pure(_))) {
        return false;
    }
    let mut ids: Vec<_> = tx.objects().map(|object| object.id()).collect();
    ids.sort_unstable();
    ids.windows(2).any(|pair| pair[0] == pair[1])
}

/// All arguments, each with the number of its command.
fn arguments(tx: &Transaction) -> impl Iterator<Item = (usize, Argument)> + '_ {
    tx.commands.iter().enumerate().flat_map(|(number, command)| {
        let (list, beside) = command.parts();
        list.iter().copied().chain(beside).map(move |argument| (number, argument))
    })
}

fn is_not_earlier(argument: Argument, command: usize) -> bool {
    match argument {
        Argument::Result(named) | Argument::Nested { command: named, .. } => usize::from(named) >= command,
        _ => false,
    }
}

fn lacks_operands(command: &Command) -> bool {
    let needs_some = matches!(command, Command::Split { .. } | Command::Merge { .. } | Command::Transfer { .. });
    needs_some && command.parts().0.is_empty()
}

fn argument_count(command: &Command) -> usize {
    let (list, beside) = command.parts();
    list.len() + beside.iter().len()
}
