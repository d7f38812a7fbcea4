//! A committee of validators, run from a schedule. `baseline run` reads one from standard input and writes its report;
//! `baseline make N` makes one of N transactions, runs it, and writes one line that sums it up.

mod admission;
mod block;
mod codec;
mod digest;
mod held;
mod journal;
mod make;
mod member;
mod messages;
mod names;
mod natives;
mod pool;
mod quorum;
mod report;
mod schedule;
mod sha256;
mod shape;
mod store;
mod types;
mod world;

use std::io::{self, BufWriter, Read, Write};
use std::process::ExitCode;
use world::World;

/// How a run ends that did not do all that it was asked; the numbers are the statuses.
#[derive(Clone, Copy)]
enum Ended {
    WrongWords = 2,
    Refused = 3,
    ReadFault = 4,
    WriteFault = 5,
    KeepFault = 6,
}

const MAKE_WORKERS: u32 = 4;

fn main() -> ExitCode {
    let words: Vec<String> = std::env::args().skip(1).collect();
    let words: Vec<&str> = words.iter().map(String::as_str).collect();
    let ended = match words[..] {
        ["run"] => run(),
        ["make", number] => made_number(number).ok_or(Ended::WrongWords).and_then(make),
        _ => Err(Ended::WrongWords),
    };
    let Err(ended) = ended else { return ExitCode::SUCCESS };
    match ended {
        Ended::WrongWords => eprintln!("usage: baseline run | baseline make N"),
        Ended::Refused => {}
        Ended::ReadFault => eprintln!("read fault"),
        Ended::WriteFault => eprintln!("write fault"),
        Ended::KeepFault => eprintln!("keep fault"),
    }
    ExitCode::from(ended as u8)
}

/// A number from 1 to 10000, as it is written in a schedule.
fn made_number(word: &str) -> Option<u32> {
    let is_number = word.bytes().all(|byte| byte.is_ascii_digit()) && !word.starts_with('0');
    word.parse().ok().filter(|number| is_number && (1..=10_000).contains(number))
}

fn run() -> Result<(), Ended> {
    let mut bytes = Vec::new();
    let limit = schedule::MAX_BYTES as u64 + 1;
    io::stdin().take(limit).read_to_end(&mut bytes).map_err(|_| Ended::ReadFault)?;
    let mut out = BufWriter::with_capacity(1 << 16, io::stdout().lock());
    let ended = write_report(&bytes, &mut out);
    out.flush().map_err(|_| Ended::WriteFault)?;
    ended
}

/// Writes the report of a schedule, event by event.
fn write_report(bytes: &[u8], out: &mut impl Write) -> Result<(), Ended> {
    let mut put = |text: &str| out.write_all(text.as_bytes()).map_err(|_| Ended::WriteFault);
    let schedule = match schedule::read(bytes) {
        Ok(schedule) => schedule,
        Err(refused) => {
            put(&format!("refused line {} cause {}\n", refused.line, refused.cause as u8))?;
            return Err(Ended::Refused);
        }
    };
    let mut world = World::new(&schedule);
    let mut lines = String::new();
    for event in &schedule.events {
        lines.clear();
        let stepped = world.step(event, &mut lines);
        put(&lines)?;
        stepped.map_err(|_| Ended::KeepFault)?;
    }
    Ok(())
}

fn make(number: u32) -> Result<(), Ended> {
    let text = make::text(number, MAKE_WORKERS);
    let schedule = schedule::read(text.as_bytes()).map_err(|_| Ended::Refused)?;
    let mut world = World::new(&schedule);
    let mut lines = String::new();
    for event in &schedule.events {
        lines.clear();
        world.step(event, &mut lines).map_err(|_| Ended::KeepFault)?;
    }
    let sums = world.sums(0).ok_or(Ended::KeepFault)?;
    let line = format!(
        "make {number}: transactions {} checkpoints {} objects {} sum {}\n",
        sums.transactions, sums.checkpoints, sums.objects, sums.sum
    );
    let mut out = io::stdout().lock();
    out.write_all(line.as_bytes()).and_then(|()| out.flush()).map_err(|_| Ended::WriteFault)
}
