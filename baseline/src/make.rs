//! The schedule that `make` runs.

use std::fmt::Write;

/// The schedule of so many transactions, the last member running them by so many workers.
pub fn text(number: u32, workers: u32) -> String {
    let mut out = String::new();
    write_text(number, workers, &mut out).expect("a string takes all text");
    out
}

fn write_text(number: u32, workers: u32, out: &mut String) -> std::fmt::Result {
    out.push_str(&"member 1 honest\n".repeat(4));
    for k in 0..number {
        writeln!(out, "coin g{k} u{} 1000000", u32::from(k % 4 == 1))?;
    }
    out.push_str("counter c0 0\n");
    for k in 0..number {
        write_transaction(k, out)?;
    }
    for k in 0..number {
        writeln!(out, "order t{k}")?;
        if (k + 1) % 64 == 0 {
            out.push_str("order commit\n");
        }
    }
    writeln!(out, "see 3 65535\nrun 3 {workers}")?;
    (0..3).try_for_each(|m| writeln!(out, "see {m} 65535\nrun {m} 1"))?;
    (0..3).try_for_each(|m| writeln!(out, "close {m}\nend {m}\norder end {m}"))?;
    (0..4).try_for_each(|m| writeln!(out, "see {m} 3\nturn {m}"))?;
    out.push_str("show 0\n");
    Ok(())
}

fn write_transaction(k: u32, out: &mut String) -> std::fmt::Result {
    write!(out, "tx t{k} u{} 0 g{k}@1 2000 ", u32::from(k % 4 == 1))?;
    match k % 4 {
        0 => writeln!(out, "n:5 a:u1 split(gas,i0) transfer(r0,i1)")?,
        1 => writeln!(out, "o:t{}.0@2 a:u0 transfer(i0,i1)", k - 1)?,
        2 => writeln!(out, "n:1 s:c0@1 counter_add(i1,i0)")?,
        _ => writeln!(out, "n:0 r:c0@1 counter_require(i1,i0)")?,
    }
    (0..3).try_for_each(|m| writeln!(out, "vote {m} t{k}"))?;
    writeln!(out, "cert t{k} 0 1 2")?;
    if k.is_multiple_of(4) {
        (0..3).try_for_each(|m| writeln!(out, "send {m} t{k}\nrun {m} 1"))?;
    }
    Ok(())
}
