//! Runs lists of calls on the shard of quick_cache 0.7.0, compiled as it is published from the
//! folder in the environment variable QUICK_CACHE_SRC, and makes such lists.
#![feature(rustc_private)]
#![allow(dead_code, unexpected_cfgs, unused_imports, clippy::all)]

extern crate hashbrown;

mod linked_slab {
    include!(concat!(env!("QUICK_CACHE_SRC"), "/linked_slab.rs"));
}
mod options {
    include!(concat!(env!("QUICK_CACHE_SRC"), "/options.rs"));
}
mod shard {
    include!(concat!(env!("QUICK_CACHE_SRC"), "/shard.rs"));
    include!("window.rs");
}
mod unsync {
    include!(concat!(env!("QUICK_CACHE_SRC"), "/unsync.rs"));
}

mod calls;
mod crate_root;
mod differences;
mod driver;
mod exhaust;
mod generate;
mod random;

use crate_root::{shim, DefaultHashBuilder, Equivalent, Lifecycle, MemoryUsed, UnitWeighter, Weighter};
use driver::Driver;
use std::io::{self, BufRead, BufWriter, Write};

const USAGE: &str = "usage:
  oracle run [--check]                 run the calls on standard input, print a line for each
  oracle generate SEED CALLS [--stage1] [--rings]
                                       print a random list of about CALLS calls
  oracle settings SEED CALLS [--stage1] [--long]
                                       print a list about targets and ghost bounds
  oracle exhaust WHICH DEPTH [--stage1] [--rings]
                                       print every list of DEPTH calls of the small world WHICH
  oracle differences                   show what the published sources do otherwise than they say";

fn main() {
    let arguments: Vec<String> = std::env::args().skip(1).collect();
    let flag = |name: &str| arguments.iter().any(|a| a == name);
    let plain: Vec<&str> = arguments
        .iter()
        .map(String::as_str)
        .filter(|a| !a.starts_with("--"))
        .collect();
    let number = |at: usize| -> u64 {
        match plain.get(at).and_then(|a| a.parse().ok()) {
            Some(n) => n,
            None => usage(),
        }
    };
    let out = BufWriter::with_capacity(1 << 16, io::stdout().lock());
    let ended = match plain.first() {
        Some(&"run") => run(flag("--check"), out),
        Some(&"generate") => {
            generate::random_list(number(1), number(2), flag("--stage1"), flag("--rings"), out)
        }
        Some(&"settings") => {
            generate::settings_list(number(1), number(2), flag("--stage1"), flag("--long"), out)
        }
        Some(&"exhaust") => exhaust::every_list(
            number(1) as usize,
            number(2) as usize,
            flag("--stage1"),
            flag("--rings"),
            out,
        ),
        Some(&"differences") => differences::show(out),
        _ => usage(),
    };
    if let Err(error) = ended {
        if error.kind() != io::ErrorKind::BrokenPipe {
            eprintln!("oracle: {error}");
            std::process::exit(1);
        }
    }
}

fn usage() -> ! {
    eprintln!("{USAGE}");
    std::process::exit(2);
}

/// Runs the calls on standard input. With `check` the shard's own validation and a recount run
/// after each call. Ends with status 3 where a call met two ghosts of one hash.
fn run(check: bool, mut out: impl Write) -> io::Result<()> {
    let mut driver = Driver::new();
    let mut answer = String::new();
    let mut outside = 0u64;
    let mut first_outside = 0u64;
    for (number, line) in io::stdin().lock().lines().enumerate() {
        let line = line?;
        let Some(parsed) = calls::parse(&line) else {
            continue;
        };
        if let Ok(call) = &parsed {
            if driver.meets_two_ghosts(call) {
                outside += 1;
                if first_outside == 0 {
                    first_outside = number as u64 + 1;
                }
            }
        }
        answer.clear();
        driver.answer(&parsed, &mut answer);
        if check {
            driver.check();
        }
        if !answer.is_empty() {
            answer.push('\n');
            out.write_all(answer.as_bytes())?;
        }
    }
    out.flush()?;
    if outside > 0 {
        eprintln!("oracle: {outside} calls met two ghosts of one hash, first in line {first_outside}");
        std::process::exit(3);
    }
    Ok(())
}
