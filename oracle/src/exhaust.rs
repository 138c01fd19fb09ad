//! Every list of a given number of calls, in small worlds chosen so that each rule is met.

use crate::calls;
use crate::driver::Driver;
use std::io::{self, Write};

struct Small {
    /// The lines before the calls, which begin a cache.
    before: &'static [&'static str],
    /// The calls to choose from at each step; `;` parts the lines of one, `@` is the step's number.
    calls: &'static [&'static str],
}

const STAGE1: &[Small] = &[
    // Both hands, ghosts and their bound.
    Small {
        before: &["hash mul", "new 4 3 2 0.7 1"],
        calls: &[
            "insert 1 @ 1 0 -",
            "insert 2 @ 1 0 -",
            "insert 3 @ 1 0 -",
            "insert 4 @ 1 0 -",
            "get 1",
            "get 2",
            "get 3",
            "remove 2",
        ],
    },
    // Weight 0, trims, a record above the target.
    Small {
        before: &[
            "hash mul",
            "new 4 3 4 0.7 0.5",
            "insert 1 100 1 0 -",
            "insert 2 101 1 0 -",
        ],
        calls: &[
            "insert 1 @ 0 0 -",
            "insert 1 @ 2 0 -",
            "insert 2 @ 1 0 0",
            "insert 3 @ 1 0 0",
            "insert 3 @ 3 0 1",
            "insert 4 @ 9 0 -",
            "insert 4 @ 1 0 2",
            "get 2",
            "get 3",
        ],
    },
    // Pins in both rings.
    Small {
        before: &["hash mul", "new 5 3 4 0.7 0.5"],
        calls: &[
            "insert 1 @ 1 1 -",
            "insert 2 @ 1 1 -",
            "insert 3 @ 1 0 -",
            "insert 4 @ 2 1 -",
            "insert 4 @ 1 0 0p",
            "insert 1 @ 1 0 -",
            "get 1",
            "get 3",
            "remove 1",
        ],
    },
    // Keys of one hash, one ghost at most.
    Small {
        before: &["hash mod 1", "new 4 3 2 0.4 0.5"],
        calls: &[
            "insert 1 @ 1 0 -",
            "insert 2 @ 1 0 -",
            "insert 3 @ 1 0 -",
            "insert 4 @ 2 0 -",
            "get 1",
            "get 2",
            "remove 1",
            "remove 4",
        ],
    },
    // Few slots, several ghosts.
    Small {
        before: &[
            "hash mod 2",
            "new 3 4 4 0.3 1",
            "insert 1 100 1 0 -",
            "insert 2 101 2 0 -",
        ],
        calls: &[
            "insert 1 @ 1 0 -",
            "insert 2 @ 2 0 -",
            "insert 3 @ 1 0 -",
            "insert 4 @ 2 0 1",
            "insert 5 @ 1 1 -",
            "get 2",
            "get 3",
            "remove 3",
        ],
    },
    // Weigher and lifecycle change between calls.
    Small {
        before: &["hash mul", "weigher data", "lifecycle data", "new 5 4 4 0.8 0.5"],
        calls: &[
            "insert 1 @ 1 0 -",
            "insert 2 @ 1 1 -",
            "insert 3 @ 1 0 0",
            "insert 5 @ 0 0 -",
            "weigher keyed",
            "weigher data",
            "lifecycle plain",
            "lifecycle hold 1",
            "get 1",
        ],
    },
];

const ALL: &[Small] = &[
    // Tickets, with inserts and removals between.
    Small {
        before: &[
            "hash mul",
            "new 4 3 4 0.7 0.5",
            "insert 1 100 1 0 -",
            "insert 2 101 1 0 -",
        ],
        calls: &[
            "ask 3",
            "ask 4",
            "fill 1 @ 1 0 -",
            "fill 2 @ 2 0 -",
            "fill 1 @ 5 0 1",
            "giveup 1",
            "remove 3",
            "insert 3 @ 1 0 -",
            "replace 3 @ 1 0 -",
        ],
    },
    // Ghosts asked for.
    Small {
        before: &[
            "hash mul",
            "new 4 2 4 0.5 0.5",
            "insert 1 100 1 0 -",
            "insert 2 101 1 0 -",
            "insert 3 102 1 0 -",
        ],
        calls: &[
            "ask 2",
            "ask 3",
            "fill 1 @ 1 0 -",
            "fill 1 @ 0 0 -",
            "fill 2 @ 1 1 -",
            "insert 2 @ 1 0 -",
            "insert 4 @ 1 0 -",
            "get 3",
            "giveup 2",
        ],
    },
    // Edits, and replaces of every weight.
    Small {
        before: &[
            "hash mul",
            "new 5 3 4 0.7 0.5",
            "insert 1 100 1 0 -",
            "insert 2 101 1 0 -",
            "insert 3 102 1 0 -",
        ],
        calls: &[
            "edit 2;write @ 0 0 -;close",
            "edit 2;write @ 3 0 -;close",
            "edit 1;read;write @ 2 1 0;close",
            "edit 9;write @ 1 0 -;close",
            "replace 1 @ 0 0 -",
            "replace 2 @ 2 0 -",
            "replace_soft 3 @ 5 0 -",
            "replace_soft 3 @ 1 0 0",
            "insert 4 @ 1 0 -",
        ],
    },
    // Capacities set.
    Small {
        before: &[
            "hash mul",
            "new 6 4 4 0.7 1",
            "insert 1 100 1 0 -",
            "insert 2 101 1 0 -",
            "insert 3 102 1 0 -",
            "insert 4 103 1 0 -",
        ],
        calls: &[
            "set_capacity 0",
            "set_capacity 1",
            "set_capacity 3",
            "set_capacity 10",
            "insert 5 @ 1 0 -",
            "insert 1 @ 2 0 0",
            "get 4",
            "insert 3 @ 1 1 -",
            "counts",
        ],
    },
];

/// Whether every line of the list stays where the two are compared.
fn within(lines: &[String]) -> bool {
    let mut driver = Driver::new();
    let mut answer = String::new();
    for line in lines {
        if let Some(parsed) = calls::parse(line) {
            if parsed.as_ref().is_ok_and(|call| driver.meets_two_ghosts(call)) {
                return false;
            }
            answer.clear();
            driver.answer(&parsed, &mut answer);
        }
    }
    true
}

pub fn every_list(
    which: usize,
    depth: usize,
    stage1: bool,
    rings: bool,
    mut out: impl Write,
) -> io::Result<()> {
    let worlds = if stage1 { STAGE1 } else { ALL };
    let Some(small) = worlds.get(which) else {
        return Err(io::Error::other(format!(
            "there are {} small worlds",
            worlds.len()
        )));
    };
    let mut chosen = vec![0usize; depth];
    loop {
        let mut lines: Vec<String> = small.before.iter().map(|l| l.to_string()).collect();
        for (step, &at) in chosen.iter().enumerate() {
            let number = (step + 1).to_string();
            for line in small.calls[at].split(';') {
                lines.push(line.replace('@', &number));
            }
            if rings {
                lines.push("rings".to_string());
            }
        }
        lines.push("counts".to_string());
        if within(&lines) {
            for line in &lines {
                writeln!(out, "{line}")?;
            }
        }
        let Some(at) = chosen.iter().rposition(|&at| at + 1 < small.calls.len()) else {
            return out.flush();
        };
        chosen[at] += 1;
        chosen[at + 1..].fill(0);
    }
}
