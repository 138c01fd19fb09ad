//! What the published sources do otherwise than their comments and documents say, and where the
//! rules compared here take another way: lists of calls with the shard's answers, and what lists
//! cannot say, on the published types themselves.

use crate::calls;
use crate::crate_root::{Lifecycle, Weighter};
use crate::driver::Driver;
use crate::linked_slab::Token;
use crate::shard::{CacheShard, InsertStrategy, SharedPlaceholder as _};
use crate::unsync;
use std::collections::hash_map::RandomState;
use std::io::{self, Write};
use std::panic::{catch_unwind, AssertUnwindSafe};

const LISTS: &[(&str, &[&str])] = &[
    (
        "1 two ghosts of one hash: the search takes the last that the table yields",
        &[
            "hash mod 5", "new 12 6 6 0.5 0.5", "insert 12 1 3 0 -", "insert 5 2 1 0 -", "insert 1 3 1 0 -",
            "insert 10 4 1 0 -", "insert 7 5 3 0 -", "rings", "remove 15", "rings", "insert 8 6 3 0 -",
            "insert 9 7 3 0 -", "rings", "insert 20 8 1 0 -", "counts", "hash mul",
        ],
    ),
    (
        "2 set_capacity from 0 keeps the ghost bound",
        &["new 8 0 8 0.97 0.5", "counts", "set_capacity 10", "counts"],
    ),
    (
        "3 through capacity 0 the hot allocation and the ghosts are lost",
        &["new 8 8 8 0.5 0.5", "counts", "set_capacity 0", "set_capacity 8", "counts"],
    ),
    (
        "4 capacities set down and up again change the hot share and the ghost bound",
        &["new 8 100 100 0.97 0.5", "counts", "set_capacity 1", "set_capacity 100", "counts"],
    ),
    (
        "5 the capacity set to what it is lowers the target",
        &["new 8 22 8 0.7 0.5", "counts", "set_capacity 22", "counts"],
    ),
    (
        "6 an insert on a placeholder is no newly inserted resident: one read, and cold though hot has room",
        &["new 8 9 8 0.97 0.5", "insert 1 1 1 0 -", "ask 2", "insert 2 2 1 0 -", "ask 3", "fill 2 3 1 0 -", "rings"],
    ),
    (
        "7 nothing is demoted: what leaves hot leaves the cache, and leaves no ghost",
        &[
            "new 8 4 8 0.5 0.5", "insert 1 1 1 0 -", "insert 2 2 1 0 -", "insert 3 3 1 0 -", "insert 4 4 1 0 -",
            "get 3", "insert 5 5 1 0 -", "rings", "insert 1 6 1 0 -", "rings",
        ],
    ),
    (
        "8 before_evict on a value that replaces one, and on one that is then admitted",
        &["new 8 4 4 0.97 0.5", "insert 1 1 1 0 -", "insert 1 2 9 0 2", "replace 1 3 9 0 3", "insert 2 4 9 0 1", "counts"],
    ),
    (
        "9 a pinned resident is evicted by a heavy value of its key",
        &["new 8 4 4 0.97 0.5", "insert 1 1 1 1 -", "insert 1 2 9 0 -", "peek 1", "insert 1 3 1 1 -", "replace 1 4 9 0 -", "peek 1", "insert 2 5 0 0 -", "insert 2 6 9 0 -", "peek 2"],
    ),
    (
        "10 pinned residents are not ignored: they are promoted and lose their reads",
        &[
            "new 8 4 4 0.5 0.5", "insert 1 1 2 1 -", "insert 2 2 1 1 -", "get 1", "get 2", "rings",
            "insert 3 3 2 1 -", "rings",
        ],
    ),
    (
        "11 one insert makes several ghosts",
        &["new 8 6 6 0.5 0.5", "insert 1 1 3 0 -", "insert 2 2 1 0 -", "insert 3 3 1 0 -", "insert 4 4 1 0 -", "insert 5 5 3 0 -", "counts"],
    ),
    (
        "12 a heavy insert leaves a placeholder and a ghost of its key",
        &[
            "new 8 2 4 0.5 0.5", "ask 1", "insert 1 1 9 0 -", "ask 1", "fill 1 2 1 0 -", "insert 2 3 1 0 -",
            "insert 3 4 1 0 -", "counts", "insert 2 5 9 0 -", "counts",
        ],
    ),
    (
        "13 what fits the capacity is turned away where it is above the hot share",
        &["new 8 100 4 0.97 0.5", "insert 1 1 97 0 -", "insert 2 2 98 0 -", "new 8 100 4 0 0.5", "insert 1 1 2 0 -", "counts"],
    ),
    (
        "14 a replace that is refused has removed the resident",
        &["new 8 4 4 0.97 0.5", "insert 1 1 1 0 -", "replace 1 2 4 0 -", "peek 1"],
    ),
    (
        "15 to weight 0 by an edit or a replace moves the hand, removal does not",
        &[
            "new 8 4 4 1 0.5", "insert 1 1 1 0 -", "insert 2 2 1 0 -", "insert 3 3 1 0 -", "insert 4 4 1 0 -",
            "edit 3", "write 5 0 0 -", "close", "rings", "new 8 4 4 1 0.5", "insert 1 1 1 0 -",
            "insert 2 2 1 0 -", "insert 3 3 1 0 -", "insert 4 4 1 0 -", "remove 3", "rings",
        ],
    ),
    (
        "16 the capacity is exceeded: by pins, and by an edit until the next call that shrinks",
        &[
            "new 8 4 4 1 0.5", "insert 1 1 9 1 -", "counts", "remove 1", "insert 2 2 1 0 -", "edit 2",
            "write 3 9 0 -", "close", "counts", "ask 3", "fill 1 4 0 0 -", "counts", "insert 4 5 0 0 -", "counts",
            "insert 5 6 2 1 -", "set_capacity 1", "counts",
        ],
    ),
    (
        "17 the hot target is exceeded: by a ghost that comes back, by an insert judged before promotions, by a smaller capacity",
        &[
            "new 8 3 4 0.4 0.5", "insert 1 1 1 0 -", "insert 2 2 2 0 0", "insert 3 3 1 0 -", "insert 4 4 1 0 -",
            "insert 5 5 1 0 -", "counts", "insert 3 6 1 0 -", "counts", "new 8 4 4 0.5 0.5", "insert 1 1 2 0 -",
            "insert 2 2 1 0 -", "insert 3 3 1 0 -", "edit 3", "write 4 2 0 -", "close", "remove 1", "get 2",
            "insert 4 5 2 0 -", "counts", "new 8 10 4 0.7 0.5", "insert 1 1 6 0 -", "set_capacity 8", "counts",
        ],
    ),
    (
        "18 a hook for what is not evicted: the value replaced, also where it lies in no ring",
        &["new 8 4 4 0.97 0.5", "insert 1 1 1 0 -", "insert 1 2 1 0 -", "insert 2 3 0 0 -", "insert 2 4 0 0 -"],
    ),
    (
        "19 two placeholders for one key, after a removal",
        &["new 8 4 4 0.97 0.5", "ask 1", "remove 1", "ask 1", "fill 1 1 1 0 -", "fill 2 2 1 0 -"],
    ),
    (
        "20 a weight taken again outside before_evict",
        &["new 8 4 4 0.97 0.5", "insert 1 1 1 0 -", "edit 1", "write 2 3 0 -", "close", "counts"],
    ),
];

fn show_list(lines: &[&str], out: &mut impl Write) -> io::Result<()> {
    let mut driver = Driver::new();
    for line in lines {
        let mut answer = String::new();
        let parsed = calls::parse(line).expect("a call");
        driver.answer(&parsed, &mut answer);
        match answer.as_str() {
            "" => writeln!(out, "    {line}")?,
            answer => writeln!(out, "    {line:<24} => {answer}")?,
        }
    }
    Ok(())
}

/// Weighs a u64 as itself.
struct Itself;

impl Weighter<u32, u64> for Itself {
    fn weight(&self, _key: &u32, value: &u64) -> u64 {
        *value
    }
}

/// Pins everything.
struct PinAll;

impl Lifecycle<u32, u64> for PinAll {
    type RequestState = ();
    fn is_pinned(&self, _key: &u32, _value: &u64) -> bool {
        true
    }
}

type Plain = unsync::DefaultLifecycle<u32, u64>;
type UnsyncShard = CacheShard<u32, u64, Itself, RandomState, Plain, unsync::SharedPlaceholder>;

fn ticket(shard: &mut UnsyncShard, key: u32) -> unsync::SharedPlaceholder {
    let hash = shard.hash(&key);
    match shard.get_or_placeholder(hash, &key) {
        Err((ticket, _)) => ticket,
        Ok(_) => panic!("{key} is resident"),
    }
}

/// A ticket of unsync.rs fills whatever placeholder stands in its slot.
fn any_ticket_will_do(out: &mut impl Write) -> io::Result<()> {
    let mut shard = UnsyncShard::new(0.97, 0.5, 8, 8, Itself, RandomState::new(), Plain::default());
    let one = ticket(&mut shard, 1);
    let hash = shard.hash(&1);
    shard.remove(hash, &1);
    let two = ticket(&mut shard, 2);
    writeln!(
        out,
        "    ask 1, remove 1, ask 2: same_as of the two tickets is {}",
        one.same_as(&two)
    )?;
    let filled = shard.replace_placeholder(&mut (), &one, false, 7).is_ok();
    let hash = shard.hash(&2);
    writeln!(
        out,
        "    fill the ticket of key 1 with 7: taken is {filled}, key 2 holds {:?}",
        shard.peek(hash, &2)
    )
}

/// The closure's error leaves the placeholder for ever.
fn failed_loads_stay(out: &mut impl Write) -> io::Result<()> {
    let mut cache: unsync::Cache<u32, u64> = unsync::Cache::new(4);
    for key in 0..1000 {
        let loaded: Result<Option<&u64>, ()> = cache.get_or_insert_with(&key, || Err(()));
        assert!(loaded.is_err());
    }
    let one = {
        let mut cache: unsync::Cache<u32, u64> = unsync::Cache::new(4);
        cache.insert(1, 1);
        cache.memory_used().entries
    };
    let entries = cache.memory_used().entries / one;
    writeln!(
        out,
        "    Cache::new(4), 1000 keys whose closure answers Err: len() is {}, entries held {entries}",
        cache.len()
    )
}

/// Sums of weights overflow.
fn weights_overflow(out: &mut impl Write) -> io::Result<()> {
    let shown = std::panic::take_hook();
    std::panic::set_hook(Box::new(|_| ()));
    let ended = catch_unwind(AssertUnwindSafe(|| {
        type Shard = CacheShard<u32, u64, Itself, RandomState, PinAll, unsync::SharedPlaceholder>;
        let mut shard = Shard::new(1.0, 0.5, 8, u64::MAX, Itself, RandomState::new(), PinAll);
        for key in [1, 2] {
            let hash = shard.hash(&key);
            let _ = shard.insert(&mut (), hash, key, 1 << 63, InsertStrategy::Insert);
        }
        shard.weight()
    }));
    std::panic::set_hook(shown);
    match ended {
        Ok(weight) => writeln!(out, "    two residents of weight 2^63: weight() is {weight}"),
        Err(_) => writeln!(
            out,
            "    two residents of weight 2^63, overflow checks on: panics; without them the sum wraps to 0"
        ),
    }
}

pub fn show(mut out: impl Write) -> io::Result<()> {
    for (title, lines) in LISTS {
        writeln!(out, "{title}")?;
        show_list(lines, &mut out)?;
    }
    writeln!(out, "21 same_as of unsync.rs")?;
    any_ticket_will_do(&mut out)?;
    writeln!(out, "22 a failed load in unsync.rs")?;
    failed_loads_stay(&mut out)?;
    writeln!(out, "23 sums of weights")?;
    weights_overflow(&mut out)?;
    out.flush()
}
