//! One cache at a time, over the published shard, driven call by call.
//!
//! The shard grows without limit, numbers no tickets and refuses nothing but a replace. The slots,
//! the ticket numbers and the refusals are decided here, above it.

use crate::calls::{Call, Hashing, Life, Record, Unreadable, Weighing};
use crate::crate_root::{Lifecycle, Weighter};
use crate::linked_slab::Token;
use crate::shard::{CacheShard, InsertStrategy, Met, RefMut, Seen, SharedPlaceholder};
use std::cell::Cell;
use std::collections::HashMap;
use std::fmt::Write;
use std::hash::{BuildHasher, Hasher};
use std::rc::Rc;

/// No more slots than this are used, however many there are.
const MOST_SLOTS: u32 = 1_048_576;
const MOST_ITEMS: u64 = 1_048_576;
const MOST_CAPACITY: u64 = 1 << 53;

/// The weigher and the lifecycle of the calls to come. The shard keeps one of each for good; these
/// look here.
struct Modes {
    weighing: Cell<Weighing>,
    life: Cell<Life>,
}

/// A record with its weight last taken. The shard weighs a record anew wherever it needs the
/// weight; it is answered the weight last taken until the record is trimmed or an edit of it
/// closes, so that the weigher may change between calls.
pub struct Value {
    pub record: Record,
    taken: Cell<Option<u64>>,
}

impl Value {
    fn new(record: Record) -> Value {
        Value {
            record,
            taken: Cell::new(None),
        }
    }
}

struct Weigher(Rc<Modes>);

fn fresh_weight(weighing: Weighing, key: u32, record: &Record) -> u64 {
    match weighing {
        Weighing::Data => record.weight as u64,
        Weighing::Keyed => (record.weight as u64 + key as u64 % 3).min(u32::MAX as u64),
    }
}

impl Weighter<u32, Value> for Weigher {
    fn weight(&self, key: &u32, value: &Value) -> u64 {
        if let Some(weight) = value.taken.get() {
            return weight;
        }
        let weight = fresh_weight(self.0.weighing.get(), *key, &value.record);
        value.taken.set(Some(weight));
        weight
    }
}

pub enum Event {
    Trim(u32, Record, Record),
    Hot(u32, Record),
    Cold(u32, Record),
}

struct Hooks(Rc<Modes>);

impl Lifecycle<u32, Value> for Hooks {
    type RequestState = Vec<Event>;

    fn is_pinned(&self, key: &u32, value: &Value) -> bool {
        match self.0.life.get() {
            Life::Data => value.record.pinned,
            Life::Plain => false,
            Life::Hold(held) => value.record.pinned || *key == held,
        }
    }

    fn before_evict(&self, events: &mut Vec<Event>, key: &u32, value: &mut Value) {
        let before = value.record;
        if self.0.life.get() != Life::Plain {
            if let Some(after) = before.trim {
                value.record.weight = after.weight;
                value.record.pinned = after.pinned;
            }
        }
        value.taken.set(None);
        events.push(Event::Trim(*key, before, value.record));
    }

    fn on_evict_hot(&self, events: &mut Vec<Event>, key: u32, value: Value) {
        events.push(Event::Hot(key, value.record));
    }

    fn on_evict_cold(&self, events: &mut Vec<Event>, key: u32, value: Value) {
        events.push(Event::Cold(key, value.record));
    }
}

#[derive(Copy, Clone)]
struct HashKeys(Hashing);

struct KeyHasher(Hashing, u64);

impl Hasher for KeyHasher {
    fn write(&mut self, _bytes: &[u8]) {
        panic!("a key is one u32");
    }
    fn write_u32(&mut self, key: u32) {
        self.1 = match self.0 {
            Hashing::Multiply => (key as u64).wrapping_mul(0x9E37_79B9_7F4A_7C15),
            Hashing::Modulo(n) => (key % n) as u64,
        };
    }
    fn finish(&self) -> u64 {
        self.1
    }
}

impl BuildHasher for HashKeys {
    type Hasher = KeyHasher;
    fn build_hasher(&self) -> KeyHasher {
        KeyHasher(self.0, 0)
    }
}

thread_local! {
    /// The number of the next ticket of the one cache that stands; 0 where they are used up.
    static NEXT_TICKET: Cell<u64> = const { Cell::new(1) };
}

/// A ticket. Its number alone decides whether a placeholder is its own.
#[derive(Clone)]
pub struct Ticket {
    number: u64,
    hash: u64,
    idx: Token,
}

impl SharedPlaceholder for Ticket {
    fn new(hash: u64, idx: Token) -> Ticket {
        let number = NEXT_TICKET.get();
        NEXT_TICKET.set(number.wrapping_add(1));
        Ticket { number, hash, idx }
    }
    fn same_as(&self, other: &Ticket) -> bool {
        self.number == other.number
    }
    fn hash(&self) -> u64 {
        self.hash
    }
    fn idx(&self) -> Token {
        self.idx
    }
}

type Shard = CacheShard<u32, Value, Weigher, HashKeys, Hooks, Ticket>;
type OpenEdit = RefMut<'static, u32, Value, Weigher, HashKeys, Hooks, Ticket>;

enum Edit {
    OnNothing,
    On(OpenEdit),
}

struct Cache {
    /// Owned; a raw pointer, since an open edit points into the shard too.
    shard: *mut Shard,
    slots: usize,
    open_tickets: HashMap<u64, Ticket>,
    edit: Option<Edit>,
    first_weighing: Weighing,
    one_weigher: bool,
}

impl Drop for Cache {
    fn drop(&mut self) {
        self.edit = None;
        // SAFETY: made by Box::into_raw, and the edit that pointed into it is gone.
        drop(unsafe { Box::from_raw(self.shard) });
    }
}

pub struct Driver {
    modes: Rc<Modes>,
    hashing: Hashing,
    cache: Option<Cache>,
}

fn write_events(events: &[Event], out: &mut String) {
    for event in events {
        let written = match event {
            Event::Trim(key, before, after) => write!(out, " | trim {key} {before} {after}"),
            Event::Hot(key, record) => write!(out, " | hot {key} {record}"),
            Event::Cold(key, record) => write!(out, " | cold {key} {record}"),
        };
        written.unwrap();
    }
}

macro_rules! say {
    ($out:expr, $($text:tt)*) => { write!($out, $($text)*).unwrap() };
}

impl Cache {
    fn shard(&self) -> &Shard {
        // SAFETY: owned by self.
        unsafe { &*self.shard }
    }

    fn shard_mut(&mut self) -> &mut Shard {
        // SAFETY: owned by self.
        unsafe { &mut *self.shard }
    }

    fn full(&self) -> bool {
        self.shard().used() >= self.slots
    }

    fn insert(&mut self, key: u32, record: Record, out: &mut String) {
        if self.full() && self.shard().meets(&key) == Met::Nothing {
            return say!(out, "refused 4 {record}");
        }
        let mut events = Vec::new();
        let shard = self.shard_mut();
        let hash = shard.hash(&key);
        let taken = shard.insert(&mut events, hash, key, Value::new(record), InsertStrategy::Insert);
        assert!(taken.is_ok(), "an insert was refused");
        out.push_str("ok");
        write_events(&events, out);
    }

    /// The shard answers both refusals alike: it was for the weight exactly if the record was
    /// trimmed and is above the target still.
    fn replace(&mut self, key: u32, record: Record, soft: bool, out: &mut String) {
        let mut events = Vec::new();
        let shard = self.shard_mut();
        let hash = shard.hash(&key);
        let strategy = InsertStrategy::Replace { soft };
        match shard.insert(&mut events, hash, key, Value::new(record), strategy) {
            Ok(()) => out.push_str("ok"),
            Err((_, value)) => {
                let trimmed = matches!(events.first(), Some(Event::Trim(..)));
                let above = value.taken.get().unwrap() > shard.counts().target;
                let number = if trimmed && above { 5 } else { 6 };
                say!(out, "refused {number} {}", value.record);
            }
        }
        write_events(&events, out);
    }

    fn ask(&mut self, key: u32, out: &mut String) {
        let met = self.shard().meets(&key);
        if met == Met::Nothing && self.full() {
            return out.push_str("refused 4");
        }
        if matches!(met, Met::Nothing | Met::Ghosts(_)) && NEXT_TICKET.get() == 0 {
            return out.push_str("refused 7");
        }
        let shard = self.shard_mut();
        let hash = shard.hash(&key);
        match shard.get_or_placeholder(hash, &key) {
            Ok((_, value)) => say!(out, "found {}", value.record),
            Err((_, false)) => out.push_str("pending"),
            Err((ticket, true)) => {
                say!(out, "ticket {}", ticket.number);
                self.open_tickets.insert(ticket.number, ticket);
            }
        }
    }

    fn fill(&mut self, number: u64, record: Record, out: &mut String) {
        let Some(ticket) = self.open_tickets.remove(&number) else {
            return say!(out, "refused 8 {record}");
        };
        let mut events = Vec::new();
        let shard = self.shard_mut();
        match shard.replace_placeholder(&mut events, &ticket, false, Value::new(record)) {
            Ok(()) => out.push_str("ok"),
            Err(value) => say!(out, "refused 8 {}", value.record),
        }
        write_events(&events, out);
    }

    fn give_up(&mut self, number: u64, out: &mut String) {
        if let Some(ticket) = self.open_tickets.remove(&number) {
            self.shard_mut().remove_placeholder(&ticket);
        }
        out.push_str("ok");
    }

    fn open_edit(&mut self, key: u32, out: &mut String) {
        // SAFETY: the shard outlives the edit, and no call reaches the shard while one is open.
        let shard: &'static mut Shard = unsafe { &mut *self.shard };
        let hash = shard.hash(&key);
        self.edit = Some(match shard.get_mut(hash, &key) {
            None => {
                out.push_str("open none");
                Edit::OnNothing
            }
            Some(edit) => {
                say!(out, "open {}", edit.pair().1.record);
                Edit::On(edit)
            }
        });
    }

    fn in_edit(&mut self, call: &Call, out: &mut String) {
        match (call, self.edit.as_mut().unwrap()) {
            (Call::Read, Edit::OnNothing) => out.push_str("none"),
            (Call::Read, Edit::On(edit)) => say!(out, "found {}", edit.pair().1.record),
            (Call::Write(record), Edit::OnNothing) => say!(out, "refused 9 {record}"),
            (Call::Write(record), Edit::On(edit)) => {
                edit.value_mut().record = *record;
                out.push_str("ok");
            }
            (Call::Close, edit) => {
                if let Edit::On(edit) = edit {
                    edit.value_mut().taken.set(None);
                }
                self.edit = None;
                out.push_str("ok");
            }
            _ => out.push_str("error"),
        }
    }

    fn set_capacity(&mut self, capacity: u64, out: &mut String) {
        if capacity > MOST_CAPACITY {
            return out.push_str("refused 1");
        }
        let now = self.shard().counts();
        if now.capacity != 0 {
            let bound = now.bound as f64 * (capacity as f64 / now.capacity as f64);
            if bound > MOST_CAPACITY as f64 {
                return out.push_str("refused 10");
            }
        }
        let mut events = Vec::new();
        self.shard_mut().set_capacity(capacity, &mut events);
        out.push_str("ok");
        write_events(&events, out);
    }

    fn counts(&self, out: &mut String) {
        let c = self.shard().counts();
        say!(
            out,
            "counts {} {} {} {} {} {} {} {} {}",
            c.hot,
            c.cold,
            c.ghosts,
            c.weight_hot,
            c.weight_cold,
            c.capacity,
            c.target,
            c.bound,
            NEXT_TICKET.get()
        );
    }

    /// Not part of the common format: the rings in order, for finding faults.
    fn rings(&self, out: &mut String) {
        fn resident(seen: &Seen<'_, u32, Value>, out: &mut String) {
            let Seen {
                key, value, reads, ..
            } = seen;
            say!(
                out,
                " {key}={}@{}r{reads}",
                value.record,
                value.taken.get().unwrap()
            );
        }
        let shard = self.shard();
        out.push_str("rings hot");
        shard.hot_ring().iter().for_each(|r| resident(r, out));
        out.push_str(" | cold");
        shard.cold_ring().iter().for_each(|r| resident(r, out));
        out.push_str(" | ghosts");
        shard.ghost_ring().iter().for_each(|hash| say!(out, " {hash}"));
        out.push_str(" | off");
        let mut off = shard.residents();
        off.retain(|r| r.value.taken.get() == Some(0));
        off.sort_by_key(|r| *r.key);
        for r in &off {
            resident(r, out);
            out.push_str(if r.hot { "h" } else { "c" });
        }
        out.push_str(" | placeholders");
        let mut placeholders = shard.placeholders();
        placeholders.sort_by_key(|p| *p.0);
        for (key, hot, ticket) in placeholders {
            say!(out, " {key}={}{}", if hot { "h" } else { "c" }, ticket.number);
        }
    }

    fn answer(&mut self, call: &Call, out: &mut String) {
        if self.edit.is_some() {
            return self.in_edit(call, out);
        }
        let hash = |cache: &Cache, key: u32| cache.shard().hash(&key);
        match *call {
            Call::Insert(key, record) => self.insert(key, record, out),
            Call::Get(key) => match self.shard().get_key_value(hash(self, key), &key) {
                Some((key, value)) => say!(out, "found {key} {}", value.record),
                None => out.push_str("none"),
            },
            Call::Peek(key) => match self.shard().peek(hash(self, key), &key) {
                Some(value) => say!(out, "found {}", value.record),
                None => out.push_str("none"),
            },
            Call::Remove(key) => {
                let hash = hash(self, key);
                match self.shard_mut().remove(hash, &key) {
                    Some((key, value)) => say!(out, "removed {key} {}", value.record),
                    None => out.push_str("none"),
                }
            }
            Call::Counts => self.counts(out),
            Call::Replace { key, record, soft } => self.replace(key, record, soft, out),
            Call::Ask(key) => self.ask(key, out),
            Call::Fill(number, record) => self.fill(number, record, out),
            Call::GiveUp(number) => self.give_up(number, out),
            Call::Edit(key) => self.open_edit(key, out),
            Call::SetCapacity(capacity) => self.set_capacity(capacity, out),
            Call::Rings => self.rings(out),
            Call::Read | Call::Write(_) | Call::Close => out.push_str("error"),
            Call::New { .. } | Call::Hash(_) | Call::Weigher(_) | Call::Lifecycle(_) => {
                unreachable!("answered above")
            }
        }
    }

    /// The shard's own validation, and a recount of rings, keys and weights.
    fn check(&self) {
        if self.edit.is_some() {
            return;
        }
        let shard = self.shard();
        shard.validate(true);
        let residents = shard.residents();
        let weight = |r: &Seen<'_, u32, Value>| r.value.taken.get().unwrap();
        for (ring, hot) in [(shard.hot_ring(), true), (shard.cold_ring(), false)] {
            assert!(ring
                .iter()
                .all(|r| r.hot == hot && weight(r) != 0 && r.reads <= 2));
            let of_state = residents
                .iter()
                .filter(|r| r.hot == hot && weight(r) != 0)
                .count();
            assert_eq!(ring.len(), of_state);
        }
        let mut keys: Vec<u32> = residents.iter().map(|r| *r.key).collect();
        keys.extend(shard.placeholders().iter().map(|p| *p.0));
        let used = keys.len() + shard.ghost_ring().len();
        keys.sort();
        assert!(keys.windows(2).all(|pair| pair[0] != pair[1]), "two equal keys");
        assert_eq!(used, shard.used());
        assert!(used <= self.slots);
        if self.one_weigher {
            // The weights kept are those that the shard would take anew.
            let weighing = self.first_weighing;
            assert!(residents
                .iter()
                .all(|r| weight(r) == fresh_weight(weighing, *r.key, &r.value.record)));
        }
    }
}

impl Driver {
    pub fn new() -> Driver {
        let modes = Modes {
            weighing: Cell::new(Weighing::Data),
            life: Cell::new(Life::Data),
        };
        Driver {
            modes: Rc::new(modes),
            hashing: Hashing::Multiply,
            cache: None,
        }
    }

    fn new_cache(&mut self, slots: u32, capacity: u64, items: u64, hot: f64, ghost: f64) -> u8 {
        self.cache = None;
        let within = |allocation: f64| (0.0..=1.0).contains(&allocation);
        if capacity > MOST_CAPACITY {
            return 1;
        }
        if items > MOST_ITEMS {
            return 2;
        }
        if !within(hot) || !within(ghost) {
            return 3;
        }
        let shard = Shard::new(
            hot,
            ghost,
            items as usize,
            capacity,
            Weigher(self.modes.clone()),
            HashKeys(self.hashing),
            Hooks(self.modes.clone()),
        );
        NEXT_TICKET.set(1);
        self.cache = Some(Cache {
            shard: Box::into_raw(Box::new(shard)),
            slots: slots.min(MOST_SLOTS) as usize,
            open_tickets: HashMap::new(),
            edit: None,
            first_weighing: self.modes.weighing.get(),
            one_weigher: true,
        });
        0
    }

    /// The answer to a line, or nothing for a line that only sets something.
    pub fn answer(&mut self, line: &Result<Call, Unreadable>, out: &mut String) {
        let Ok(call) = line else {
            return out.push_str("error");
        };
        match *call {
            Call::Hash(hashing) => self.hashing = hashing,
            Call::Weigher(weighing) => {
                self.modes.weighing.set(weighing);
                if let Some(cache) = &mut self.cache {
                    cache.one_weigher &= weighing == cache.first_weighing;
                }
            }
            Call::Lifecycle(life) => self.modes.life.set(life),
            Call::New {
                slots,
                capacity,
                items,
                hot,
                ghost,
            } => {
                if self.edit_is_open() {
                    return out.push_str("error");
                }
                match self.new_cache(slots, capacity, items, hot, ghost) {
                    0 => out.push_str("ok"),
                    number => say!(out, "refused {number}"),
                }
            }
            _ => match &mut self.cache {
                None => out.push_str("nocache"),
                Some(cache) => cache.answer(call, out),
            },
        }
    }

    pub fn edit_is_open(&self) -> bool {
        self.cache.as_ref().is_some_and(|cache| cache.edit.is_some())
    }

    /// Whether the call would choose among two or more ghosts of one hash. The rules take the one
    /// nearest the head, the shard the last that its table yields: such calls are not compared.
    pub fn meets_two_ghosts(&self, call: &Call) -> bool {
        let (Call::Insert(key, _) | Call::Ask(key) | Call::Remove(key)) = call else {
            return false;
        };
        match &self.cache {
            Some(cache) if cache.edit.is_none() => {
                matches!(cache.shard().meets(key), Met::Ghosts(n) if n > 1)
            }
            _ => false,
        }
    }

    /// What the generator looks at: the keys resident, those of placeholders, and the ghosts.
    pub fn resident_keys(&self) -> Vec<u32> {
        match &self.cache {
            Some(cache) => cache.shard().residents().iter().map(|r| *r.key).collect(),
            None => Vec::new(),
        }
    }

    pub fn meets(&self, key: u32) -> Met {
        match &self.cache {
            Some(cache) => cache.shard().meets(&key),
            None => Met::Nothing,
        }
    }

    pub fn open_tickets(&self) -> Vec<u64> {
        let mut numbers: Vec<u64> = match &self.cache {
            Some(cache) => cache.open_tickets.keys().copied().collect(),
            None => Vec::new(),
        };
        numbers.sort();
        numbers
    }

    pub fn check(&self) {
        if let Some(cache) = &self.cache {
            cache.check();
        }
    }
}
