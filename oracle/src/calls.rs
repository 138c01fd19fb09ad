//! The calls of a list, their text and its reading.

use std::fmt;

/// What a trim leaves: a weight, and whether the record is pinned then.
#[derive(Copy, Clone, PartialEq, Eq, Debug)]
pub struct Trimmed {
    pub weight: u32,
    pub pinned: bool,
}

#[derive(Copy, Clone, PartialEq, Eq, Debug)]
pub struct Record {
    pub id: u32,
    pub weight: u32,
    pub pinned: bool,
    pub trim: Option<Trimmed>,
}

#[derive(Copy, Clone, PartialEq, Eq, Debug)]
pub enum Hashing {
    Multiply,
    Modulo(u32),
}

#[derive(Copy, Clone, PartialEq, Eq, Debug)]
pub enum Weighing {
    Data,
    Keyed,
}

#[derive(Copy, Clone, PartialEq, Eq, Debug)]
pub enum Life {
    Data,
    Plain,
    Hold(u32),
}

#[derive(Copy, Clone, PartialEq, Debug)]
pub enum Call {
    Hash(Hashing),
    Weigher(Weighing),
    Lifecycle(Life),
    New {
        slots: u32,
        capacity: u64,
        items: u64,
        hot: f64,
        ghost: f64,
    },
    Insert(u32, Record),
    Get(u32),
    Peek(u32),
    Remove(u32),
    Counts,
    Replace {
        key: u32,
        record: Record,
        soft: bool,
    },
    Ask(u32),
    Fill(u64, Record),
    GiveUp(u64),
    Edit(u32),
    Read,
    Write(Record),
    Close,
    SetCapacity(u64),
    Rings,
}

/// A line that is no call.
#[derive(Copy, Clone, PartialEq, Eq, Debug)]
pub struct Unreadable;

fn digits(text: &str) -> Option<&str> {
    (!text.is_empty() && text.bytes().all(|b| b.is_ascii_digit())).then_some(text)
}

fn number<T: std::str::FromStr>(text: &str) -> Option<T> {
    digits(text)?.parse().ok()
}

fn trim(text: &str) -> Option<Option<Trimmed>> {
    if text == "-" {
        return Some(None);
    }
    let (weight, pinned) = match text.strip_suffix('p') {
        Some(weight) => (weight, true),
        None => (text, false),
    };
    Some(Some(Trimmed {
        weight: number(weight)?,
        pinned,
    }))
}

fn record(tokens: &[&str]) -> Option<Record> {
    let &[id, weight, pinned, after] = tokens else {
        return None;
    };
    let pinned = match pinned {
        "0" => false,
        "1" => true,
        _ => return None,
    };
    Some(Record {
        id: number(id)?,
        weight: number(weight)?,
        pinned,
        trim: trim(after)?,
    })
}

fn keyed(tokens: &[&str]) -> Option<(u32, Record)> {
    let (key, rest) = tokens.split_first()?;
    Some((number(key)?, record(rest)?))
}

fn call(tokens: &[&str]) -> Option<Call> {
    let (name, rest) = tokens.split_first()?;
    Some(match (*name, rest) {
        ("hash", ["mul"]) => Call::Hash(Hashing::Multiply),
        ("hash", ["mod", n]) => match number(n)? {
            0 => return None,
            n => Call::Hash(Hashing::Modulo(n)),
        },
        ("weigher", ["data"]) => Call::Weigher(Weighing::Data),
        ("weigher", ["keyed"]) => Call::Weigher(Weighing::Keyed),
        ("lifecycle", ["data"]) => Call::Lifecycle(Life::Data),
        ("lifecycle", ["plain"]) => Call::Lifecycle(Life::Plain),
        ("lifecycle", ["hold", key]) => Call::Lifecycle(Life::Hold(number(key)?)),
        ("new", [slots, capacity, items, hot, ghost]) => Call::New {
            slots: number(slots)?,
            capacity: number(capacity)?,
            items: number(items)?,
            hot: hot.parse().ok()?,
            ghost: ghost.parse().ok()?,
        },
        ("insert", rest) => {
            let (key, record) = keyed(rest)?;
            Call::Insert(key, record)
        }
        ("replace", rest) => {
            let (key, record) = keyed(rest)?;
            Call::Replace {
                key,
                record,
                soft: false,
            }
        }
        ("replace_soft", rest) => {
            let (key, record) = keyed(rest)?;
            Call::Replace {
                key,
                record,
                soft: true,
            }
        }
        ("get", [key]) => Call::Get(number(key)?),
        ("peek", [key]) => Call::Peek(number(key)?),
        ("remove", [key]) => Call::Remove(number(key)?),
        ("counts", []) => Call::Counts,
        ("ask", [key]) => Call::Ask(number(key)?),
        ("fill", [ticket, rest @ ..]) => Call::Fill(number(ticket)?, record(rest)?),
        ("giveup", [ticket]) => Call::GiveUp(number(ticket)?),
        ("edit", [key]) => Call::Edit(number(key)?),
        ("read", []) => Call::Read,
        ("write", rest) => Call::Write(record(rest)?),
        ("close", []) => Call::Close,
        ("set_capacity", [capacity]) => Call::SetCapacity(number(capacity)?),
        ("rings", []) => Call::Rings,
        _ => return None,
    })
}

/// Reads a line; none for an empty line or a comment.
pub fn parse(line: &str) -> Option<Result<Call, Unreadable>> {
    if line.starts_with('#') {
        return None;
    }
    let tokens: Vec<&str> = line.split([' ', '\t']).filter(|t| !t.is_empty()).collect();
    if tokens.is_empty() {
        return None;
    }
    Some(call(&tokens).ok_or(Unreadable))
}

struct TrimText(Option<Trimmed>);

impl fmt::Display for TrimText {
    fn fmt(&self, f: &mut fmt::Formatter<'_>) -> fmt::Result {
        match self.0 {
            None => f.write_str("-"),
            Some(t) => write!(f, "{}{}", t.weight, if t.pinned { "p" } else { "" }),
        }
    }
}

/// A record as an answer shows it.
impl fmt::Display for Record {
    fn fmt(&self, f: &mut fmt::Formatter<'_>) -> fmt::Result {
        let pinned = if self.pinned { "p" } else { "" };
        write!(f, "{}:{}{}:{}", self.id, self.weight, pinned, TrimText(self.trim))
    }
}

/// A record as a call brings it.
struct Brought(Record);

impl fmt::Display for Brought {
    fn fmt(&self, f: &mut fmt::Formatter<'_>) -> fmt::Result {
        let Record {
            id,
            weight,
            pinned,
            trim,
        } = self.0;
        write!(f, "{} {} {} {}", id, weight, pinned as u8, TrimText(trim))
    }
}

impl fmt::Display for Call {
    fn fmt(&self, f: &mut fmt::Formatter<'_>) -> fmt::Result {
        match *self {
            Call::Hash(Hashing::Multiply) => f.write_str("hash mul"),
            Call::Hash(Hashing::Modulo(n)) => write!(f, "hash mod {n}"),
            Call::Weigher(Weighing::Data) => f.write_str("weigher data"),
            Call::Weigher(Weighing::Keyed) => f.write_str("weigher keyed"),
            Call::Lifecycle(Life::Data) => f.write_str("lifecycle data"),
            Call::Lifecycle(Life::Plain) => f.write_str("lifecycle plain"),
            Call::Lifecycle(Life::Hold(key)) => write!(f, "lifecycle hold {key}"),
            Call::New {
                slots,
                capacity,
                items,
                hot,
                ghost,
            } => {
                write!(f, "new {slots} {capacity} {items} {hot} {ghost}")
            }
            Call::Insert(key, record) => write!(f, "insert {key} {}", Brought(record)),
            Call::Get(key) => write!(f, "get {key}"),
            Call::Peek(key) => write!(f, "peek {key}"),
            Call::Remove(key) => write!(f, "remove {key}"),
            Call::Counts => f.write_str("counts"),
            Call::Replace {
                key,
                record,
                soft: false,
            } => {
                write!(f, "replace {key} {}", Brought(record))
            }
            Call::Replace {
                key,
                record,
                soft: true,
            } => {
                write!(f, "replace_soft {key} {}", Brought(record))
            }
            Call::Ask(key) => write!(f, "ask {key}"),
            Call::Fill(ticket, record) => write!(f, "fill {ticket} {}", Brought(record)),
            Call::GiveUp(ticket) => write!(f, "giveup {ticket}"),
            Call::Edit(key) => write!(f, "edit {key}"),
            Call::Read => f.write_str("read"),
            Call::Write(record) => write!(f, "write {}", Brought(record)),
            Call::Close => f.write_str("close"),
            Call::SetCapacity(capacity) => write!(f, "set_capacity {capacity}"),
            Call::Rings => f.write_str("rings"),
        }
    }
}
