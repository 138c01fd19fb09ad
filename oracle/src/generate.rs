//! Random lists of calls. Each call is run as it is made, so that the next can be chosen by what
//! the cache holds, and a call that would choose among two ghosts of one hash is left out.

use crate::calls::{self, Call, Hashing, Life, Record, Trimmed, Weighing};
use crate::driver::Driver;
use crate::random::Random;
use crate::shard::Met;
use std::io::{self, Write};

/// Writes calls and keeps a cache in step with them.
pub struct Maker<W: Write> {
    pub driver: Driver,
    pub calls: u64,
    rings: bool,
    answer: String,
    out: W,
}

impl<W: Write> Maker<W> {
    pub fn new(rings: bool, out: W) -> Maker<W> {
        Maker {
            driver: Driver::new(),
            calls: 0,
            rings,
            answer: String::new(),
            out,
        }
    }

    pub fn text(&mut self, line: &str) -> io::Result<()> {
        writeln!(self.out, "{line}")?;
        if let Some(parsed) = calls::parse(line) {
            self.answer.clear();
            self.driver.answer(&parsed, &mut self.answer);
            self.calls += 1;
        }
        Ok(())
    }

    /// Writes the call and runs it; false where it is left out.
    pub fn call(&mut self, call: Call) -> io::Result<bool> {
        if self.driver.meets_two_ghosts(&call) {
            return Ok(false);
        }
        let line = call.to_string();
        debug_assert!(is_read_as(&line, &call), "{line} is read otherwise");
        self.text(&line)?;
        if self.rings && !self.driver.edit_is_open() {
            self.text("rings")?;
        }
        Ok(true)
    }

    pub fn end(mut self) -> io::Result<()> {
        self.out.flush()
    }
}

fn is_read_as(line: &str, call: &Call) -> bool {
    match (calls::parse(line), call) {
        // NaN is not equal to itself.
        (Some(Ok(Call::New { .. })), Call::New { .. }) => true,
        (Some(Ok(read)), call) => read == *call,
        _ => false,
    }
}

#[derive(Copy, Clone)]
enum Kind {
    Insert,
    Get,
    Peek,
    Remove,
    Counts,
    Replace,
    ReplaceSoft,
    Ask,
    Fill,
    GiveUp,
    Edit,
    SetCapacity,
    Mode,
    Odd,
}

/// How the calls on one cache are chosen.
struct World {
    keys: u64,
    capacity: u64,
    /// Weights are multiples of this, give or take a little.
    unit: u64,
    heaviest: u64,
    // The chances of these, in percent.
    odd_weights: u64,
    zero: u64,
    pinned: u64,
    trims: u64,
    to_zero: u64,
    known_key: u64,
    ghost_key: u64,
    kinds: Vec<(u64, Kind)>,
}

struct Settings {
    capacity: u64,
    slots: u64,
    items: u64,
    hot: f64,
    ghost: f64,
    heaviest: u64,
    keys: u64,
    pinned: u64,
    odd_weights: u64,
}

fn allocation(random: &mut Random, usual: f64) -> f64 {
    match random.below(20) {
        0..=8 => usual,
        9 => 0.0,
        10 => 1.0,
        11 => 0.5,
        12 => 0.1,
        13 => 0.25,
        14 => 0.9,
        15 => 0.8,
        16 => -0.0,
        _ => random.part(),
    }
}

const UNREADABLE: &[&str] = &[
    "insert",
    "insert 1",
    "insert 1 2 3 0",
    "insert 1 2 3 2 -",
    "insert 1 2 3 0 x",
    "insert 1 2 3 0 4q",
    "insert 1 2 3 0 - -",
    "insert -1 2 3 0 -",
    "insert 4294967296 2 3 0 -",
    "insert 1 4294967296 3 0 -",
    "insert 1 2 4294967296 0 -",
    "insert 1 2 3 0 4294967296",
    "insert 1 2 3 0 p",
    "insert 1 2 3 0 --",
    "get",
    "get x",
    "get 1 2",
    "get 1.0",
    "peek",
    "peek 1 1",
    "peek 99999999999",
    "remove",
    "remove a",
    "counts 1",
    "Counts",
    "GET 1",
    "new",
    "new 1 2 3 0.5",
    "new 1 2 3 0.5 0.5 0.5",
    "new -1 2 3 0.5 0.5",
    "new 1 18446744073709551616 3 0.5 0.5",
    "new 1 2 3 x 0.5",
    "new 1 2 3 0.5 0,5",
    "new 4294967296 2 3 0.5 0.5",
    "new 1 2 3 0.5 .",
    "new 1 2 3 1e 0.5",
    "hash",
    "hash mod",
    "hash mod 0",
    "hash mod x",
    "hash add",
    "weigher",
    "weigher heavy",
    "lifecycle",
    "lifecycle hold",
    "lifecycle hold x",
    "lifecycle held 1",
    "hello",
    "0",
    "-",
    "|",
    "found 1",
];

const UNREADABLE_LATER: &[&str] = &[
    "replace",
    "replace 1",
    "replace 1 2 3 0",
    "replace_soft 1 2 3 0 0 0",
    "replace_hard 1 2 3 0 -",
    "ask",
    "ask x",
    "ask 1 2",
    "fill",
    "fill 1",
    "fill x 1 1 0 -",
    "fill 1 1 1 0",
    "fill 1 1 1 3 -",
    "giveup",
    "giveup x",
    "giveup 18446744073709551616",
    "edit",
    "edit x",
    "read 1",
    "write",
    "write 1 1 0",
    "write 1 1 0 z",
    "close 1",
    "set_capacity",
    "set_capacity x",
    "set_capacity 18446744073709551616",
    "set_capacity -1",
];

impl World {
    /// Settings of any kind: no slots, no capacity, everything above the target, all pinned.
    fn any_settings(random: &mut Random, unit: u64) -> Settings {
        let steps = match random.below(20) {
            0 => 0,
            1..=3 => random.from_to(1, 3),
            4..=12 => random.from_to(4, 12),
            13..=17 => random.from_to(12, 40),
            _ => random.from_to(40, 120),
        };
        let heaviest = match random.below(4) {
            0 => 1,
            1 => 2,
            2 => random.from_to(1, 4),
            _ => random.from_to(1, steps.clamp(2, 6)),
        };
        let held = steps / heaviest + 1;
        let slots = match random.below(20) {
            0 => 0,
            1..=2 => random.from_to(1, 4),
            3..=6 => random.from_to(1, held + 2),
            7..=12 => random.from_to(held, 2 * held + 4),
            _ => random.from_to(2 * held + 4, 4 * held + 12),
        };
        let items = match random.below(10) {
            0 => 0,
            1..=3 => random.from_to(1, 4),
            4..=8 => random.from_to(1, 2 * held + 2),
            _ => random.from_to(1, 1_048_576),
        };
        let usual_hot = random.pick(&[0.97, 0.97, 0.6]);
        let usual_ghost = random.pick(&[0.5, 0.5, 1.0]);
        Settings {
            capacity: steps * unit,
            slots,
            items,
            hot: allocation(random, usual_hot),
            ghost: allocation(random, usual_ghost),
            heaviest,
            keys: random.from_to(2, 3 * held + 4).min(60),
            pinned: random.pick(&[0, 0, 5, 20, 60, 95]),
            odd_weights: 16,
        }
    }

    /// Settings under which both hands and the ghosts are busy: more keys than the cache holds,
    /// room for ghosts, few pins.
    fn busy_settings(random: &mut Random, unit: u64) -> Settings {
        let steps = random.from_to(5, 30);
        let heaviest = random.from_to(1, steps / 5);
        let held = 2 * steps / (heaviest + 1);
        let ghosts = random.from_to(1, held + 1);
        let slots = held + ghosts + random.below(4);
        Settings {
            capacity: steps * unit,
            slots: if random.percent(85) { slots + 10 } else { slots },
            items: 2 * ghosts + random.below(2),
            hot: random.pick(&[0.97, 0.9, 0.8, 0.7, 0.6, 0.5, 0.4, 0.3]),
            ghost: random.pick(&[0.5, 0.5, 0.3, 1.0]),
            heaviest,
            keys: held + random.from_to(1, ghosts + 4),
            pinned: random.pick(&[0, 0, 0, 4, 12]),
            odd_weights: 3,
        }
    }

    fn new(random: &mut Random, stage1: bool) -> (World, Call) {
        let unit = if random.percent(6) {
            random.pick(&[1000, 1 << 20, 1 << 29, 700_000_001])
        } else {
            1
        };
        let settings = if random.percent(65) {
            World::busy_settings(random, unit)
        } else {
            World::any_settings(random, unit)
        };
        let Settings {
            capacity,
            slots,
            items,
            hot,
            ghost,
            heaviest,
            keys,
            pinned,
            odd_weights,
        } = settings;
        let rate = |random: &mut Random, most: u64| random.from_to(0, most);
        let mut kinds = vec![
            (20 + rate(random, 40), Kind::Insert),
            (rate(random, 25), Kind::Get),
            (rate(random, 5), Kind::Peek),
            (rate(random, 10), Kind::Remove),
            (1 + rate(random, 12), Kind::Counts),
            (rate(random, 2), Kind::Mode),
            (rate(random, 1), Kind::Odd),
        ];
        if !stage1 {
            kinds.extend([
                (rate(random, 12), Kind::Replace),
                (rate(random, 8), Kind::ReplaceSoft),
                (rate(random, 16), Kind::Ask),
                (rate(random, 14), Kind::Fill),
                (rate(random, 4), Kind::GiveUp),
                (rate(random, 10), Kind::Edit),
                (rate(random, 3), Kind::SetCapacity),
            ]);
        }
        let world = World {
            keys,
            capacity,
            unit,
            heaviest,
            odd_weights,
            zero: random.pick(&[0, 0, 5, 20]),
            pinned,
            trims: random.pick(&[0, 10, 40, 80]),
            to_zero: random.pick(&[0, 30, 60, 100]),
            known_key: random.pick(&[0, 20, 50]),
            ghost_key: random.pick(&[0, 20, 40]),
            kinds,
        };
        (
            world,
            Call::New {
                slots: slots as u32,
                capacity,
                items,
                hot,
                ghost,
            },
        )
    }

    fn weight(&self, random: &mut Random) -> u32 {
        if random.percent(self.zero) {
            return 0;
        }
        let weight = if random.percent(self.odd_weights) {
            match random.below(4) {
                0 => self.capacity,
                1 => self.capacity + self.unit,
                2 => self.capacity.saturating_sub(random.below(3)),
                _ => random.below(self.capacity + 2),
            }
        } else {
            random.from_to(1, self.heaviest) * self.unit
        };
        let weight = if self.unit > 1 && random.percent(30) {
            weight + random.below(3)
        } else {
            weight
        };
        if random.below(4000) == 0 {
            return u32::MAX - random.below(3) as u32;
        }
        weight.min(u32::MAX as u64) as u32
    }

    fn record(&self, random: &mut Random, id: u32) -> Record {
        let weight = self.weight(random);
        let trim = random.percent(self.trims).then(|| Trimmed {
            weight: if random.percent(self.to_zero) {
                0
            } else if random.percent(80) {
                random.below(weight as u64 + 1) as u32
            } else {
                self.weight(random)
            },
            pinned: random.percent(self.pinned / 2),
        });
        Record {
            id,
            weight,
            pinned: random.percent(self.pinned),
            trim,
        }
    }

    fn key(&self, random: &mut Random, driver: &Driver) -> u32 {
        if random.percent(self.known_key) {
            let known = driver.resident_keys();
            if !known.is_empty() {
                return random.pick(&known);
            }
        }
        let key = random.below(self.keys) as u32;
        if random.percent(self.ghost_key) {
            let ghost = (0..self.keys as u32).map(|k| (k + key) % self.keys as u32);
            if let Some(key) = ghost.into_iter().find(|k| driver.meets(*k) == Met::Ghosts(1)) {
                return key;
            }
        }
        key
    }

    /// An open number mostly, else any.
    fn ticket(&self, random: &mut Random, driver: &Driver) -> u64 {
        let open = driver.open_tickets();
        if !open.is_empty() && !random.percent(4) {
            return random.pick(&open);
        }
        random.below(30)
    }

    fn capacity(&self, random: &mut Random) -> u64 {
        match random.below(30) {
            0..=1 => 0,
            2 => 1,
            3 => (1 << 53) + random.below(3),
            4 => (1 << 53) - random.below(3),
            5 => random.bits() >> random.below(64),
            6..=16 => random.below(self.capacity + 1),
            17..=24 => random.from_to(self.capacity, 2 * self.capacity + 2),
            _ => self.capacity,
        }
    }
}

fn mode(random: &mut Random, keys: u64) -> Call {
    match random.below(6) {
        0..=1 => Call::Weigher(random.pick(&[Weighing::Data, Weighing::Keyed])),
        2..=3 => Call::Lifecycle(Life::Data),
        4 => Call::Lifecycle(Life::Plain),
        _ => Call::Lifecycle(Life::Hold(random.below(keys) as u32)),
    }
}

fn refused_settings(random: &mut Random) -> Call {
    let capacity = if random.percent(40) {
        (1 << 53) + random.below(4)
    } else {
        random.below(100)
    };
    let items = if random.percent(40) {
        1_048_576 + random.below(4)
    } else {
        random.below(100)
    };
    let wrong = [
        f64::NAN,
        f64::INFINITY,
        f64::NEG_INFINITY,
        -0.5,
        1.5,
        -1e-15,
        1.000000000000001,
        -1.0,
    ];
    let part = |random: &mut Random| {
        if random.percent(40) {
            random.pick(&wrong)
        } else {
            allocation(random, 0.97)
        }
    };
    let hot = part(random);
    let ghost = part(random);
    Call::New {
        slots: random.below(20) as u32,
        capacity,
        items,
        hot,
        ghost,
    }
}

struct List<W: Write> {
    maker: Maker<W>,
    random: Random,
    stage1: bool,
    next_id: u32,
}

impl<W: Write> List<W> {
    fn id(&mut self) -> u32 {
        self.next_id = self.next_id.wrapping_add(1);
        self.next_id
    }

    fn record(&mut self, world: &World) -> Record {
        let id = self.id();
        world.record(&mut self.random, id)
    }

    fn key(&mut self, world: &World) -> u32 {
        world.key(&mut self.random, &self.maker.driver)
    }

    /// Opens an edit, reads and writes, and closes it.
    fn edit(&mut self, world: &World) -> io::Result<bool> {
        let known = self.maker.driver.resident_keys();
        let key = if known.is_empty() || self.random.percent(15) {
            self.key(world)
        } else {
            self.random.pick(&known)
        };
        self.maker.call(Call::Edit(key))?;
        for _ in 0..self.random.below(4) {
            let call = match self.random.below(8) {
                0..=1 => Call::Read,
                2 if self.random.percent(10) => Call::Peek(key),
                2 => mode(&mut self.random, world.keys),
                3 if self.random.percent(10) => Call::Counts,
                _ => Call::Write(self.record(world)),
            };
            self.maker.call(call)?;
        }
        self.maker.call(Call::Close)
    }

    /// A line that cannot be read, one that says nothing, or one out of place.
    fn odd(&mut self) -> io::Result<bool> {
        let later = if self.stage1 { 0 } else { UNREADABLE_LATER.len() };
        let at = self.random.below((UNREADABLE.len() + later + 4) as u64) as usize;
        let line = match at {
            0 => "",
            1 => "# nothing",
            2 => "   ",
            3 if self.stage1 => "#",
            3 => self.random.pick(&["read", "close", "write 1 1 0 -"]),
            _ if at < UNREADABLE.len() + 4 => UNREADABLE[at - 4],
            _ => UNREADABLE_LATER[at - 4 - UNREADABLE.len()],
        };
        self.maker.text(line)?;
        Ok(true)
    }

    /// Makes one call; false where it had to be left out.
    fn step(&mut self, world: &World) -> io::Result<bool> {
        let mut kind = self.random.weighted(&world.kinds);
        if matches!(kind, Kind::Fill | Kind::GiveUp) && self.maker.driver.open_tickets().is_empty() {
            kind = self.random.pick(&[Kind::Ask, Kind::Ask, Kind::Ask, kind]);
        }
        let call = match kind {
            Kind::Insert => Call::Insert(self.key(world), self.record(world)),
            Kind::Get => Call::Get(self.key(world)),
            Kind::Peek => Call::Peek(self.key(world)),
            Kind::Remove => Call::Remove(self.key(world)),
            Kind::Counts => Call::Counts,
            Kind::Replace | Kind::ReplaceSoft => Call::Replace {
                key: self.key(world),
                record: self.record(world),
                soft: matches!(kind, Kind::ReplaceSoft),
            },
            Kind::Ask => Call::Ask(self.key(world)),
            Kind::Fill => {
                let ticket = world.ticket(&mut self.random, &self.maker.driver);
                Call::Fill(ticket, self.record(world))
            }
            Kind::GiveUp => Call::GiveUp(world.ticket(&mut self.random, &self.maker.driver)),
            Kind::Edit => return self.edit(world),
            Kind::SetCapacity => Call::SetCapacity(world.capacity(&mut self.random)),
            Kind::Mode => mode(&mut self.random, world.keys),
            Kind::Odd => return self.odd(),
        };
        self.maker.call(call)
    }

    fn cache(&mut self) -> io::Result<()> {
        let (world, new) = World::new(&mut self.random, self.stage1);
        if self.random.percent(3) {
            let refused = refused_settings(&mut self.random);
            self.maker.call(refused)?;
            for _ in 0..self.random.below(5) {
                self.step(&world)?;
            }
        }
        let hashing = match self.random.below(5) {
            0 => Hashing::Modulo(self.random.from_to(1, world.keys) as u32),
            1 => Hashing::Modulo(self.random.from_to(1, 4) as u32),
            _ => Hashing::Multiply,
        };
        self.maker.call(Call::Hash(hashing))?;
        if self.random.percent(40) {
            let call = mode(&mut self.random, world.keys);
            self.maker.call(call)?;
        }
        self.maker.call(new)?;
        let calls = match self.random.below(4) {
            0 => self.random.from_to(3, 20),
            _ => self.random.from_to(20, 300),
        };
        let mut left_out = 0;
        for _ in 0..calls {
            if !self.step(&world)? {
                left_out += 1;
                if left_out > 40 {
                    break;
                }
            }
        }
        self.maker.call(Call::Counts)?;
        Ok(())
    }
}

/// A random list of about this many calls; `stage1` keeps to new, insert, get, peek, remove and
/// counts, `rings` asks for the rings after each call.
pub fn random_list(seed: u64, calls: u64, stage1: bool, rings: bool, out: impl Write) -> io::Result<()> {
    let maker = Maker::new(rings, out);
    let mut list = List {
        maker,
        random: Random::new(seed),
        stage1,
        next_id: 0,
    };
    while list.maker.calls < calls {
        list.cache()?;
    }
    list.maker.end()
}

/// Targets and ghost bounds: settings of every size, and chains of capacities set. Allocations
/// have at most fifteen digits; with `long` they are any.
pub fn settings_list(seed: u64, calls: u64, stage1: bool, long: bool, out: impl Write) -> io::Result<()> {
    let mut maker = Maker::new(false, out);
    let mut random = Random::new(seed);
    let capacity = |random: &mut Random| match random.below(12) {
        0 => random.below(4),
        1 => (1u64 << 53) - random.below(4),
        2 => (1u64 << random.below(54)).saturating_sub(random.below(2)),
        3 => (1u64 << random.below(53)) + 1,
        4 => random.below(200),
        _ => (random.bits() >> 11) >> random.below(53),
    };
    let part = |random: &mut Random| match random.below(12) {
        0 => allocation(random, 0.97),
        1 => random.below(101) as f64 / 100.0,
        2 => (1_000_000_000_000_000 - random.below(8)) as f64 / 1e15,
        3 => (1_000_000_000_000_000 / random.from_to(1, 1000)) as f64 / 1e15,
        4..=6 if long => f64::from_bits(0x3F00_0000_0000_0000 + random.below(0xF0_0000_0000_0001)),
        7 if long => f64::from_bits(random.below(0x3FF0_0000_0000_0001)),
        8 if long => 1.0 - random.below(8) as f64 * f64::EPSILON / 2.0,
        _ => random.part(),
    };
    while maker.calls < calls {
        let items = random.below(1_048_577) >> random.below(21);
        let new = Call::New {
            slots: random.below(4) as u32,
            capacity: capacity(&mut random),
            items,
            hot: part(&mut random),
            ghost: part(&mut random),
        };
        maker.call(new)?;
        maker.call(Call::Counts)?;
        if stage1 {
            continue;
        }
        for _ in 0..random.below(12) {
            let call = Call::SetCapacity(capacity(&mut random));
            maker.call(call)?;
            maker.call(Call::Counts)?;
        }
    }
    maker.end()
}
