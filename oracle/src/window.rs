// A view of a shard's inside, compiled in the module of shard.rs for its private fields.
// Nothing here changes a shard.

/// The counts, weights and settings of a shard.
pub struct Counts {
    pub hot: usize,
    pub cold: usize,
    pub ghosts: usize,
    pub weight_hot: u64,
    pub weight_cold: u64,
    pub capacity: u64,
    pub target: u64,
    pub bound: usize,
}

/// A resident as a ring shows it.
pub struct Seen<'a, Key, Val> {
    pub key: &'a Key,
    pub value: &'a Val,
    pub hot: bool,
    pub reads: u16,
}

impl<Key, Val, We, B, L, Plh> CacheShard<Key, Val, We, B, L, Plh> {
    pub fn counts(&self) -> Counts {
        Counts {
            hot: self.num_hot,
            cold: self.num_cold,
            ghosts: self.num_non_resident,
            weight_hot: self.weight_hot,
            weight_cold: self.weight_cold,
            capacity: self.weight_capacity,
            target: self.weight_target_hot,
            bound: self.capacity_non_resident,
        }
    }

    /// The number of entries: residents, placeholders and ghosts.
    pub fn used(&self) -> usize {
        self.map.len()
    }

    fn ring(&self, head: Option<Token>) -> Vec<Token> {
        let mut tokens = Vec::new();
        let Some(head) = head else { return tokens };
        let mut at = head;
        loop {
            tokens.push(at);
            at = self.entries.get(at).unwrap().1;
            if at == head {
                return tokens;
            }
        }
    }

    fn seen(resident: &Resident<Key, Val>) -> Seen<'_, Key, Val> {
        Seen {
            key: &resident.key,
            value: &resident.value,
            hot: resident.state == ResidentState::Hot,
            reads: resident.referenced.load(atomic::Ordering::Relaxed),
        }
    }

    fn residents_of(&self, head: Option<Token>) -> Vec<Seen<'_, Key, Val>> {
        let tokens = self.ring(head);
        tokens
            .into_iter()
            .map(|at| match self.entries.get(at) {
                Some((Entry::Resident(resident), _)) => Self::seen(resident),
                _ => panic!("a ring of residents holds another entry"),
            })
            .collect()
    }

    pub fn hot_ring(&self) -> Vec<Seen<'_, Key, Val>> {
        self.residents_of(self.hot_head)
    }

    pub fn cold_ring(&self) -> Vec<Seen<'_, Key, Val>> {
        self.residents_of(self.cold_head)
    }

    pub fn ghost_ring(&self) -> Vec<u64> {
        let tokens = self.ring(self.ghost_head);
        tokens
            .into_iter()
            .map(|at| match self.entries.get(at) {
                Some((Entry::Ghost(hash), _)) => *hash,
                _ => panic!("the ring of ghosts holds another entry"),
            })
            .collect()
    }

    pub fn residents(&self) -> Vec<Seen<'_, Key, Val>> {
        let residents = self.entries.iter().filter_map(|entry| match entry {
            Entry::Resident(resident) => Some(Self::seen(resident)),
            _ => None,
        });
        residents.collect()
    }

    /// The placeholders: key, whether hot, and what its tickets share.
    pub fn placeholders(&self) -> Vec<(&Key, bool, &Plh)> {
        let placeholders = self.entries.iter().filter_map(|entry| match entry {
            Entry::Placeholder(p) => Some((&p.key, p.hot == ResidentState::Hot, &p.shared)),
            _ => None,
        });
        placeholders.collect()
    }
}

/// What a search meets.
#[derive(Copy, Clone, PartialEq, Eq, Debug)]
pub enum Met {
    Nothing,
    Resident,
    Placeholder,
    Ghosts(usize),
}

impl<
        Key: Eq + Hash,
        Val,
        We: Weighter<Key, Val>,
        B: BuildHasher,
        L: Lifecycle<Key, Val>,
        Plh: SharedPlaceholder,
    > CacheShard<Key, Val, We, B, L, Plh>
{
    /// What a search for this key meets, with the number of ghosts where there is no more.
    pub fn meets(&self, key: &Key) -> Met {
        let hash = self.hash(key);
        let mut ghosts = 0;
        for &idx in self.map.iter_hash(hash) {
            match self.entries.get(idx).unwrap().0 {
                Entry::Resident(r) if r.key == *key => return Met::Resident,
                Entry::Placeholder(p) if p.key == *key => return Met::Placeholder,
                Entry::Ghost(at) if *at == hash => ghosts += 1,
                _ => (),
            }
        }
        match ghosts {
            0 => Met::Nothing,
            n => Met::Ghosts(n),
        }
    }
}
