//! What the published files import from the root of their crate: the two traits with the same
//! signatures, and the few names beside them.

use std::borrow::Borrow;

pub mod shim {
    pub mod sync {
        pub use std::sync::atomic;
    }
}

/// A key looked up by another type that is equal to it.
pub trait Equivalent<K: ?Sized> {
    fn equivalent(&self, key: &K) -> bool;
}

impl<Q: Eq + ?Sized, K: Borrow<Q> + ?Sized> Equivalent<K> for Q {
    fn equivalent(&self, key: &K) -> bool {
        self == key.borrow()
    }
}

pub trait Weighter<Key, Val> {
    fn weight(&self, key: &Key, val: &Val) -> u64;
}

#[derive(Debug, Clone, Default)]
pub struct UnitWeighter;

impl<Key, Val> Weighter<Key, Val> for UnitWeighter {
    fn weight(&self, _key: &Key, _val: &Val) -> u64 {
        1
    }
}

pub trait Lifecycle<Key, Val> {
    type RequestState: Default;

    fn is_pinned(&self, _key: &Key, _val: &Val) -> bool {
        false
    }
    fn before_evict(&self, _state: &mut Self::RequestState, _key: &Key, _val: &mut Val) {}
    fn on_evict(&self, _state: &mut Self::RequestState, _key: Key, _val: Val) {}
    fn on_evict_cold(&self, state: &mut Self::RequestState, key: Key, val: Val) {
        self.on_evict(state, key, val)
    }
    fn on_evict_hot(&self, state: &mut Self::RequestState, key: Key, val: Val) {
        self.on_evict(state, key, val)
    }
}

#[derive(Debug, Copy, Clone)]
pub struct MemoryUsed {
    pub entries: usize,
    pub map: usize,
}

#[derive(Clone, Default)]
pub struct DefaultHashBuilder(std::collections::hash_map::RandomState);

impl std::hash::BuildHasher for DefaultHashBuilder {
    type Hasher = <std::collections::hash_map::RandomState as std::hash::BuildHasher>::Hasher;

    fn build_hasher(&self) -> Self::Hasher {
        self.0.build_hasher()
    }
}
