//! Locks, channels, condition variables and atomics of a schedule: permits, and who waits.

use super::hash::{hash_of, mix};
use crate::context::Noun;

/// An object of `sync`, by the number of its first use in a schedule, from 1.
pub(super) type ObjectNumber = u32;

struct Object {
    /// Permits that are free.
    free: u32,
    /// The actors that wait to be notified.
    waiters: Vec<u16>,
    /// Who took a permit last, where it is a mutex or a writer's.
    holder: Option<u16>,
    /// A hash of all accesses in their order.
    history: u64,
}

#[derive(Default)]
pub(super) struct Objects {
    all: Vec<Object>,
    /// The sum of the hashes of all permits that were given back.
    given: u64,
}

impl Objects {
    pub(super) fn clear(&mut self) {
        self.all.clear();
        self.given = 0;
    }

    /// A new object with so many permits; its number.
    pub(super) fn add(&mut self, free: u32) -> ObjectNumber {
        self.all.push(Object { free, waiters: Vec::new(), holder: None, history: 0 });
        self.all.len() as ObjectNumber
    }

    fn at(&mut self, number: ObjectNumber) -> &mut Object {
        &mut self.all[number as usize - 1]
    }

    pub(super) fn has(&self, number: ObjectNumber, permits: u32) -> bool {
        self.all[number as usize - 1].free >= permits
    }

    pub(super) fn take(&mut self, number: ObjectNumber, permits: u32, noun: Noun, actor: usize) {
        let object = self.at(number);
        object.free -= permits;
        object.holder = matches!(noun, Noun::Mutex | Noun::Writer | Noun::Once).then_some(actor as u16);
    }

    pub(super) fn give(&mut self, number: ObjectNumber, permits: u32) {
        let object = self.at(number);
        object.free = object.free.saturating_add(permits);
        object.holder = None;
        self.given = self.given.wrapping_add(mix(u64::from(number), u64::from(permits)));
    }

    /// Which permits were given back in the schedule until now, as a hash that does not depend on their order.
    pub(super) fn given(&self) -> u64 {
        self.given
    }

    /// Who keeps others from the object.
    pub(super) fn holder(&self, number: ObjectNumber) -> Option<usize> {
        self.all[number as usize - 1].holder.map(usize::from)
    }

    pub(super) fn waiters(&self, number: ObjectNumber) -> usize {
        self.all[number as usize - 1].waiters.len()
    }

    pub(super) fn begin_wait(&mut self, number: ObjectNumber, actor: usize) {
        self.at(number).waiters.push(actor as u16);
    }

    /// Whether an actor still waits: it was not notified.
    pub(super) fn waits(&self, number: ObjectNumber, actor: usize) -> bool {
        self.all[number as usize - 1].waiters.contains(&(actor as u16))
    }

    pub(super) fn end_wait(&mut self, number: ObjectNumber, actor: usize) {
        self.at(number).waiters.retain(|waiter| usize::from(*waiter) != actor);
    }

    /// Wakes one of those that wait; nothing where none does.
    pub(super) fn notify_one(&mut self, number: ObjectNumber, which: usize) {
        let waiters = &mut self.at(number).waiters;
        if which < waiters.len() {
            waiters.remove(which);
        }
    }

    pub(super) fn notify_all(&mut self, number: ObjectNumber) {
        self.at(number).waiters.clear();
    }

    /// An access by an actor: the hash of all up to it.
    pub(super) fn access(&mut self, number: ObjectNumber, actor: usize) -> u64 {
        let object = self.at(number);
        object.history = hash_of(&(actor, number, object.history));
        object.history
    }

    /// A hash of the permits, of who waits, and of all accesses: what an object holds depends on them, also where
    /// those who made them have forgotten what they did.
    pub(super) fn hash(&self) -> u64 {
        let state = |(at, object): (usize, &Object)| hash_of(&(at, object.free, &object.waiters, object.history));
        let states = self.all.iter().enumerate().map(state);
        states.fold(0, u64::wrapping_add)
    }
}
