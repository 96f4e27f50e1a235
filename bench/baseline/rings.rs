//! Policies whose entries stand in a ring linked by index, for the program replaying.rs.
use crate::Policy;
use std::collections::HashMap;

const NONE: u32 = u32::MAX;

/// Where the entry of an object stands.
pub trait Places {
    fn new(objects: usize) -> Self;
    fn get(&self, object: u32) -> Option<u32>;
    fn set(&mut self, object: u32, place: u32);
    fn remove(&mut self, object: u32);
}

impl Places for HashMap<u32, u32> {
    fn new(_: usize) -> Self {
        HashMap::new()
    }

    fn get(&self, object: u32) -> Option<u32> {
        HashMap::get(self, &object).copied()
    }

    fn set(&mut self, object: u32, place: u32) {
        self.insert(object, place);
    }

    fn remove(&mut self, object: u32) {
        HashMap::remove(self, &object);
    }
}

impl Places for Vec<u32> {
    fn new(objects: usize) -> Self {
        vec![NONE; objects]
    }

    fn get(&self, object: u32) -> Option<u32> {
        Some(self[object as usize]).filter(|place| *place != NONE)
    }

    fn set(&mut self, object: u32, place: u32) {
        self[object as usize] = place;
    }

    fn remove(&mut self, object: u32) {
        self[object as usize] = NONE;
    }
}

#[derive(Clone, Copy, PartialEq)]
pub enum Rule {
    Lru,
    Fifo,
    Clock,
    Sieve,
}

struct Link {
    object: u32,
    before: u32,
    after: u32,
    marked: bool,
    size: u64,
}

/// Entries in a ring linked by index, the oldest after entry 0, which stands for none.
pub struct Ring<P> {
    rule: Rule,
    // Of Sieve alone: the entry that is looked at next, or 0 for the oldest.
    hand: u32,
    capacity: u64,
    used: u64,
    places: P,
    links: Vec<Link>,
    unused: Vec<u32>,
}

impl<P: Places> Ring<P> {
    pub fn new(rule: Rule, capacity: u64, objects: usize) -> Self {
        let ends = Link {
            object: NONE,
            before: 0,
            after: 0,
            marked: false,
            size: 0,
        };
        Ring {
            rule,
            hand: 0,
            capacity,
            used: 0,
            places: P::new(objects),
            links: vec![ends],
            unused: Vec::new(),
        }
    }

    fn unlink(&mut self, place: u32) {
        let Link { before, after, .. } = self.links[place as usize];
        self.links[before as usize].after = after;
        self.links[after as usize].before = before;
    }

    fn link_last(&mut self, place: u32) {
        let last = self.links[0].before;
        self.links[place as usize].before = last;
        self.links[place as usize].after = 0;
        self.links[last as usize].after = place;
        self.links[0].before = place;
    }

    fn free_until_fits(&mut self, size: u64) {
        while self.used + size > self.capacity {
            if self.rule == Rule::Sieve {
                self.look_at_hand();
                continue;
            }
            let first = self.links[0].after;
            if self.links[first as usize].marked {
                self.links[first as usize].marked = false;
                self.unlink(first);
                self.link_last(first);
            } else {
                self.remove(first);
            }
        }
    }

    // The hand goes on, from the youngest to the oldest. An entry without a mark is removed.
    fn look_at_hand(&mut self) {
        let place = if self.hand == 0 {
            self.links[0].after
        } else {
            self.hand
        };
        let link = &mut self.links[place as usize];
        self.hand = link.after;
        if link.marked {
            link.marked = false;
        } else {
            self.remove(place);
        }
    }

    fn remove(&mut self, place: u32) {
        self.unlink(place);
        let Link { object, size, .. } = self.links[place as usize];
        self.used -= size;
        self.places.remove(object);
        self.unused.push(place);
    }

    fn put(&mut self, object: u32, size: u64) {
        let link = Link {
            object,
            before: 0,
            after: 0,
            marked: false,
            size,
        };
        let place = match self.unused.pop() {
            Some(place) => {
                self.links[place as usize] = link;
                place
            }
            None => {
                self.links.push(link);
                self.links.len() as u32 - 1
            }
        };
        self.link_last(place);
        self.places.set(object, place);
        self.used += size;
    }
}

impl<P: Places> Policy for Ring<P> {
    fn request(&mut self, _: u64, object: u32, size: u64, _: u32) -> bool {
        let held = self.places.get(object);
        match (held, self.rule) {
            (Some(place), Rule::Lru) => {
                self.unlink(place);
                self.link_last(place);
            }
            (Some(place), Rule::Clock | Rule::Sieve) => self.links[place as usize].marked = true,
            (Some(_), Rule::Fifo) => {}
            (None, _) if size <= self.capacity => {
                self.free_until_fits(size);
                self.put(object, size);
            }
            (None, _) => {}
        }
        held.is_some()
    }
}
