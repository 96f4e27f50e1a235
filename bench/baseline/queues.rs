//! S3-FIFO and W-TinyLFU, whose queues are linked by the objects' numbers, for the program replaying.rs.
use crate::Policy;

// The queues. An object stands in one of them at most.
const NONE: usize = 0;
const SMALL: usize = 1;
const MAIN: usize = 2;
const GHOST: usize = 3;

#[derive(Clone)]
struct Place {
    size: u64,
    before: u32,
    after: u32,
    queue: u8,
    count: u8,
}

/// A place for each object, and behind them one for each queue, which stands before its first and after its last.
pub struct S3Fifo {
    capacity: u64,
    part: u64,
    objects: u32,
    places: Vec<Place>,
    bytes: [u64; 4],
}

impl S3Fifo {
    pub fn new(capacity: u64, objects: usize) -> Self {
        let place = |before| Place {
            size: 0,
            before,
            after: before,
            queue: NONE as u8,
            count: 0,
        };
        let mut places = vec![place(0); objects];
        places.extend((objects..objects + 4).map(|own| place(own as u32)));
        S3Fifo {
            capacity,
            part: capacity / 10,
            objects: objects as u32,
            places,
            bytes: [0; 4],
        }
    }

    // The first object of a queue, or a number that is none.
    fn first(&self, queue: usize) -> u32 {
        self.places[self.objects as usize + queue].after
    }

    fn is_empty(&self, queue: usize) -> bool {
        self.first(queue) >= self.objects
    }

    fn leave(&mut self, object: u32) {
        let place = &mut self.places[object as usize];
        let (before, after, queue) = (place.before, place.after, place.queue as usize);
        place.queue = NONE as u8;
        self.bytes[queue] -= place.size;
        self.places[before as usize].after = after;
        self.places[after as usize].before = before;
    }

    // Puts an object that stands in no queue at the back of one.
    fn enter(&mut self, object: u32, queue: usize) {
        let end = self.objects + queue as u32;
        let last = std::mem::replace(&mut self.places[end as usize].before, object);
        self.places[last as usize].after = object;
        let place = &mut self.places[object as usize];
        place.before = last;
        place.after = end;
        place.queue = queue as u8;
        self.bytes[queue] += place.size;
    }

    fn shrink_small(&mut self) {
        while !self.is_empty(SMALL) {
            let first = self.first(SMALL);
            self.leave(first);
            if self.places[first as usize].count < 2 {
                self.enter(first, GHOST);
                while self.bytes[GHOST] > self.capacity - self.part {
                    self.leave(self.first(GHOST));
                }
                return;
            }
            self.places[first as usize].count = 0;
            self.enter(first, MAIN);
        }
    }

    fn shrink_main(&mut self) {
        loop {
            let first = self.first(MAIN);
            self.leave(first);
            let count = &mut self.places[first as usize].count;
            if *count == 0 {
                return;
            }
            *count -= 1;
            self.enter(first, MAIN);
        }
    }

    fn put(&mut self, object: u32, size: u64) {
        while self.bytes[SMALL] + self.bytes[MAIN] + size > self.capacity {
            let is_large = self.bytes[SMALL] >= self.part || self.is_empty(MAIN);
            if is_large && !self.is_empty(SMALL) {
                self.shrink_small();
            } else {
                self.shrink_main();
            }
        }
        let was_ghost = self.places[object as usize].queue as usize == GHOST;
        if was_ghost {
            self.leave(object);
        }
        let place = &mut self.places[object as usize];
        place.size = size;
        place.count = 0;
        self.enter(object, if was_ghost { MAIN } else { SMALL });
    }
}

impl Policy for S3Fifo {
    fn request(&mut self, _: u64, object: u32, size: u64, _: u32) -> bool {
        let place = &mut self.places[object as usize];
        if matches!(place.queue as usize, SMALL | MAIN) {
            place.count = (place.count + 1).min(3);
            return true;
        }
        if size <= self.capacity {
            self.put(object, size);
        }
        false
    }
}

// The queues of W-TinyLFU.
const WINDOW: usize = 1;
const PROBATION: usize = 2;
const PROTECTED: usize = 3;

/// W-TinyLFU over places like those of S3-FIFO, with a count of each object, which is halved when it is looked at again.
pub struct WTinyLfu {
    queues: S3Fifo,
    window: u64,
    most: u64,
    entries: u64,
    asked: u64,
    halvings: u32,
    seen: Vec<u32>,
}

impl WTinyLfu {
    pub fn new(capacity: u64, objects: usize) -> Self {
        let window = (capacity / 100).max(1);
        WTinyLfu {
            queues: S3Fifo::new(capacity, objects),
            window,
            most: capacity - window,
            entries: 0,
            asked: 0,
            halvings: 0,
            seen: vec![0; objects],
        }
    }

    fn count(&self, object: u32) -> u8 {
        let missed = self.halvings - self.seen[object as usize];
        self.queues.places[object as usize].count >> missed.min(4)
    }

    fn note(&mut self, object: u32) {
        self.queues.places[object as usize].count = (self.count(object) + 1).min(15);
        self.seen[object as usize] = self.halvings;
        self.asked += 1;
        if self.asked >= 10 * self.entries.max(16) {
            self.asked /= 2;
            self.halvings += 1;
        }
    }

    fn move_to(&mut self, object: u32, queue: usize) {
        self.queues.leave(object);
        self.queues.enter(object, queue);
    }

    fn hit(&mut self, object: u32, queue: usize) {
        if queue != PROBATION {
            self.move_to(object, queue);
            return;
        }
        self.move_to(object, PROTECTED);
        while self.queues.bytes[PROTECTED] > 8 * self.most / 10 && self.queues.first(PROTECTED) != object {
            self.move_to(self.queues.first(PROTECTED), PROBATION);
        }
    }

    // The first of the main part, those on probation first, after this one if it is given.
    fn next(&self, after: Option<u32>) -> u32 {
        let end = self.queues.objects + PROBATION as u32;
        let next = match after {
            Some(object) => self.queues.places[object as usize].after,
            None => self.queues.first(PROBATION),
        };
        if next == end { self.queues.first(PROTECTED) } else { next }
    }

    fn offer(&mut self, object: u32, size: u64) {
        if size > self.most {
            return;
        }
        let held = self.queues.bytes[PROBATION] + self.queues.bytes[PROTECTED];
        let mut over = (held + size).saturating_sub(self.most);
        let (mut victims, mut sum, mut last) = (0, 0, None);
        while over > 0 {
            let victim = self.next(last);
            sum += self.count(victim);
            if sum >= self.count(object) {
                return;
            }
            over = over.saturating_sub(self.queues.places[victim as usize].size);
            victims += 1;
            last = Some(victim);
        }
        for _ in 0..victims {
            self.queues.leave(self.next(None));
        }
        self.entries -= victims;
        self.queues.enter(object, PROBATION);
        self.entries += 1;
    }

    fn put(&mut self, object: u32, size: u64) {
        self.queues.places[object as usize].size = size;
        if size > self.window {
            self.offer(object, size);
            return;
        }
        self.queues.enter(object, WINDOW);
        self.entries += 1;
        while self.queues.bytes[WINDOW] > self.window {
            let first = self.queues.first(WINDOW);
            self.queues.leave(first);
            self.entries -= 1;
            self.offer(first, self.queues.places[first as usize].size);
        }
    }
}

impl Policy for WTinyLfu {
    fn request(&mut self, _: u64, object: u32, size: u64, _: u32) -> bool {
        let queue = self.queues.places[object as usize].queue as usize;
        if queue != NONE {
            self.note(object);
            self.hit(object, queue);
            return true;
        }
        if size <= self.queues.capacity {
            self.note(object);
            self.put(object, size);
        }
        false
    }
}
