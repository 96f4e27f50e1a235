//! The load of each step in levels, as plain Rust has it: asked whether a range of steps has room, and raised over it.
// How many values a group has.
const WIDTH: usize = 16;

// A level of values: each stands for a group of the level below, and is at least the greatest of it. By what it is
// greater, each load of the group is greater than the value there.
#[derive(Clone, Copy)]
pub struct Level {
    start: usize,
    count: usize,
    height: u32,
}

impl Level {
    fn next(self) -> Self {
        Level {
            start: self.start + self.count,
            count: self.count.div_ceil(WIDTH),
            height: self.height - 1,
        }
    }
}

// Loads of steps, in levels that stand one after another, the lowest one first.
pub struct Loads {
    values: Vec<u64>,
    pub lowest: Level,
}

// What the levels from one upward tell of a range of places, whose ends are in it.
pub enum Answer {
    Fits,
    Full,
    Open(u64, u64),
}

// By how much the values of a level rise: at the lowest place, at the highest one, and between.
#[derive(Clone, Copy)]
pub struct Rise {
    pub low: usize,
    pub low_by: u64,
    pub high: usize,
    pub high_by: u64,
    pub between: u64,
}

fn most_of(values: &[u64]) -> u64 {
    values.iter().fold(0, |most, value| most.max(*value))
}

impl Loads {
    pub fn new(steps: u32) -> Self {
        let (mut count, mut places, mut height) = (steps as usize, steps as usize, 0);
        while count > WIDTH {
            count = count.div_ceil(WIDTH);
            places += count;
            height += 1;
        }
        let lowest = Level {
            start: 0,
            count: steps as usize,
            height,
        };
        Loads {
            values: vec![0; places],
            lowest,
        }
    }

    fn most_of_group(&self, level: Level, group: usize) -> u64 {
        let end = (group * WIDTH + WIDTH).min(level.count);
        most_of(&self.values[level.start + group * WIDTH..level.start + end])
    }

    // The same where that of one group, which may be the same, is known.
    fn most_of_other(&self, level: Level, known: (usize, u64), group: usize) -> u64 {
        if known.0 == group {
            known.1
        } else {
            self.most_of_group(level, group)
        }
    }

    fn is_over(&self, from: usize, to: usize, added: u64, room: u64) -> bool {
        from < to && most_of(&self.values[from..to]) + added > room
    }

    fn judge(
        &self,
        level: Level,
        (low, high): (usize, usize),
        room: u64,
        added: (u64, u64),
    ) -> Answer {
        let start = level.start;
        let left_end = (low / WIDTH * WIDTH + WIDTH).min(high);
        let right_start = (high / WIDTH * WIDTH).max(left_end);
        if self.is_over(start + low + 1, start + left_end, added.0, room)
            || self.is_over(start + right_start, start + high, added.1, room)
        {
            return Answer::Full;
        }
        let ends = (
            self.values[start + low] + added.0,
            self.values[start + high] + added.1,
        );
        if ends.0 <= room && ends.1 <= room {
            Answer::Fits
        } else {
            Answer::Open(ends.0, ends.1)
        }
    }

    pub fn look(&self, level: Level, (low, high): (usize, usize), room: u64) -> Answer {
        if level.height == 0 {
            return self.judge(level, (low, high), room, (0, 0));
        }
        let (left, right) = (low / WIDTH, high / WIDTH);
        match self.look(level.next(), (left, right), room) {
            Answer::Open(at_low, at_high) => {
                let left_most = self.most_of_group(level, left);
                let right_most = self.most_of_other(level, (left, left_most), right);
                let added = (at_low - left_most, at_high - right_most);
                self.judge(level, (low, high), room, added)
            }
            settled => settled,
        }
    }

    fn raise_ends(&mut self, start: usize, rise: Rise) {
        self.values[start + rise.low] += rise.low_by;
        if rise.low < rise.high {
            let left_end = (rise.low / WIDTH * WIDTH + WIDTH).min(rise.high);
            let right_start = (rise.high / WIDTH * WIDTH).max(left_end);
            for value in &mut self.values[start + rise.low + 1..start + left_end] {
                *value += rise.between;
            }
            for value in &mut self.values[start + right_start..start + rise.high] {
                *value += rise.between;
            }
            self.values[start + rise.high] += rise.high_by;
        }
    }

    pub fn raise(&mut self, level: Level, rise: Rise) {
        if level.height == 0 {
            self.raise_ends(level.start, rise);
            return;
        }
        let (left, right) = (rise.low / WIDTH, rise.high / WIDTH);
        let left_before = self.most_of_group(level, left);
        let right_before = self.most_of_other(level, (left, left_before), right);
        self.raise_ends(level.start, rise);
        let left_after = self.most_of_group(level, left);
        let low_by = left_after - left_before;
        let high_by = self.most_of_other(level, (left, left_after), right) - right_before;
        if left < right || low_by > 0 {
            let above = Rise {
                low: left,
                low_by,
                high: right,
                high_by,
                between: rise.between,
            };
            self.raise(level.next(), above);
        }
    }
}
