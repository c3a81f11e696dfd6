//! The ring that `OwdTrendDetector` has in place of the commit's `VecDeque`, which is its live pairs, oldest first.

use std::collections::VecDeque;

use crate::proto::mmp::algorithms::oracle_access::{owd, owd_window};
use crate::proto::mmp::algorithms::OwdTrendDetector;
use crate::script::bounds::{first_no, MAX_US};

/// The greatest capacity, document 02, W-202: a larger size that is asked for gets it, and a state that has a larger one breaks the rule. The commit goes on further.
pub const MAX_WINDOW: usize = 256;

/// A detector with the windows that it is lent.
#[derive(Clone)]
pub struct Ring {
    pub capacity: usize,
    pub count: usize,
    pub first: usize,
    pub times: Vec<u32>,
    pub delays: Vec<i64>,
}

pub fn delay_ok(us: i64) -> bool {
    (-MAX_US..=MAX_US).contains(&us)
}

impl Ring {
    pub fn keeps(&self) -> bool {
        (2..=MAX_WINDOW).contains(&self.capacity) && self.count <= self.capacity && self.first < self.capacity
    }

    pub fn windows_ok(&self) -> bool {
        self.times.len() == self.capacity && self.delays.len() == self.capacity
    }

    pub fn state(&self) -> [u64; 3] {
        [self.capacity, self.count, self.first].map(|n| n as u64)
    }

    pub fn windows(&self) -> Vec<u64> {
        let mut all = vec![self.times.len() as u64];
        all.extend(self.times.iter().map(|t| u64::from(*t)));
        all.push(self.delays.len() as u64);
        all.extend(self.delays.iter().map(|d| *d as u64));
        all
    }

    /// Whether the live pairs go on at slot 0 after the last slot.
    pub fn wrapped(&self) -> bool {
        self.first + self.count > self.capacity
    }

    /// The live pairs of a ring that keeps the rule and has its windows.
    pub fn live(&self) -> VecDeque<(u32, i64)> {
        let slots = (0..self.count).map(|k| (self.first + k) % self.capacity);
        slots.map(|slot| (self.times[slot], self.delays[slot])).collect()
    }

    pub fn commit(&self) -> OwdTrendDetector {
        owd(self.capacity, self.live())
    }

    /// The slot n after the first: the slots up to the ring's end come first, then those from slot 0 on.
    fn onward(&self, n: usize) -> usize {
        let left = self.capacity.saturating_sub(self.first);
        if n < left {
            self.first + n
        } else {
            n - left
        }
    }

    /// The ring with a pair more: one slot written where it is there, the oldest's where it was full.
    pub fn placed(mut self, (at_ms, owd_us): (u32, i64)) -> Ring {
        let slot = self.onward(self.count);
        if let Some(time) = self.times.get_mut(slot) {
            *time = at_ms;
        }
        if let Some(delay) = self.delays.get_mut(slot) {
            *delay = owd_us;
        }
        if self.count < self.capacity {
            self.count += 1;
        } else {
            self.first = self.onward(1);
        }
        self
    }

    /// The ring after a push. The commit's window is its live pairs.
    pub fn pushed(&self, at_ms: u32, owd_us: i64) -> Ring {
        let after = self.clone().placed((at_ms, owd_us));
        let mut c = self.commit();
        c.push(at_ms, owd_us);
        assert!(
            owd_window(&c) == (after.capacity, after.live()),
            "the commit's window is the ring's"
        );
        after
    }

    pub fn push_refusal(&self, owd_us: i64) -> u64 {
        first_no(&[(1, self.keeps()), (4, self.windows_ok()), (5, delay_ok(owd_us))])
    }

    pub fn trend_refusal(&self) -> u64 {
        let answered = first_no(&[(1, self.keeps()), (4, self.windows_ok())]);
        if answered > 0 {
            return answered;
        }
        first_no(&[(5, self.live().iter().all(|(_, d)| delay_ok(*d)))])
    }
}
