//! Timings and rows: share, density, exact and approximate demand.

use crate::SCALE;

/// A budget, a deadline and a period: the part of a row a judge looks at.
#[derive(Clone, Copy, Debug, PartialEq, Eq)]
pub struct Timing {
    pub budget: i64,
    pub deadline: i64,
    pub period: i64,
}

/// Shorthand for a timing, as the rules write it: (C, D, T).
pub fn timing(budget: i64, deadline: i64, period: i64) -> Timing {
    Timing { budget, deadline, period }
}

fn divide_up(a: i64, b: i64) -> i64 {
    (a + b - 1) / b
}

impl Timing {
    /// C x scale / T, rounded up.
    pub fn share(&self) -> i64 {
        divide_up(self.budget * SCALE, self.period)
    }

    /// C x scale / D, rounded up.
    pub fn density(&self) -> i64 {
        divide_up(self.budget * SCALE, self.deadline)
    }

    /// The work, in ticks, of all instances both released and due within t.
    pub fn exact_demand(&self, t: i64) -> i64 {
        if t < self.deadline {
            0
        } else {
            self.budget * (1 + (t - self.deadline) / self.period)
        }
    }

    /// The approximate demand at t in parts, with `steps` retained steps.
    /// `share` is this timing's own share (given, so that a judge works it
    /// out once for each row).
    pub fn approximate_demand(&self, t: i64, steps: i64, share: i64) -> i64 {
        let last_step = steps * self.period + self.deadline;
        if t < last_step {
            SCALE * self.exact_demand(t)
        } else {
            SCALE * ((steps + 1) * self.budget) + share * (t - last_step)
        }
    }
}

#[derive(Clone, Copy, Debug, PartialEq, Eq)]
pub enum Kind {
    Whole = 0,
    Head = 1,
    Tail = 2,
}

impl Kind {
    pub fn word(self) -> &'static str {
        match self {
            Kind::Whole => "whole",
            Kind::Head => "head",
            Kind::Tail => "tail",
        }
    }
}

/// A timing on a processor, with its reservation's key, its kind and its part
/// (0 for a whole or a head, 1, 2, .. for the tails in the order served).
#[derive(Clone, Copy, Debug, PartialEq, Eq)]
pub struct Row {
    pub key: i64,
    pub kind: Kind,
    pub part: usize,
    pub timing: Timing,
}

#[cfg(test)]
mod tests {
    use super::*;

    #[test]
    fn shares_and_densities_round_up() {
        assert_eq!(timing(2, 4, 4).density(), 524_288);
        assert_eq!(timing(1, 100_000, 100_000).density(), 11); // 10.48..
        assert_eq!(timing(1, 3, 3).share(), 349_526); // 349,525.33..
        assert_eq!(timing(2, 3, 10).density(), 699_051); // 699,050.66..
        assert_eq!(timing(2, 5, 10).density(), 419_431); // 419,430.4
        assert_eq!(timing(3, 3, 10).share(), 314_573); // 314,572.8
        assert_eq!(timing(7, 7, 7).share(), 1_048_576);
        assert_eq!(timing(7, 7, 7).density(), 1_048_576);
    }

    #[test]
    fn exact_demand_is_a_staircase() {
        let r = timing(3, 5, 10);
        for (t, want) in [(0, 0), (4, 0), (5, 3), (14, 3), (15, 6), (24, 6), (25, 9)] {
            assert_eq!(r.exact_demand(t), want, "t = {t}");
        }
    }

    #[test]
    fn approximate_demand_leaves_the_staircase_after_the_retained_steps() {
        let r = timing(5, 10, 10); // share is half the scale
        let half = 524_288;
        assert_eq!(r.share(), half);
        let at = |t, n| r.approximate_demand(t, n, r.share());
        // no retained step: the line starts at t = 10
        assert_eq!(at(9, 0), 0);
        assert_eq!(at(10, 0), 5 * SCALE);
        assert_eq!(at(11, 0), 5 * SCALE + half);
        assert_eq!(at(20, 0), 10 * SCALE);
        // one: the staircase up to t = 19, the line from t = 20
        assert_eq!(at(9, 1), 0);
        assert_eq!(at(10, 1), 5 * SCALE);
        assert_eq!(at(19, 1), 5 * SCALE);
        assert_eq!(at(20, 1), 10 * SCALE);
        assert_eq!(at(23, 1), 10 * SCALE + 3 * half);
    }
}
