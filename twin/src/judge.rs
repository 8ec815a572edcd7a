//! Judges: density, demand, either of two.

use crate::timing::Timing;
use crate::{MAX_PERIOD, MAX_ROWS, SCALE};

#[derive(Clone, Debug)]
pub enum Judge {
    Density,
    Demand { steps: i64, refinements: i64 },
    Either(Box<Judge>, Box<Judge>),
}

impl Judge {
    pub fn demand(steps: i64, refinements: i64) -> Judge {
        Judge::Demand { steps, refinements }
    }

    pub fn either(a: Judge, b: Judge) -> Judge {
        Judge::Either(Box::new(a), Box::new(b))
    }

    /// Can one processor serve all these in time?
    pub fn says_yes(&self, list: &[Timing]) -> bool {
        if list.len() > MAX_ROWS {
            return false;
        }
        match self {
            Judge::Density => list.iter().map(|r| r.density()).sum::<i64>() <= SCALE,
            Judge::Demand { steps, .. } => DemandList::new(list, *steps).is_served(),
            Judge::Either(a, b) => a.says_yes(list) || b.says_yes(list),
        }
    }

    /// The longest tail of the given period, up to `cap`, offered for the list.
    pub fn allowance(&self, list: &[Timing], period: i64, cap: i64) -> i64 {
        if cap <= 0 || period < 1 || period > MAX_PERIOD || list.len() > MAX_ROWS - 1 {
            return 0;
        }
        match self {
            Judge::Density => {
                if list.is_empty() {
                    cap.min(period)
                } else {
                    0
                }
            }
            Judge::Demand { steps, refinements } => {
                let list = DemandList::new(list, *steps);
                let fixed = list.fixed_room(period, cap);
                let slacks = list.slacks();
                let mut start = 0;
                for _ in 0..=*refinements {
                    start = list.room_from(start, period, fixed, &slacks);
                }
                start
            }
            Judge::Either(a, b) => a.allowance(list, period, cap).max(b.allowance(list, period, cap)),
        }
    }
}

/// A list of rows as the demand judge sees it: with its shares worked out.
struct DemandList {
    steps: i64,
    rows: Vec<(Timing, i64)>,
}

/// A check-point and what the list leaves unused up to it, in parts; below 0 where it demands too much.
struct Slack {
    t: i64,
    unused: i64,
}

impl DemandList {
    fn new(list: &[Timing], steps: i64) -> DemandList {
        DemandList { steps, rows: list.iter().map(|r| (*r, r.share())).collect() }
    }

    fn spare_share(&self) -> i64 {
        SCALE - self.rows.iter().map(|(_, share)| share).sum::<i64>()
    }

    /// The sum of the approximate demands at t.
    fn demand(&self, t: i64) -> i64 {
        self.rows.iter().map(|(r, share)| r.approximate_demand(t, self.steps, *share)).sum()
    }

    fn check_points(&self) -> impl Iterator<Item = i64> + '_ {
        self.rows.iter().flat_map(|(r, _)| (0..=self.steps).map(|s| s * r.period + r.deadline))
    }

    fn is_served(&self) -> bool {
        self.spare_share() >= 0 && self.check_points().all(|t| self.demand(t) <= SCALE * t)
    }

    /// The slack at every check-point: no start value changes it.
    fn slacks(&self) -> Vec<Slack> {
        self.check_points().map(|t| Slack { t, unused: SCALE * t - self.demand(t) }).collect()
    }

    /// The terms of the allowance that no start value changes.
    fn fixed_room(&self, period: i64, cap: i64) -> i64 {
        let m = not_negative(self.spare_share() * period) / SCALE;
        let mut result = m.min(cap);
        if let Some(smallest) = self.rows.iter().map(|(r, _)| r.deadline).min() {
            result = result.min(smallest - 1);
        }
        for s in 1..=self.steps {
            let room = SCALE * s * period - self.demand(s * period + m);
            result = result.min(not_negative(room) / (SCALE * s));
        }
        result
    }

    /// The result of the allowance rule for the start value `start` (L).
    fn room_from(&self, start: i64, period: i64, fixed: i64, slacks: &[Slack]) -> i64 {
        let n = self.steps;
        let line_from = n * period + start;
        let mut result = fixed;
        for Slack { t, unused } in slacks {
            let offer = if *t >= line_from {
                let d = t - line_from;
                not_negative(unused * period - (period - 1) * d) / (SCALE * ((n + 1) * period + d))
            } else {
                let j = not_negative(t - start) / period;
                not_negative(*unused) / (SCALE * (j + 1))
            };
            result = result.min(offer);
        }
        not_negative(result)
    }
}

/// "Anything negative counts as 0."
fn not_negative(x: i64) -> i64 {
    x.max(0)
}

#[cfg(test)]
mod tests {
    use super::*;
    use crate::rng::Rng;
    use crate::timing::timing;

    #[test]
    fn density_by_hand() {
        // 524,288 twice is the scale exactly
        assert!(Judge::Density.says_yes(&[timing(2, 4, 4), timing(2, 4, 4)]));
        assert!(!Judge::Density.says_yes(&[timing(2, 4, 4), timing(2, 4, 4), timing(1, 100_000, 100_000)]));
        // 699,051 + 419,431 = 1,118,482
        assert!(!Judge::Density.says_yes(&[timing(2, 3, 10), timing(2, 5, 10)]));
        assert!(Judge::Density.says_yes(&[]));
    }

    #[test]
    fn demand_by_hand() {
        for n in 0..=9 {
            let j = Judge::demand(n, 0);
            assert!(j.says_yes(&[]));
            assert!(j.says_yes(&[timing(1, 3, 3), timing(1, 3, 3)]));
            // three times 349,526 is 1,048,578: two too many
            assert!(!j.says_yes(&[timing(1, 3, 3), timing(1, 3, 3), timing(1, 3, 3)]));
            assert!(j.says_yes(&[timing(2, 4, 4), timing(2, 4, 4)]));
            assert!(j.says_yes(&[timing(100_000, 100_000, 100_000)]));
        }
        // t = 3: 2 S; t = 5: 2 S + 209,716 x 2 + 2 S = 4,613,736 <= 5 S = 5,242,880
        assert!(Judge::demand(0, 0).says_yes(&[timing(2, 3, 10), timing(2, 5, 10)]));
        // t = 8: 3 S + 314,573 x 5 + 5 S = 9,961,473 > 8 S = 8,388,608;
        // with a step the first row still demands 3 S there: 8 S in all
        let pair = [timing(3, 3, 10), timing(5, 8, 10)];
        assert!(!Judge::demand(0, 0).says_yes(&pair));
        assert!(Judge::demand(1, 0).says_yes(&pair));
    }

    #[test]
    fn either_by_hand() {
        let e = Judge::either(Judge::Density, Judge::demand(0, 0));
        assert!(e.says_yes(&[timing(2, 3, 10), timing(2, 5, 10)]));
        assert!(!e.says_yes(&[timing(3, 3, 10), timing(5, 8, 10)]));
        assert_eq!(e.allowance(&[timing(5, 10, 10)], 20, 9), 3);
        assert_eq!(e.allowance(&[], 20, 9), 9);
        assert_eq!(Judge::either(Judge::Density, Judge::Density).allowance(&[timing(5, 10, 10)], 20, 9), 0);
    }

    #[test]
    fn a_list_of_33_gets_no_and_one_of_32_no_allowance() {
        let tiny = timing(1, 100_000, 100_000);
        for j in [Judge::Density, Judge::demand(9, 5), Judge::either(Judge::Density, Judge::demand(0, 0))] {
            assert!(j.says_yes(&[tiny; 32]));
            assert!(!j.says_yes(&[tiny; 33]));
            assert_eq!(j.allowance(&[tiny; 32], 10, 5), 0);
        }
        assert!(Judge::demand(0, 0).allowance(&[tiny; 31], 10, 5) > 0);
    }

    #[test]
    fn allowance_by_hand() {
        let list = [timing(5, 10, 10)];
        // M = 10. No step: t = 10, Q = 5 S, d = 10: (100 S - 190) / 30 S = 3
        assert_eq!(Judge::demand(0, 0).allowance(&list, 20, 9), 3);
        assert_eq!(Judge::demand(0, 0).allowance(&list, 20, 2), 2);
        // One step: at 30 the demand is 15 S: 5; t = 10: 5; t = 20: 5
        assert_eq!(Judge::demand(1, 0).allowance(&list, 20, 9), 5);
        let list = [timing(500, 1000, 1000)];
        assert_eq!(Judge::demand(0, 0).allowance(&list, 2000, 599), 333);
        assert_eq!(Judge::demand(0, 1).allowance(&list, 2000, 599), 374);
        assert_eq!(Judge::demand(0, 2).allowance(&list, 2000, 599), 380);
        // The example of the rules: (6, 10, 10), 1 step, T 20, cap 9. The share is 629,146
        // (up from 629,145.6), so M = 419,430 x 20 / S = 7; at 27 the demand is 12 S + 7 u;
        // (20 S - 12 S - 4,404,022) / S = 3; t = 10 gives 4; t = 20 (d = 0) gives 8 S x 20 / 40 S = 4.
        assert_eq!(Judge::demand(1, 0).allowance(&[timing(6, 10, 10)], 20, 9), 3);
    }

    #[test]
    fn allowance_at_the_edges() {
        for j in [Judge::Density, Judge::demand(0, 0), Judge::demand(9, 5)] {
            assert_eq!(j.allowance(&[], 20, 9), 9);
            assert_eq!(j.allowance(&[], 20, 50), 20);
            assert_eq!(j.allowance(&[], 100_000, 100_000), 100_000);
            assert_eq!(j.allowance(&[], 20, 0), 0);
            assert_eq!(j.allowance(&[], 0, 9), 0);
            assert_eq!(j.allowance(&[], 100_001, 9), 0);
        }
        assert_eq!(Judge::Density.allowance(&[timing(1, 10, 10)], 20, 9), 0);
        // the smallest deadline less 1
        assert_eq!(Judge::demand(0, 0).allowance(&[timing(1, 1, 100_000)], 20, 9), 0);
        assert_eq!(Judge::demand(0, 0).allowance(&[timing(3, 3, 3)], 20, 9), 0);
    }

    /// Random lists, small numbers, often near full: the three laws, and that
    /// every allowance is one the judge accepts.
    #[test]
    fn laws_on_random_lists() {
        let mut rng = Rng::new(7);
        let (mut yes, mut tails) = (0, 0);
        for _ in 0..20_000 {
            let count = rng.range(0, 6);
            let list: Vec<Timing> = (0..count)
                .map(|_| {
                    let t = rng.range(1, 24);
                    let c = rng.range(1, (t * 2 / (count + 1)).max(1));
                    timing(c, rng.range(c, t), t)
                })
                .collect();
            let n = rng.range(0, 9);
            let judge = Judge::demand(n, rng.range(0, 5));
            let says = judge.says_yes(&list);
            if says {
                yes += 1;
                for t in 0..400 {
                    assert!(list.iter().map(|r| r.exact_demand(t)).sum::<i64>() <= t, "{list:?} at {t}");
                }
                let mut fewer = list.clone();
                while !fewer.is_empty() {
                    fewer.remove(rng.range(0, fewer.len() as i64 - 1) as usize);
                    let k = rng.range(0, fewer.len() as i64) as usize % fewer.len().max(1);
                    fewer.rotate_left(k);
                    assert!(judge.says_yes(&fewer), "{fewer:?} of {list:?}");
                }
            } else {
                assert!(!Judge::Density.says_yes(&list), "{list:?}");
            }
            let (period, cap) = (rng.range(1, 60), rng.range(1, 60));
            for j in [judge.clone(), Judge::Density, Judge::either(Judge::Density, judge)] {
                let b = j.allowance(&list, period, cap);
                assert!(b >= 0 && b <= cap.min(period));
                if b > 0 && (says || list.is_empty()) {
                    tails += 1;
                    let mut with = list.clone();
                    with.push(timing(b, b, period));
                    assert!(j.says_yes(&with), "{with:?} {j:?}");
                }
            }
        }
        assert!(yes > 2_000 && tails > 2_000, "{yes} {tails}");
    }

    /// The allowance law as the rules state it, also for lists that the judge
    /// itself refuses: if b > 0 the judge says yes to the list with the tail.
    #[test]
    fn allowance_law_holds_for_refused_lists_too() {
        let mut rng = Rng::new(8);
        for _ in 0..20_000 {
            let list: Vec<Timing> = (0..rng.range(1, 4))
                .map(|_| {
                    let t = rng.range(1, 30);
                    let c = rng.range(1, t);
                    timing(c, rng.range(c, t), t)
                })
                .collect();
            let judge = Judge::demand(rng.range(0, 9), rng.range(0, 5));
            let period = rng.range(1, 100);
            let b = judge.allowance(&list, period, 100);
            let mut with = list.clone();
            with.push(timing(b, b, period));
            assert!(b == 0 || judge.says_yes(&with), "{with:?} {judge:?}");
        }
    }

    /// Long periods, up to 32 rows, densities that sum to just about the scale:
    /// what density takes, demand takes; and every allowance is accepted.
    #[test]
    fn laws_on_large_numbers() {
        let mut rng = Rng::new(9);
        let (mut full, mut tails) = (0, 0);
        for _ in 0..3_000 {
            let count = rng.range(1, 32);
            let mut list = Vec::new();
            let mut left = SCALE;
            for i in 0..count {
                let t = rng.range(1, MAX_PERIOD);
                let d = if rng.percent(50) { t } else { rng.range(1, t) };
                let part = if i == count - 1 { left } else { rng.range(0, 2 * left / (count - i)) };
                let c = part.min(left) * d / SCALE;
                if c >= 1 {
                    let row = timing(c, d, t);
                    left -= row.density();
                    list.push(row);
                }
            }
            assert!(Judge::Density.says_yes(&list));
            full += (left < 100) as usize;
            let n = rng.range(0, 9);
            let judge = Judge::demand(n, rng.range(0, 5));
            assert!(judge.says_yes(&list), "{list:?} {judge:?}");
            list.truncate(rng.range(0, list.len() as i64) as usize);
            let period = rng.range(1, MAX_PERIOD);
            let b = judge.allowance(&list, period, MAX_PERIOD);
            if b > 0 {
                tails += 1;
                list.push(timing(b, b, period));
                assert!(judge.says_yes(&list), "{list:?} {judge:?}");
            }
        }
        assert!(full > 300 && tails > 300, "{full} {tails}");
    }

    /// cargo test --release how_long -- --ignored --nocapture
    #[test]
    #[ignore]
    fn how_long_a_judgement_takes() {
        // 32 rows that get a yes: every check-point is looked at
        let list: Vec<Timing> = (0..32).map(|i| timing(100, 3_300 + 100 * i, 4_000 + 123 * i)).collect();
        for n in [0, 9] {
            let judge = Judge::demand(n, 5);
            let begin = std::time::Instant::now();
            let yes = (0..200).filter(|_| judge.says_yes(std::hint::black_box(&list))).count();
            let judged = begin.elapsed() / 200;
            assert_eq!(yes, 200);
            let begin = std::time::Instant::now();
            let sum: i64 = (0..200).map(|_| judge.allowance(std::hint::black_box(&list[..31]), 9_000, 5_000)).sum();
            println!("{n} steps: judgement {judged:?}, allowance with 5 refinements {:?} ({})", begin.elapsed() / 200, sum / 200);
        }
    }
}
