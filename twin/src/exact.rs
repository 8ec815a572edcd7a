//! Exact tests of a list of rows under earliest deadline first, and the largest tail that fits beside it.

use crate::timing::{timing, Timing};

/// A busy period longer than this is given up, and the list counts as not feasible. Only a list that uses the processor up
/// within a few parts in a thousand million has one.
const LONGEST: i64 = 1 << 50;

fn demand(list: &[Timing], t: i64) -> i64 {
    list.iter().map(|r| r.exact_demand(t)).sum()
}

/// The end of the busy period that starts with every row released at once.
fn busy_period(list: &[Timing]) -> Option<i64> {
    let mut length: i64 = list.iter().map(|r| r.budget).sum();
    loop {
        let next = list.iter().map(|r| (length + r.period - 1) / r.period * r.budget).sum();
        if next == length {
            return Some(length);
        }
        if next > LONGEST {
            return None;
        }
        length = next;
    }
}

/// No deadline is missed first at or after this time.
fn bound(list: &[Timing], used: f64) -> Option<i64> {
    if used < 0.999_999 {
        let late: f64 = list.iter().map(|r| (r.period - r.deadline) as f64 * r.budget as f64 / r.period as f64).sum();
        let longest = list.iter().map(|r| r.deadline).max().unwrap_or(0);
        return Some(((late / (1.0 - used)).ceil() as i64 + 1).max(longest) + 1);
    }
    busy_period(list).map(|length| length + 1)
}

/// The last deadline before t, of all rows released at once.
fn deadline_before(list: &[Timing], t: i64) -> i64 {
    let last = |r: &Timing| if r.deadline < t { (t - 1 - r.deadline) / r.period * r.period + r.deadline } else { 0 };
    list.iter().map(last).max().unwrap_or(0)
}

/// Whether the exact demand is at most t for every t. Goes down from the bound: where the demand at t is below t, no
/// deadline between the two can be missed.
pub fn is_feasible(list: &[Timing]) -> bool {
    let used: f64 = list.iter().map(|r| r.budget as f64 / r.period as f64).sum();
    if used > 1.0 + 1e-12 {
        return false;
    }
    let Some(end) = bound(list, used) else { return false };
    let first = list.iter().map(|r| r.deadline).min().unwrap_or(0);
    let mut t = deadline_before(list, end);
    while t >= first && t > 0 {
        let needed = demand(list, t);
        if needed > t {
            return false;
        }
        t = if needed < t { (needed + 1).min(t) } else { t };
        t = deadline_before(list, t.max(1));
    }
    true
}

/// The largest b up to the period for which the list with (b, b, period) is feasible. What fits at b fits at every smaller one.
pub fn largest_tail(list: &[Timing], period: i64) -> i64 {
    let (mut fits, mut fails) = (0, period + 1);
    let mut with = list.to_vec();
    with.push(timing(1, 1, period));
    while fails - fits > 1 {
        let b = (fits + fails) / 2;
        *with.last_mut().expect("a tail") = timing(b, b, period);
        if is_feasible(&with) {
            fits = b;
        } else {
            fails = b;
        }
    }
    fits
}

#[cfg(test)]
mod tests {
    use super::*;
    use crate::judge::Judge;
    use crate::rng::Rng;

    /// Small lists, against the definition: every t up to two hyperperiods and more.
    #[test]
    fn as_defined() {
        let mut rng = Rng::new(21);
        let (mut yes, mut no) = (0, 0);
        for _ in 0..5_000 {
            let list: Vec<Timing> = (0..rng.range(1, 4))
                .map(|_| {
                    let t = *rng.pick(&[2, 3, 4, 5, 6, 8, 10, 12, 15, 20]);
                    let c = rng.range(1, (t / 2).max(1));
                    timing(c, rng.range(c, t), t)
                })
                .collect();
            let used = list.iter().map(|r| r.budget * 120 / r.period).sum::<i64>();
            let defined = used <= 120 && (0..=300).all(|t| demand(&list, t) <= t);
            assert_eq!(is_feasible(&list), defined, "{list:?}");
            yes += defined as usize;
            no += !defined as usize;
            let period = *rng.pick(&[2, 5, 6, 10, 20, 30]);
            if defined {
                let b = largest_tail(&list, period);
                let taken = |b: i64| b == 0 || is_feasible(&[&list[..], &[timing(b, b, period)]].concat());
                assert!((0..=b).all(taken) && (b + 1..=period).all(|b| !taken(b)), "{list:?} {period} {b}");
                assert!(Judge::demand(9, 5).allowance(&list, period, period) <= b);
            }
        }
        assert!(yes > 500 && no > 500, "{yes} {no}");
    }
}
