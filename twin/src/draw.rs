//! Random requests, drawn so that boards get nearly full and splits are frequent.

use crate::board::Board;
use crate::rng::Rng;
use crate::timing::{timing, Kind, Timing};
use crate::SCALE;

#[derive(Clone, Copy, Debug, PartialEq, Eq)]
pub enum Style {
    /// 30 to 75 % of a processor.
    Heavy,
    /// 8 to 40 %.
    Medium,
    /// 0 to 3 %: to run out of rows and reservations.
    Light,
    /// Few small round numbers: ties of every kind.
    Grid,
    /// The ends of the ranges.
    Extreme,
    /// More than any one processor has to spare, less than all have together.
    Split,
    /// Just about what one processor has to spare.
    Gap,
}

/// A period of at most `longest`, all magnitudes alike.
pub fn period(rng: &mut Rng, longest: i64) -> i64 {
    if rng.percent(30) {
        let round = [5, 8, 10, 12, 20, 25, 30, 40, 50, 60, 100, 200, 250, 400, 500, 1000, 2000, 5000, 10_000, 50_000, 100_000];
        let upto = round.iter().filter(|t| **t <= longest).count();
        if upto > 0 {
            return round[rng.below(upto)];
        }
    }
    let mut magnitudes = 0;
    while longest >> (magnitudes + 1) > 0 {
        magnitudes += 1;
    }
    let m = rng.range(2.min(magnitudes), magnitudes);
    rng.range(1 << m, (2 << m) - 1).min(longest)
}

fn deadline(rng: &mut Rng, budget: i64, period: i64) -> i64 {
    match rng.below(20) {
        0..=10 => period,
        11..=14 => rng.range(budget.max(period * 3 / 4), period),
        15..=17 => rng.range(budget, period),
        18 => rng.range(budget, (budget + 3).min(period)),
        _ => rng.range(budget.max(period - 3), period),
    }
}

fn of_permille(rng: &mut Rng, low: i64, high: i64, longest: i64) -> Timing {
    let t = period(rng, longest);
    let c = (t * rng.range(low, high) / 1000).clamp(1, t);
    timing(c, deadline(rng, c, t), t)
}

/// A small share with a deadline too short to fit beside what stands: several
/// heads of this kind find room on one processor.
fn tight_try(rng: &mut Rng, board: &Board, longest: i64) -> Timing {
    let standing: Vec<Timing> = (0..board.processors()).flat_map(|p| board.rows(p)).map(|r| r.timing).collect();
    if standing.is_empty() {
        return of_permille(rng, 80, 400, longest);
    }
    let beside = *rng.pick(&standing);
    let d = rng.range(1, (beside.deadline * 3 / 2).min(longest));
    let c = if rng.percent(50) { rng.range(1, d) } else { (beside.deadline - beside.budget + rng.range(1, 4)).clamp(1, d) };
    let t = (beside.period * rng.range(1, 8)).clamp(d, longest.max(d));
    timing(c, d, t)
}

/// More than any one processor has to spare, less than all have together.
fn split_try(rng: &mut Rng, board: &Board, longest: i64) -> Timing {
    if rng.percent(40) {
        return tight_try(rng, board, longest);
    }
    let spares: Vec<i64> = (0..board.processors()).map(|p| board.spare_share(p).max(0)).collect();
    let total = spares.iter().sum::<i64>();
    let most = *spares.iter().max().expect("a processor");
    let high = (total * rng.range(60, 98) / 100).min(SCALE * 95 / 100);
    if high <= most || total < SCALE / 100 {
        return of_permille(rng, 80, 400, longest);
    }
    let part = rng.range(most + 1, high);
    // periods like those that stand, or longer ones
    let standing: Vec<i64> = (0..board.processors()).flat_map(|p| board.rows(p)).map(|r| r.timing.period).collect();
    let t = match rng.below(4) {
        0 => period(rng, longest),
        1 => rng.range(1, longest),
        _ if standing.is_empty() => period(rng, longest),
        _ => (*rng.pick(&standing) * rng.range(1, 4)).min(longest),
    };
    let c = (part * t / SCALE).clamp(1, t);
    let d = if rng.percent(75) { t } else { rng.range(c.max(t * 3 / 4), t) };
    timing(c, d, t)
}

/// The number of rows that the board would make of a request; 0 if refused.
fn trial(board: &Board, r: Timing) -> usize {
    let Some(key) = (1..=65).find(|key| !board.stands(*key)) else { return 0 };
    board.clone().admit(key, r.budget, r.deadline, r.period).map_or(0, |made| made.len())
}

/// Would the board admit it?
pub fn fits(board: &Board, r: Timing) -> bool {
    trial(board, r) > 0
}

pub fn request(rng: &mut Rng, board: &Board, style: Style, longest: i64) -> Timing {
    match style {
        Style::Heavy => of_permille(rng, 300, 750, longest),
        Style::Medium => of_permille(rng, 80, 400, longest),
        Style::Light => {
            let t = rng.range((longest / 8).max(1), longest);
            let c = (t * rng.range(0, 30) / 1000).max(1);
            timing(c, deadline(rng, c, t), t)
        }
        Style::Grid => {
            let t = *rng.pick(&[4, 6, 8, 10, 12, 20, 20, 30, 40]).min(&longest);
            let c = rng.range(1, (t * 3 / 4).max(1));
            let d = if rng.percent(70) { t } else { *rng.pick(&[c, t / 2, t * 3 / 4, t]) };
            timing(c, d.clamp(c, t), t)
        }
        Style::Extreme => {
            let t = *rng.pick(&[1, 2, 3, longest - 1, longest, longest]).max(&1);
            let c = match rng.below(4) {
                0 => 1,
                1 => t,
                2 => (t - 1).max(1),
                _ => rng.range(1, t),
            };
            let d = *rng.pick(&[c, t, (c + 1).min(t), (t - 1).max(c)]);
            timing(c, d, t)
        }
        Style::Split => {
            // a few tries on a copy of the board; the one with the most parts,
            // or the first with as many as wanted
            let wanted = *rng.pick(&[2, 2, 2, 3, 4, 8]);
            let mut most = (0, None);
            for _ in 0..16 {
                let tried = split_try(rng, board, longest);
                let made = trial(board, tried);
                if most.1.is_none() || made > most.0 {
                    most = (made, Some(tried));
                }
                if made >= wanted {
                    break;
                }
            }
            most.1.expect("tried at least once")
        }
        Style::Gap => {
            let spare = board.spare_share(rng.below(board.processors())).max(0);
            let t = period(rng, longest);
            let c = (spare * t / SCALE + rng.range(-1, 1)).clamp(1, t);
            timing(c, if rng.percent(80) { t } else { deadline(rng, c, t) }, t)
        }
    }
}

/// A key to withdraw: any that stands; or often, of some tried on a copy of the
/// board, the one after which most is gathered.
pub fn leaver(rng: &mut Rng, board: &Board) -> Option<i64> {
    let keys = board.keys();
    if keys.is_empty() {
        return None;
    }
    let mut chosen = *rng.pick(&keys);
    let split = (0..board.processors()).flat_map(|p| board.rows(p)).any(|r| r.kind != Kind::Whole);
    if split && rng.percent(50) {
        let mut most = 0;
        let from = rng.below(keys.len());
        for i in 0..keys.len().min(20) {
            let key = keys[(from + i) % keys.len()];
            let gathered = board.clone().withdraw(key).expect("it stands").iter().filter(|k| **k != 0).count();
            if gathered > most {
                (chosen, most) = (key, gathered);
            }
        }
    }
    Some(chosen)
}
