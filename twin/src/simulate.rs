//! An earliest-deadline-first simulator for the plan of a board, and the
//! release patterns with which to attack it.
//!
//! The simulator takes a plan at its word: a whole or a head starts at the
//! release and is due its row's deadline later; a tail starts when the part
//! before it is due and is due its own budget later. What is checked is the
//! request as it was made: C ticks by release + D.

use crate::board::{Board, Placed};
use crate::rng::Rng;
use crate::timing::{Kind, Timing};

/// A reservation as asked for, and the rows the board made of it (the whole or
/// the head first, then the tails by part).
#[derive(Clone, Debug)]
pub struct Planned {
    pub request: Timing,
    pub rows: Vec<Placed>,
}

impl Planned {
    pub fn of(board: &Board, key: i64, request: Timing) -> Planned {
        Planned { request, rows: board.rows_of(key) }
    }

    /// For each row: when its piece starts and when it is due, from the release.
    fn windows(&self) -> Vec<(i64, i64)> {
        let mut windows: Vec<(i64, i64)> = Vec::new();
        for placed in &self.rows {
            let timing = placed.row.timing;
            windows.push(match windows.last() {
                None => (0, timing.deadline),
                Some((_, due)) => (*due, due + timing.budget),
            });
        }
        windows
    }

    /// The window of the row on processor p, if there is one.
    fn window_on(&self, p: usize) -> Option<(i64, i64)> {
        let at = self.rows.iter().position(|placed| placed.processor == p)?;
        Some(self.windows()[at])
    }

    /// What the plan promises is what was asked for: the budgets and deadlines
    /// add up, the parts count from 1, no two parts on one processor.
    pub fn is_true_to_request(&self) -> bool {
        let (first, tails) = match self.rows.split_first() {
            Some((first, tails)) => (first, tails),
            None => return false,
        };
        let sum: i64 = tails.iter().map(|t| t.row.timing.budget).sum();
        let kind = if tails.is_empty() { Kind::Whole } else { Kind::Head };
        let mut processors: Vec<usize> = self.rows.iter().map(|r| r.processor).collect();
        processors.sort();
        processors.dedup();
        first.row.kind == kind
            && first.row.part == 0
            && first.row.timing.budget + sum == self.request.budget
            && first.row.timing.deadline + sum == self.request.deadline
            && self.rows.iter().all(|r| r.row.timing.period == self.request.period && r.row.timing.budget >= 1)
            && tails.iter().enumerate().all(|(i, t)| t.row.kind == Kind::Tail && t.row.part == i + 1 && t.row.timing.budget == t.row.timing.deadline)
            && processors.len() == self.rows.len()
    }
}

/// Who goes first among pieces due at the same tick.
#[derive(Clone, Copy, Debug, PartialEq, Eq)]
pub enum Ties {
    Random,
    TailsFirst,
    TailsLast,
    LongestLeft,
    ShortestLeft,
    NewestStart,
    OldestStart,
    LowKey,
    HighKey,
}

pub const ALL_TIES: [Ties; 9] = [
    Ties::Random,
    Ties::TailsFirst,
    Ties::TailsLast,
    Ties::LongestLeft,
    Ties::ShortestLeft,
    Ties::NewestStart,
    Ties::OldestStart,
    Ties::LowKey,
    Ties::HighKey,
];

#[derive(Clone, Debug)]
struct Piece {
    start: i64,
    due: i64,
    left: i64,
    instance: usize,
    reservation: usize,
    kind: Kind,
}

#[derive(Clone, Debug)]
struct Instance {
    budget: i64,
    due: i64,
    /// Ticks served before `due`.
    in_time: i64,
    last_finish: i64,
    piece_late: bool,
}

/// What a simulation saw. Slack is the due tick less the finish; `None` where
/// there was nothing of the kind.
#[derive(Clone, Debug, Default)]
pub struct Outcome {
    pub instances: usize,
    pub split_instances: usize,
    pub pieces: usize,
    pub late_instances: usize,
    pub late_pieces: usize,
    pub worst_whole: Option<i64>,
    pub worst_head: Option<i64>,
    pub worst_tail: Option<i64>,
    pub worst_instance: Option<i64>,
}

fn lower(worst: &mut Option<i64>, slack: i64) {
    *worst = Some(worst.map_or(slack, |w| w.min(slack)));
}

impl Outcome {
    pub fn worst(&self) -> Option<i64> {
        [self.worst_whole, self.worst_head, self.worst_tail, self.worst_instance].into_iter().flatten().min()
    }

    pub fn add(&mut self, other: &Outcome) {
        self.instances += other.instances;
        self.split_instances += other.split_instances;
        self.pieces += other.pieces;
        self.late_instances += other.late_instances;
        self.late_pieces += other.late_pieces;
        for (mine, theirs) in [
            (&mut self.worst_whole, other.worst_whole),
            (&mut self.worst_head, other.worst_head),
            (&mut self.worst_tail, other.worst_tail),
            (&mut self.worst_instance, other.worst_instance),
        ] {
            if let Some(slack) = theirs {
                lower(mine, slack);
            }
        }
    }
}

/// Runs all releases to completion on every processor. With `by_tick` the
/// choice is made anew at every tick, otherwise at every start and finish.
pub fn simulate(processors: usize, planned: &[Planned], releases: &[Vec<i64>], ties: Ties, by_tick: bool, rng: &mut Rng) -> Outcome {
    let mut outcome = Outcome::default();
    let mut instances: Vec<Instance> = Vec::new();
    let mut pieces: Vec<Vec<Piece>> = vec![Vec::new(); processors];
    for (i, (p, releases)) in planned.iter().zip(releases).enumerate() {
        let windows = p.windows();
        for (k, release) in releases.iter().enumerate() {
            assert!(*release >= 0 && (k == 0 || release - releases[k - 1] >= p.request.period), "unlawful releases");
            for (placed, (start, due)) in p.rows.iter().zip(&windows) {
                pieces[placed.processor - 1].push(Piece {
                    start: release + start,
                    due: release + due,
                    left: placed.row.timing.budget,
                    instance: instances.len(),
                    reservation: i,
                    kind: placed.row.kind,
                });
            }
            instances.push(Instance {
                budget: p.request.budget,
                due: release + p.request.deadline,
                in_time: 0,
                last_finish: *release,
                piece_late: false,
            });
            outcome.split_instances += (p.rows.len() > 1) as usize;
        }
    }
    for list in &mut pieces {
        outcome.pieces += list.len();
        run_processor(list, &mut instances, &mut outcome, ties, by_tick, rng);
    }
    outcome.instances = instances.len();
    for i in &instances {
        lower(&mut outcome.worst_instance, i.due - i.last_finish);
        if i.piece_late || i.in_time < i.budget || i.last_finish > i.due {
            outcome.late_instances += 1;
        }
    }
    outcome
}

fn run_processor(pieces: &mut [Piece], instances: &mut [Instance], outcome: &mut Outcome, ties: Ties, by_tick: bool, rng: &mut Rng) {
    pieces.sort_by_key(|p| p.start);
    let mut ready: Vec<usize> = Vec::new();
    let mut next = 0;
    let mut now = 0;
    loop {
        while next < pieces.len() && pieces[next].start <= now {
            ready.push(next);
            next += 1;
        }
        if ready.is_empty() {
            if next == pieces.len() {
                return;
            }
            now = pieces[next].start;
            continue;
        }
        let at = choose(&ready, pieces, ties, rng);
        let piece = &mut pieces[ready[at]];
        let mut run = if by_tick { 1 } else { piece.left };
        let (left, due, kind) = (piece.left, piece.due, piece.kind);
        let instance = &mut instances[piece.instance];
        if next < pieces.len() {
            run = run.min(pieces[next].start - now);
        }
        instance.in_time += (instance.due - now).clamp(0, run);
        now += run;
        pieces[ready[at]].left -= run;
        if left == run {
            let slack = due - now;
            instance.last_finish = instance.last_finish.max(now);
            if slack < 0 {
                instance.piece_late = true;
                outcome.late_pieces += 1;
            }
            match kind {
                Kind::Whole => lower(&mut outcome.worst_whole, slack),
                Kind::Head => lower(&mut outcome.worst_head, slack),
                Kind::Tail => lower(&mut outcome.worst_tail, slack),
            }
            ready.swap_remove(at);
        }
    }
}

/// The place in `ready` of the piece to serve: earliest due, then the ties.
fn choose(ready: &[usize], pieces: &[Piece], ties: Ties, rng: &mut Rng) -> usize {
    let mut chosen = 0;
    let mut equals = 1;
    for at in 1..ready.len() {
        let (new, old) = (&pieces[ready[at]], &pieces[ready[chosen]]);
        if new.due != old.due {
            if new.due < old.due {
                chosen = at;
                equals = 1;
            }
            continue;
        }
        equals += 1;
        let (new_tail, old_tail) = (new.kind == Kind::Tail, old.kind == Kind::Tail);
        let better = match ties {
            Ties::Random => rng.below(equals) == 0,
            Ties::TailsFirst => new_tail && !old_tail,
            Ties::TailsLast => !new_tail && old_tail,
            Ties::LongestLeft => new.left > old.left,
            Ties::ShortestLeft => new.left < old.left,
            Ties::NewestStart => new.start > old.start,
            Ties::OldestStart => new.start < old.start,
            Ties::LowKey => new.reservation < old.reservation,
            Ties::HighKey => new.reservation > old.reservation,
        };
        if better {
            chosen = at;
        }
    }
    chosen
}

/// How the releases fall.
#[derive(Clone, Copy, Debug, PartialEq, Eq)]
pub enum Pattern {
    /// All at 0, periods exact.
    Together,
    /// Random offsets, periods exact.
    Offsets,
    /// Random offsets and random extra gaps.
    Gaps,
    /// All rows of one processor start at the same tick (tails too), then exact
    /// periods; nothing of them before.
    Aimed,
    /// As aimed, but exact periods before that tick as well.
    AimedRunning,
    /// All rows of one processor are due at the same tick, exact periods before and after.
    AimedDue,
    /// Aimed, with each row up to two ticks off.
    Near,
    /// Again and again: a pause, then all rows of some processor start
    /// together and run with exact periods for a while.
    Bursts,
}

pub const ALL_PATTERNS: [Pattern; 8] = [
    Pattern::Together,
    Pattern::Offsets,
    Pattern::Gaps,
    Pattern::Aimed,
    Pattern::AimedRunning,
    Pattern::AimedDue,
    Pattern::Near,
    Pattern::Bursts,
];

fn every(first: i64, period: i64, horizon: i64) -> Vec<i64> {
    (0..).map(|k| first + k * period).take_while(|r| *r < horizon).collect()
}

/// Release times for each reservation, from 0 up to the horizon.
pub fn releases(planned: &[Planned], processors: usize, pattern: Pattern, horizon: i64, rng: &mut Rng) -> Vec<Vec<i64>> {
    let target = rng.below(processors) + 1;
    // an instant that every row can reach with a release at 0 or later
    let longest = planned.iter().map(|p| p.request.period).max().unwrap_or(1);
    let instant = 2 * longest + rng.range(0, longest);
    if pattern == Pattern::Bursts {
        return bursts(planned, processors, horizon, rng);
    }
    planned
        .iter()
        .map(|p| {
            let t = p.request.period;
            let random_offset = rng.range(0, t - 1);
            let window = p.window_on(target);
            match (pattern, window) {
                (Pattern::Together, _) => every(0, t, horizon),
                (Pattern::Offsets, _) => every(random_offset, t, horizon),
                (Pattern::Gaps, _) => with_gaps(random_offset, t, horizon, rng),
                (Pattern::Aimed, Some((start, _))) => every(instant - start, t, instant + horizon),
                (Pattern::AimedRunning, Some((start, _))) => every((instant - start) % t, t, instant + horizon),
                (Pattern::AimedDue, Some((_, due))) => every((instant - due) % t, t, instant + horizon),
                (Pattern::Near, Some((start, _))) => every(instant - start + rng.range(-2, 2).max(start - instant), t, instant + horizon),
                (_, None) => with_gaps(random_offset, t, instant + horizon, rng),
                (Pattern::Bursts, _) => unreachable!(),
            }
        })
        .collect()
}

fn with_gaps(first: i64, period: i64, horizon: i64, rng: &mut Rng) -> Vec<i64> {
    let often = *rng.pick(&[5, 30, 100]);
    let most = *rng.pick(&[1, 3, period, 3 * period]);
    let mut list = Vec::new();
    let mut release = first;
    while release < horizon {
        list.push(release);
        release += period;
        if rng.percent(often) {
            release += rng.range(0, most);
        }
    }
    list
}

fn bursts(planned: &[Planned], processors: usize, horizon: i64, rng: &mut Rng) -> Vec<Vec<i64>> {
    let mut lists: Vec<Vec<i64>> = vec![Vec::new(); planned.len()];
    let mut instant = 0;
    while instant < horizon {
        let target = rng.below(processors) + 1;
        // the earliest tick at which all rows on the target can start together
        let start_of = |p: &Planned| p.window_on(target).map_or(0, |(start, _)| start);
        for (p, list) in planned.iter().zip(&lists) {
            let ready = list.last().map_or(0, |last| last + p.request.period);
            instant = instant.max(ready + start_of(p));
        }
        let longest = planned.iter().map(|p| p.request.period).max().unwrap_or(1);
        let length = rng.range(1, 3 * longest);
        for (p, list) in planned.iter().zip(&mut lists) {
            let first = instant - start_of(p);
            list.extend(every(first, p.request.period, first + length));
        }
        instant += length;
    }
    lists
}

#[cfg(test)]
mod tests {
    use super::*;
    use crate::board::{Board, JudgeChoice};
    use crate::placement::Rule;
    use crate::timing::{timing, Row};

    fn on(processor: usize, key: i64, kind: Kind, part: usize, t: Timing) -> Placed {
        Placed { processor, row: Row { key, kind, part, timing: t } }
    }

    #[test]
    fn slack_by_hand() {
        // (2, 4, 8) and (3, 8, 8) at 0: the first from 0 to 2 (slack 2), the second to 5 (slack 3)
        let planned: Vec<Planned> = [timing(2, 4, 8), timing(3, 8, 8)]
            .iter()
            .enumerate()
            .map(|(i, t)| Planned { request: *t, rows: vec![on(1, i as i64 + 1, Kind::Whole, 0, *t)] })
            .collect();
        for by_tick in [false, true] {
            let o = simulate(1, &planned, &[vec![0], vec![0]], Ties::Random, by_tick, &mut Rng::new(1));
            assert_eq!((o.instances, o.late_instances, o.worst()), (2, 0, Some(2)));
        }
        // released at 5 and 0: 0 to 3 serves the second
        let o = simulate(1, &planned, &[vec![5], vec![0]], Ties::Random, false, &mut Rng::new(1));
        assert_eq!(o.worst(), Some(2));
    }

    #[test]
    fn an_overload_is_late() {
        let planned: Vec<Planned> = (1..=3)
            .map(|key| Planned { request: timing(2, 5, 5), rows: vec![on(1, key, Kind::Whole, 0, timing(2, 5, 5))] })
            .collect();
        for ties in ALL_TIES {
            let o = simulate(1, &planned, &[vec![0], vec![0], vec![0]], ties, false, &mut Rng::new(1));
            assert_eq!((o.late_instances, o.worst()), (1, Some(-1)), "{ties:?}");
        }
    }

    #[test]
    fn tails_start_when_the_part_before_is_due() {
        // head (7, 17, 20) on 2, tail (3, 3, 20) on 1 beside a (6, 10, 10): the board of the rules
        let mut b = Board::set_up(2, 1, 0, JudgeChoice::Demand, Rule::Best).unwrap();
        let requests = [(1, timing(6, 10, 10)), (2, timing(6, 10, 10)), (3, timing(10, 20, 20))];
        for (key, r) in requests {
            b.admit(key, r.budget, r.deadline, r.period).unwrap();
        }
        let planned: Vec<Planned> = requests.iter().map(|(key, r)| Planned::of(&b, *key, *r)).collect();
        assert!(planned.iter().all(|p| p.is_true_to_request()));
        assert_eq!(planned[2].windows(), vec![(0, 17), (17, 20)]);
        let mut rng = Rng::new(1);
        for pattern in ALL_PATTERNS {
            for ties in ALL_TIES {
                let r = releases(&planned, 2, pattern, 400, &mut rng);
                let o = simulate(2, &planned, &r, ties, true, &mut rng);
                assert!(o.instances > 30 && o.late_instances == 0);
                assert_eq!(o.worst_tail, Some(0));
            }
        }
    }
}
