//! The board: set-up, admit, withdraw, look.

use crate::judge::Judge;
use crate::placement::{Rule, Standing};
use crate::refusal::Refusal;
use crate::timing::{timing, Kind, Row, Timing};
use crate::{MAX_KEY, MAX_PERIOD, MAX_PROCESSORS, MAX_REFINEMENTS, MAX_RESERVATIONS, MAX_ROWS, MAX_STEPS, SCALE};

#[derive(Clone, Copy, Debug, PartialEq, Eq)]
pub enum JudgeChoice {
    Density,
    Demand,
    /// Either of density and demand, with these steps and refinements.
    Either,
}

/// Errors planted on purpose, to see whether the attack finds them.
#[derive(Clone, Copy, Debug, PartialEq, Eq)]
pub enum Plant {
    /// The head of a split keeps the newcomer's deadline D.
    HeadKeepsDeadline,
    /// Rows are placed without asking the judge.
    NoJudge,
    /// Each tail is one tick longer than the allowance (if the cap lets it).
    TailPlusOne,
    /// A split reservation is gathered without asking the judge.
    GatherUnasked,
    /// A stored plan is loaded without asking the judge.
    LoadUnjudged,
}

/// The errors by the names that the binaries take.
pub const PLANTS: [(&str, Plant); 5] = [
    ("head-keeps-deadline", Plant::HeadKeepsDeadline),
    ("no-judge", Plant::NoJudge),
    ("tail-plus-one", Plant::TailPlusOne),
    ("gather-unasked", Plant::GatherUnasked),
    ("load-unjudged", Plant::LoadUnjudged),
];

impl Plant {
    pub fn named(name: &str) -> Option<Plant> {
        PLANTS.iter().find(|(n, _)| *n == name).map(|(_, plant)| *plant)
    }
}

/// A row and the processor (from 1) on which it stands.
#[derive(Clone, Copy, Debug, PartialEq, Eq)]
pub struct Placed {
    pub processor: usize,
    pub row: Row,
}

/// One list of rows for each processor.
pub type Plan = Vec<Vec<Row>>;

#[derive(Clone, Debug)]
pub struct Board {
    /// One list of rows for each processor.
    plan: Plan,
    judge: Judge,
    rule: Rule,
    plant: Option<Plant>,
}

impl Board {
    pub fn set_up(processors: i64, steps: i64, refinements: i64, judge: JudgeChoice, rule: Rule) -> Result<Board, Refusal> {
        if processors < 1 || processors > MAX_PROCESSORS as i64 {
            return Err(Refusal::ProcessorCount);
        }
        if steps < 0 || steps > MAX_STEPS {
            return Err(Refusal::TooManySteps);
        }
        if refinements < 0 || refinements > MAX_REFINEMENTS {
            return Err(Refusal::TooManyRefinements);
        }
        if !rule.is_sound() {
            return Err(Refusal::ListedOrder);
        }
        let judge = match judge {
            JudgeChoice::Density => Judge::Density,
            JudgeChoice::Demand => Judge::demand(steps, refinements),
            JudgeChoice::Either => Judge::either(Judge::Density, Judge::demand(steps, refinements)),
        };
        Ok(Board { plan: vec![Vec::new(); processors as usize], judge, rule, plant: None })
    }

    /// The same board with an error planted in it.
    pub fn planted(mut self, plant: Option<Plant>) -> Board {
        self.plant = plant;
        self
    }

    pub fn admit(&mut self, key: i64, budget: i64, deadline: i64, period: i64) -> Result<Vec<Placed>, Refusal> {
        if key < 1 || key > MAX_KEY {
            return Err(Refusal::KeyOutOfRange);
        }
        within_limits(budget, deadline, period)?;
        if self.stands(key) {
            return Err(Refusal::KeyStands);
        }
        if self.keys().len() >= MAX_RESERVATIONS {
            return Err(Refusal::BoardHolds64);
        }
        let newcomer = timing(budget, deadline, period);

        if let Some(p) = self.place_for(newcomer, &[]) {
            let row = Row { key, kind: Kind::Whole, part: 0, timing: newcomer };
            self.plan[p].push(row);
            return Ok(vec![Placed { processor: p + 1, row }]);
        }

        // Split. The processors that have a part (a tail, and at the end the
        // head) are remembered; the plan is changed only once the head is placed.
        let (mut c, mut d) = (budget, deadline);
        let mut tails: Vec<(usize, i64)> = Vec::new(); // processor and budget, in the order set
        loop {
            let taken: Vec<usize> = tails.iter().map(|(p, _)| *p).collect();
            let (p, b) = self.longest_tail(period, c - 1, &taken).ok_or(Refusal::NoPlace)?;
            tails.push((p, b));
            c -= b;
            d -= b;
            let taken: Vec<usize> = tails.iter().map(|(p, _)| *p).collect();
            let head_deadline = if self.plant == Some(Plant::HeadKeepsDeadline) { deadline } else { d };
            let head = timing(c, head_deadline, period);
            if let Some(p) = self.place_for(head, &taken) {
                let mut made = vec![Placed { processor: p + 1, row: Row { key, kind: Kind::Head, part: 0, timing: head } }];
                for (i, (p, b)) in tails.iter().rev().enumerate() {
                    let row = Row { key, kind: Kind::Tail, part: i + 1, timing: timing(*b, *b, period) };
                    made.push(Placed { processor: p + 1, row });
                }
                for placed in &made {
                    self.plan[placed.processor - 1].push(placed.row);
                }
                return Ok(made);
            }
        }
    }

    /// The processor (from 0) that takes a whole row or a head, if any does,
    /// leaving out those in `taken`.
    fn place_for(&self, newcomer: Timing, taken: &[usize]) -> Option<usize> {
        let mut candidates = Vec::new();
        for p in 0..self.plan.len() {
            if taken.contains(&p) || !self.has_free_row(p) {
                continue;
            }
            let mut list = timings(&self.plan[p]);
            list.push(newcomer);
            if self.plant == Some(Plant::NoJudge) || self.judge.says_yes(&list) {
                candidates.push(Standing { number: p + 1, spare_share: self.spare_share(p), rows: self.plan[p].len() });
            }
        }
        self.rule.choose(&candidates).map(|number| number - 1)
    }

    /// The tail search: the processor (from 0) with the largest allowance and
    /// that allowance; nothing if nobody is asked or the largest is 0.
    fn longest_tail(&self, period: i64, cap: i64, taken: &[usize]) -> Option<(usize, i64)> {
        let mut longest: Option<(usize, i64)> = None;
        for p in 0..self.plan.len() {
            let holds_tail = self.plan[p].iter().any(|r| r.kind == Kind::Tail);
            if taken.contains(&p) || holds_tail || !self.has_free_row(p) {
                continue;
            }
            let b = self.judge.allowance(&timings(&self.plan[p]), period, cap);
            if b > longest.map_or(0, |(_, most)| most) {
                longest = Some((p, b));
            }
        }
        if self.plant == Some(Plant::TailPlusOne) {
            longest = longest.map(|(p, b)| (p, if b < cap { b + 1 } else { b }));
        }
        longest
    }

    /// Answers, for each processor, the key gathered there or 0.
    pub fn withdraw(&mut self, key: i64) -> Result<Vec<i64>, Refusal> {
        if !self.stands(key) {
            return Err(Refusal::KeyDoesNotStand);
        }
        let held: Vec<usize> = (0..self.plan.len()).filter(|p| self.plan[*p].iter().any(|r| r.key == key)).collect();
        self.remove(key);
        let mut gathered = vec![0; self.plan.len()];
        for p in held {
            if let Some(candidate) = self.candidate(p) {
                if self.gather(candidate, p) {
                    gathered[p] = candidate;
                }
            }
        }
        Ok(gathered)
    }

    /// Whom to gather on this processor: the reservation with its tail there,
    /// else the one whose head there has the largest share, lower key first.
    fn candidate(&self, p: usize) -> Option<i64> {
        let rows = &self.plan[p];
        if let Some(tail) = rows.iter().find(|r| r.kind == Kind::Tail) {
            return Some(tail.key);
        }
        let mut chosen: Option<&Row> = None;
        for head in rows.iter().filter(|r| r.kind == Kind::Head) {
            let better = match chosen {
                None => true,
                Some(c) => {
                    let (new, old) = (head.timing.share(), c.timing.share());
                    new > old || (new == old && head.key < c.key)
                }
            };
            if better {
                chosen = Some(head);
            }
        }
        chosen.map(|r| r.key)
    }

    fn gather(&mut self, key: i64, p: usize) -> bool {
        let whole = self.reservation(key).expect("a candidate stands");
        let mut list: Vec<Timing> = self.plan[p].iter().filter(|r| r.key != key).map(|r| r.timing).collect();
        list.push(whole);
        if self.plant != Some(Plant::GatherUnasked) && !self.judge.says_yes(&list) {
            return false;
        }
        self.remove(key);
        self.plan[p].push(Row { key, kind: Kind::Whole, part: 0, timing: whole });
        true
    }

    /// The row at a position of a processor, both counted from 1.
    pub fn look(&self, processor: i64, position: i64) -> Result<Row, Refusal> {
        let at = |n: i64| usize::try_from(n).ok().and_then(|n| n.checked_sub(1)).ok_or(Refusal::NoSuchRow);
        let rows = self.plan.get(at(processor)?).ok_or(Refusal::NoSuchRow)?;
        rows.get(at(position)?).copied().ok_or(Refusal::NoSuchRow)
    }

    pub fn judge(&self) -> &Judge {
        &self.judge
    }

    /// Does a stored plan's list of rows pass?
    pub(crate) fn says_yes_on_load(&self, list: &[Timing]) -> bool {
        self.plant == Some(Plant::LoadUnjudged) || self.judge.says_yes(list)
    }

    /// Puts a plan in the place of the one that stands (for `stored::load`,
    /// which has checked it).
    pub(crate) fn replace_plan(&mut self, plan: Plan) {
        assert_eq!(plan.len(), self.plan.len());
        self.plan = plan;
    }

    pub fn processors(&self) -> usize {
        self.plan.len()
    }

    /// The rows of a processor counted from 0, in order.
    pub fn rows(&self, p: usize) -> &[Row] {
        &self.plan[p]
    }

    /// The spare share of a processor counted from 0; signed.
    pub fn spare_share(&self, p: usize) -> i64 {
        SCALE - self.plan[p].iter().map(|r| r.timing.share()).sum::<i64>()
    }

    pub fn stands(&self, key: i64) -> bool {
        self.plan.iter().flatten().any(|r| r.key == key)
    }

    /// The keys that stand, rising.
    pub fn keys(&self) -> Vec<i64> {
        let mut keys: Vec<i64> = self.plan.iter().flatten().map(|r| r.key).collect();
        keys.sort();
        keys.dedup();
        keys
    }

    /// All rows of a reservation: the whole or the head, then the tails by part.
    pub fn rows_of(&self, key: i64) -> Vec<Placed> {
        let mut rows = Vec::new();
        for (p, list) in self.plan.iter().enumerate() {
            rows.extend(list.iter().filter(|r| r.key == key).map(|r| Placed { processor: p + 1, row: *r }));
        }
        rows.sort_by_key(|placed| placed.row.part);
        rows
    }

    /// (C, D, T) of a reservation, put together from its rows.
    pub fn reservation(&self, key: i64) -> Option<Timing> {
        let rows = self.rows_of(key);
        let first = rows.first()?.row.timing;
        let tails: i64 = rows[1..].iter().map(|r| r.row.timing.budget).sum();
        Some(timing(first.budget + tails, first.deadline + tails, first.period))
    }

    fn has_free_row(&self, p: usize) -> bool {
        self.plan[p].len() < MAX_ROWS
    }

    fn remove(&mut self, key: i64) {
        for list in &mut self.plan {
            list.retain(|r| r.key != key);
        }
    }
}

/// The limits of a reservation and of a row, in the order of the refusals.
pub fn within_limits(budget: i64, deadline: i64, period: i64) -> Result<(), Refusal> {
    if budget < 1 {
        return Err(Refusal::NoBudget);
    }
    if budget > deadline {
        return Err(Refusal::BudgetAboveDeadline);
    }
    if deadline > period {
        return Err(Refusal::DeadlineAbovePeriod);
    }
    if period > MAX_PERIOD {
        return Err(Refusal::PeriodTooLong);
    }
    Ok(())
}

pub fn timings(rows: &[Row]) -> Vec<Timing> {
    rows.iter().map(|r| r.timing).collect()
}

#[cfg(test)]
mod tests {
    use super::*;

    fn board(processors: i64, steps: i64, rule: Rule) -> Board {
        Board::set_up(processors, steps, 0, JudgeChoice::Demand, rule).unwrap()
    }

    fn row(key: i64, kind: Kind, part: usize, c: i64, d: i64, t: i64) -> Row {
        Row { key, kind, part, timing: timing(c, d, t) }
    }

    #[test]
    fn set_up_refusals_in_order() {
        let up = |p, s, r, rule| Board::set_up(p, s, r, JudgeChoice::Density, rule).err();
        let bad = || Rule::Listed([1; 8]);
        assert_eq!(up(0, 10, 6, bad()), Some(Refusal::ProcessorCount));
        assert_eq!(up(9, 10, 6, bad()), Some(Refusal::ProcessorCount));
        assert_eq!(up(8, 10, 6, bad()), Some(Refusal::TooManySteps));
        assert_eq!(up(8, 9, 6, bad()), Some(Refusal::TooManyRefinements));
        assert_eq!(up(8, 9, 5, bad()), Some(Refusal::ListedOrder));
        assert_eq!(up(1, 9, 5, Rule::Listed([1, 2, 3, 4, 5, 6, 7, 8])), None);
    }

    #[test]
    fn the_example_of_the_rules() {
        let mut b = board(2, 1, Rule::Best);
        b.admit(1, 6, 10, 10).unwrap();
        assert_eq!(b.admit(2, 6, 10, 10).unwrap()[0].processor, 2);
        let made = b.admit(3, 10, 20, 20).unwrap();
        assert_eq!(made.len(), 2);
        assert_eq!(made[0], Placed { processor: 2, row: row(3, Kind::Head, 0, 7, 17, 20) });
        assert_eq!(made[1], Placed { processor: 1, row: row(3, Kind::Tail, 1, 3, 3, 20) });
        assert_eq!(b.reservation(3), Some(timing(10, 20, 20)));
        assert_eq!(b.withdraw(1), Ok(vec![3, 0]));
        assert_eq!(b.look(1, 1), Ok(row(3, Kind::Whole, 0, 10, 20, 20)));
        assert_eq!(b.look(2, 1), Ok(row(2, Kind::Whole, 0, 6, 10, 10)));
        for (p, i) in [(1, 0), (1, 2), (0, 1), (3, 1), (2, 2), (-1, 1), (i64::MAX, 1), (1, i64::MAX)] {
            assert_eq!(b.look(p, i), Err(Refusal::NoSuchRow));
        }
    }

    #[test]
    fn request_refusals_in_order() {
        let mut b = board(1, 0, Rule::Best);
        b.admit(5, 1, 1, 2).unwrap();
        assert_eq!(b.admit(0, 0, 0, 0), Err(Refusal::KeyOutOfRange));
        assert_eq!(b.admit(65_536, 0, 0, 0), Err(Refusal::KeyOutOfRange));
        assert_eq!(b.admit(5, 0, 0, 0), Err(Refusal::NoBudget));
        assert_eq!(b.admit(5, 100_003, 100_002, 100_001), Err(Refusal::BudgetAboveDeadline));
        assert_eq!(b.admit(5, 1, 100_002, 100_001), Err(Refusal::DeadlineAbovePeriod));
        assert_eq!(b.admit(5, 1, 2, 100_001), Err(Refusal::PeriodTooLong));
        assert_eq!(b.admit(5, 1, 2, 100_000), Err(Refusal::KeyStands));
        assert_eq!(b.admit(6, 3, 4, 4), Err(Refusal::NoPlace));
        assert_eq!(b.withdraw(6), Err(Refusal::KeyDoesNotStand));
        assert_eq!(b.withdraw(0), Err(Refusal::KeyDoesNotStand));
        assert_eq!(b.rows(0).len(), 1);
    }

    #[test]
    fn rows_and_reservations_run_out() {
        let mut b = board(1, 0, Rule::Best);
        for key in 1..=32 {
            b.admit(key, 1, 100_000, 100_000).unwrap();
        }
        assert_eq!(b.admit(33, 1, 100_000, 100_000), Err(Refusal::NoPlace));
        let mut b = board(2, 0, Rule::Fewest);
        for key in 1..=64 {
            let made = b.admit(key, 1, 100_000, 100_000).unwrap();
            assert_eq!(made[0].processor as i64, 2 - key % 2); // odd 1, even 2
        }
        assert_eq!(b.admit(65, 1, 1, 1), Err(Refusal::BoardHolds64));
        assert_eq!(b.admit(64, 1, 1, 1), Err(Refusal::KeyStands));
        assert_eq!(b.withdraw(64), Ok(vec![0, 0]));
        assert_eq!(b.admit(65, 1, 100_000, 100_000).unwrap()[0].processor, 2);
    }

    /// Three processors with (7, 10, 10) each, no steps; u = 734,004 (up from 734,003.2), S = 1,048,576.
    ///
    /// A tail of period 30: M = 314,572 x 30 / S = 8; at t = 10, Q = 3 S and d = 10:
    /// (90 S - 290) / 40 S = 2. So every processor offers 2, and processor 1 wins the tie.
    ///
    /// - (9, 30, 30): at t = 30, 9 S + 7 S + 20 u = 31,457,296 > 30 S = 31,457,280 by 16: not whole. Tail 2 on
    ///   processor 1; head (7, 28, 30): at t = 28, 14 S + 18 u = 27,892,136 <= 28 S = 29,360,128: on processor 2.
    /// - (10, 30, 30): head (8, 28, 30), 28,940,712 <= 29,360,128: on processor 2 too.
    /// - (13, 30, 30): head (11, 28, 30), 32,086,440: no. Second tail 2 on processor 2; head (9, 26, 30) on 3:
    ///   16 S + 16 u = 28,521,280 > 26 S = 27,262,976: no. Third tail 2 on processor 3; then no processor is
    ///   left for the head, and nobody is asked: no place.
    #[test]
    fn splitting_goes_on_until_the_head_fits_or_nobody_is_left() {
        let start = || {
            let mut b = board(3, 0, Rule::Fewest);
            for key in 1..=3 {
                assert_eq!(b.admit(key, 7, 10, 10).unwrap()[0].processor as i64, key);
            }
            b
        };
        let made = start().admit(4, 9, 30, 30);
        assert_eq!(made.as_ref().map(|m| m.len()), Ok(2));
        let made = made.unwrap();
        assert_eq!(made[0], Placed { processor: 2, row: row(4, Kind::Head, 0, 7, 28, 30) });
        assert_eq!(made[1], Placed { processor: 1, row: row(4, Kind::Tail, 1, 2, 2, 30) });
        let made = start().admit(4, 10, 30, 30).unwrap();
        assert_eq!(made[0], Placed { processor: 2, row: row(4, Kind::Head, 0, 8, 28, 30) });
        let mut b = start();
        assert_eq!(b.admit(4, 13, 30, 30), Err(Refusal::NoPlace));
        for p in 0..3 {
            assert_eq!(b.rows(p).len(), 1);
        }
    }

    /// (7, 10, 10), (7, 10, 10) and (6, 10, 10), no steps; shares 734,004 and 629,146. (14, 30, 30) comes.
    ///
    /// Whole on 3: at t = 30, 14 S + 6 S + 20 x 629,146 > 30 S: no. Tails: 2 on 1 and 2 (as above); on 3,
    /// Q = 4 S: (120 S - 290) / 40 S = 2 as well. Processor 1. Head (12, 28, 30) on 3: at t = 28,
    /// 18 S + 18 x 629,146 = 30,198,996 > 28 S = 29,360,128: no; on 2 worse. Second tail: 2, on processor 2.
    /// Head (10, 26, 30) on 3: at t = 26, 16 S + 16 x 629,146 = 26,843,552 <= 26 S = 27,262,976: yes.
    #[test]
    fn the_tail_set_last_is_part_one() {
        let mut b = board(3, 0, Rule::Fewest);
        b.admit(1, 7, 10, 10).unwrap();
        b.admit(2, 7, 10, 10).unwrap();
        b.admit(3, 6, 10, 10).unwrap();
        let made = b.admit(9, 14, 30, 30).unwrap();
        assert_eq!(
            made,
            vec![
                Placed { processor: 3, row: row(9, Kind::Head, 0, 10, 26, 30) },
                Placed { processor: 2, row: row(9, Kind::Tail, 1, 2, 2, 30) },
                Placed { processor: 1, row: row(9, Kind::Tail, 2, 2, 2, 30) },
            ]
        );
        // leaving the middle: processor 2 gathers it whole; its rows go from 1 and 3
        assert_eq!(b.withdraw(2), Ok(vec![0, 9, 0]));
        assert_eq!(b.rows(1), &[row(9, Kind::Whole, 0, 14, 30, 30)]);
        assert_eq!((b.rows(0).len(), b.rows(2).len()), (1, 1));
    }

    #[test]
    fn withdrawing_a_split_one_gathers_on_each_of_its_processors() {
        let mut b = board(2, 1, Rule::Best);
        b.admit(1, 6, 10, 10).unwrap();
        b.admit(2, 6, 10, 10).unwrap();
        b.admit(3, 10, 20, 20).unwrap();
        assert_eq!(b.withdraw(3), Ok(vec![0, 0]));
        assert_eq!((b.rows(0).len(), b.rows(1).len()), (1, 1));
    }

    /// No tail on the processor: the head with the largest share is tried, the lower key
    /// among equals, and no second one.
    #[test]
    fn the_candidate_without_a_tail() {
        let mut b = board(3, 0, Rule::Best);
        let head = |key, c| row(key, Kind::Head, 0, c, 20, 40);
        let tail = |key, c| row(key, Kind::Tail, 1, c, c, 40);
        b.plan[0] = vec![row(1, Kind::Whole, 0, 5, 40, 40), head(8, 5), head(7, 5), head(6, 4)];
        b.plan[1] = vec![tail(8, 3)];
        b.plan[2] = vec![tail(7, 3)];
        assert_eq!(b.candidate(0), Some(7));
        assert_eq!(b.candidate(1), Some(8));
        assert_eq!(b.withdraw(1), Ok(vec![7, 0, 0]));
        assert_eq!(b.rows(0), &[head(8, 5), head(6, 4), row(7, Kind::Whole, 0, 8, 23, 40)]);
        assert!(b.rows(2).is_empty());
    }
}
