//! benchmark cases|growth [SEED]: the proved library, linked, against the twin. Run it by tools/bench.sh.
//!
//! Both sides get the same numbers: rows as three 32-bit numbers, stored plans as bytes. Both check the limits, set a
//! board up afresh for each list of calls, and load the plan. A round goes once over all lists of a case with one side,
//! then with the other; the best round of each side counts, since other programs share the machine.

use std::hint::black_box;
use std::time::Instant;
use twin::board::{within_limits, Board, JudgeChoice};
use twin::draw::{self, Style};
use twin::judge::Judge;
use twin::placement::Rule;
use twin::rng::Rng;
use twin::stored;
use twin::timing::{timing, Timing};

#[repr(C)]
#[derive(Clone, Copy)]
struct Numbers {
    budget: u32,
    deadline: u32,
    period: u32,
}

#[repr(C)]
#[derive(Clone, Copy)]
struct Setting {
    processors: u32,
    steps: u32,
    refinements: u32,
}

#[repr(C)]
#[derive(Clone, Copy)]
struct Wanted {
    key: u32,
    budget: u32,
    deadline: u32,
    period: u32,
}

/// The number of a refusal and 0, or 0 and the value.
#[repr(C)]
#[derive(Clone, Copy, Debug, PartialEq)]
struct Reply {
    refused: u32,
    value: u64,
}

mod proved {
    use super::{Numbers, Reply, Setting, Wanted};

    extern "C" {
        fn wadispoon_judge(steps: u32, rows: *const Numbers, count: usize) -> Reply;
        fn wadispoon_allowance(steps: u32, refinements: u32, rows: *const Numbers, count: usize, period: u32, cap: u32) -> Reply;
        fn wadispoon_admit(setting: *const Setting, image: *const u8, length: usize, wanted: *const Wanted, count: usize) -> Reply;
        fn wadispoon_withdraw(setting: *const Setting, image: *const u8, length: usize, keys: *const u32, count: usize) -> Reply;
    }

    pub fn judge(steps: u32, rows: &[Numbers]) -> Reply {
        unsafe { wadispoon_judge(steps, rows.as_ptr(), rows.len()) }
    }

    pub fn allowance(steps: u32, refinements: u32, rows: &[Numbers], period: u32, cap: u32) -> Reply {
        unsafe { wadispoon_allowance(steps, refinements, rows.as_ptr(), rows.len(), period, cap) }
    }

    pub fn admit(setting: &Setting, image: &[u8], wanted: &[Wanted]) -> Reply {
        unsafe { wadispoon_admit(setting, image.as_ptr(), image.len(), wanted.as_ptr(), wanted.len()) }
    }

    pub fn withdraw(setting: &Setting, image: &[u8], keys: &[u32]) -> Reply {
        unsafe { wadispoon_withdraw(setting, image.as_ptr(), image.len(), keys.as_ptr(), keys.len()) }
    }
}

/// The same calls of the twin.
mod plain {
    use super::*;

    const OK: u32 = 0;

    fn read(rows: &[Numbers]) -> Result<Vec<Timing>, u32> {
        if rows.len() > 32 {
            return Err(51);
        }
        let row = |r: &Numbers| {
            let (c, d, t) = (r.budget as i64, r.deadline as i64, r.period as i64);
            within_limits(c, d, t).map_err(|refusal| refusal.number())?;
            Ok(timing(c, d, t))
        };
        rows.iter().map(row).collect()
    }

    fn reply(answer: Result<u64, u32>) -> Reply {
        match answer {
            Ok(value) => Reply { refused: OK, value },
            Err(refused) => Reply { refused, value: 0 },
        }
    }

    #[inline(never)]
    pub fn judge(steps: u32, rows: &[Numbers]) -> Reply {
        reply(read(rows).map(|list| Judge::demand(steps as i64, 0).says_yes(&list) as u64))
    }

    #[inline(never)]
    pub fn allowance(steps: u32, refinements: u32, rows: &[Numbers], period: u32, cap: u32) -> Reply {
        let judge = Judge::demand(steps as i64, refinements as i64);
        reply(read(rows).map(|list| judge.allowance(&list, period as i64, cap as i64) as u64))
    }

    fn open(setting: &Setting, image: &[u8]) -> Result<Board, u32> {
        let Setting { processors, steps, refinements } = *setting;
        let board = Board::set_up(processors as i64, steps as i64, refinements as i64, JudgeChoice::Demand, Rule::Best);
        let mut board = board.map_err(|refusal| refusal.number())?;
        stored::load(&mut board, image).map_err(|fault| fault.refusal.number())?;
        Ok(board)
    }

    #[inline(never)]
    pub fn admit(setting: &Setting, image: &[u8], wanted: &[Wanted]) -> Reply {
        reply(open(setting, image).map(|mut board| {
            let admitted = |w: &&Wanted| board.admit(w.key as i64, w.budget as i64, w.deadline as i64, w.period as i64).is_ok();
            wanted.iter().filter(admitted).count() as u64
        }))
    }

    #[inline(never)]
    pub fn withdraw(setting: &Setting, image: &[u8], keys: &[u32]) -> Reply {
        reply(open(setting, image).map(|mut board| keys.iter().filter(|key| board.withdraw(**key as i64).is_ok()).count() as u64))
    }
}

/// Nanoseconds a call of each side: the best round and the median round.
#[derive(Clone, Copy)]
struct Times {
    ours: [f64; 2],
    twin: [f64; 2],
}

/// Goes over the lists of a case with one side and the other, round after round, for about `seconds`.
fn time<X>(lists: &[X], seconds: f64, ours: impl Fn(&X) -> Reply, twin: impl Fn(&X) -> Reply) -> Times {
    for list in lists {
        assert_eq!(ours(list), twin(list), "the two sides disagree");
    }
    let round = |side: &dyn Fn(&X) -> Reply| {
        let begin = Instant::now();
        for list in lists {
            black_box(side(black_box(list)));
        }
        begin.elapsed().as_nanos() as f64 / lists.len() as f64
    };
    let (mut a, mut b) = (Vec::new(), Vec::new());
    let begin = Instant::now();
    while a.len() < 15 || begin.elapsed().as_secs_f64() < seconds {
        a.push(round(&ours));
        b.push(round(&twin));
    }
    Times { ours: best_and_median(a), twin: best_and_median(b) }
}

fn best_and_median(mut times: Vec<f64>) -> [f64; 2] {
    times.sort_by(|x, y| x.total_cmp(y));
    [times[0], times[times.len() / 2]]
}

/// The time of `all` less that of `some`, a part for each of `parts` calls.
fn less(all: Times, some: Times, parts: f64) -> Times {
    let minus = |a: [f64; 2], b: [f64; 2]| [(a[0] - b[0]) / parts, (a[1] - b[1]) / parts];
    Times { ours: minus(all.ours, some.ours), twin: minus(all.twin, some.twin) }
}

/// A list that the demand judge takes at every number of steps, at about this share of the processor.
fn list(rng: &mut Rng, rows: usize) -> Vec<Timing> {
    loop {
        let mut left = rng.range(500, 850) as f64 / 1000.0;
        let mut list = Vec::new();
        for i in 0..rows {
            let rest = (rows - i - 1) as f64;
            let next = if rest > 0.0 { left * (rng.range(1, 1_000_000) as f64 / 1e6).powf(1.0 / rest) } else { 0.0 };
            let t = rng.range(1_000, 100_000);
            let c = (((left - next) * t as f64) as i64).clamp(1, t);
            list.push(timing(c, rng.range(c + (t - c) * 3 / 4, t), t));
            left = next;
        }
        if Judge::demand(0, 0).says_yes(&list) {
            return list;
        }
    }
}

fn numbers(list: &[Timing]) -> Vec<Numbers> {
    list.iter().map(|r| Numbers { budget: r.budget as u32, deadline: r.deadline as u32, period: r.period as u32 }).collect()
}

fn judgement(rng: &mut Rng, rows: usize, steps: u32, seconds: f64) -> Times {
    let lists: Vec<Vec<Numbers>> = (0..400).map(|_| numbers(&list(rng, rows))).collect();
    assert!(lists.iter().all(|l| proved::judge(steps, l).value == 1));
    time(&lists, seconds, |l| proved::judge(steps, l), |l| plain::judge(steps, l))
}

/// Tails that can be had: an allowance above 0, except beside 32 rows.
fn allowances(rng: &mut Rng, rows: usize, steps: u32, refinements: u32, seconds: f64) -> Times {
    let mut lists = Vec::new();
    while lists.len() < 400 {
        let rows_given = numbers(&list(rng, rows));
        let period = rng.range(1_000, 100_000) as u32;
        if rows == 32 || proved::allowance(steps, refinements, &rows_given, period, period).value > 0 {
            lists.push((rows_given, period));
        }
    }
    time(&lists, seconds, |(l, p)| proved::allowance(steps, refinements, l, *p, *p), |(l, p)| plain::allowance(steps, refinements, l, *p, *p))
}

fn empty_board(s: Setting) -> Board {
    Board::set_up(s.processors as i64, s.steps as i64, s.refinements as i64, JudgeChoice::Demand, Rule::Best).expect("a lawful setting")
}

fn wanted(key: i64, r: Timing) -> Wanted {
    Wanted { key: key as u32, budget: r.budget as u32, deadline: r.deadline as u32, period: r.period as u32 }
}

/// A board on which requests of these styles were refused a few times in a row.
fn filled(rng: &mut Rng, setting: Setting, styles: &[Style], most: usize) -> Board {
    let mut board = empty_board(setting);
    let mut misses = 0;
    let mut key = 1;
    while misses < 8 && board.keys().len() < most {
        let style = *rng.pick(styles);
        let r = draw::request(rng, &board, style, 100_000);
        match board.admit(key, r.budget, r.deadline, r.period) {
            Ok(_) => key += 1,
            Err(_) => misses += 1,
        }
    }
    board
}

/// A stored plan, a list of admissions and one of withdrawals.
struct Calls {
    image: Vec<u8>,
    admit: Vec<Wanted>,
    leave: Vec<u32>,
}

fn time_calls(setting: Setting, calls: &[Calls], seconds: f64) -> Times {
    if calls.iter().any(|c| !c.leave.is_empty()) {
        time(calls, seconds, |c| proved::withdraw(&setting, &c.image, &c.leave), |c| plain::withdraw(&setting, &c.image, &c.leave))
    } else {
        time(calls, seconds, |c| proved::admit(&setting, &c.image, &c.admit), |c| plain::admit(&setting, &c.image, &c.admit))
    }
}

/// The mean time of a call: that of the lists less that of loading alone.
fn each_call(setting: Setting, calls: &[Calls], seconds: f64) -> Times {
    let alone: Vec<Calls> = calls.iter().map(|c| Calls { image: c.image.clone(), admit: vec![], leave: vec![] }).collect();
    let count: usize = calls.iter().map(|c| c.admit.len() + c.leave.len()).sum();
    less(time_calls(setting, calls, seconds), time_calls(setting, &alone, seconds), count as f64 / calls.len() as f64)
}

const FULL: &[Style] = &[Style::Heavy, Style::Medium, Style::Medium, Style::Light, Style::Split, Style::Gap];

/// Admissions that one board after the other takes whole, one each.
fn wholes(rng: &mut Rng, setting: Setting, boards: usize) -> Vec<Calls> {
    newcomers(rng, setting, boards, 40, |made| made == Some(1))
}

fn splits(rng: &mut Rng, setting: Setting, boards: usize) -> Vec<Calls> {
    newcomers(rng, setting, boards, 63, |made| made.is_some_and(|rows| rows > 1))
}

/// Boards filled up to so many reservations, each with a newcomer that fares as wanted.
fn newcomers(rng: &mut Rng, setting: Setting, boards: usize, most: usize, fares: impl Fn(Option<usize>) -> bool) -> Vec<Calls> {
    let mut calls = Vec::new();
    while calls.len() < boards {
        let board = filled(rng, setting, FULL, most);
        for _ in 0..60 {
            let style = *rng.pick(FULL);
            let r = draw::request(rng, &board, style, 100_000);
            let made = board.clone().admit(60_000, r.budget, r.deadline, r.period).ok().map(|rows| rows.len());
            if fares(made) {
                calls.push(Calls { image: stored::save(&board), admit: vec![wanted(60_000, r)], leave: vec![] });
                break;
            }
        }
    }
    calls
}

/// Sixteen admissions that a full board refuses, for want of a place.
fn refusals(rng: &mut Rng, setting: Setting, boards: usize) -> Vec<Calls> {
    let mut calls = Vec::new();
    while calls.len() < boards {
        let board = filled(rng, setting, FULL, 63);
        let mut admit = Vec::new();
        for _ in 0..300 {
            let style = *rng.pick(&[Style::Heavy, Style::Medium, Style::Split]);
            let r = draw::request(rng, &board, style, 100_000);
            if admit.len() < 16 && !draw::fits(&board, r) {
                admit.push(wanted(60_000, r));
            }
        }
        if admit.len() == 16 {
            calls.push(Calls { image: stored::save(&board), admit, leave: vec![] });
        }
    }
    calls
}

/// All that stand on a full board leave, in any order.
fn leavers(rng: &mut Rng, setting: Setting, boards: usize) -> Vec<Calls> {
    let boards = (0..boards).map(|_| filled(rng, setting, FULL, 64)).collect::<Vec<_>>();
    let leave = |board: &Board, rng: &mut Rng| {
        let mut keys: Vec<u32> = board.keys().iter().map(|k| *k as u32).collect();
        for i in (1..keys.len()).rev() {
            keys.swap(i, rng.below(i + 1));
        }
        keys
    };
    boards.iter().map(|board| Calls { image: stored::save(board), admit: vec![], leave: leave(board, rng) }).collect()
}

fn images(list: Vec<Vec<u8>>) -> Vec<Calls> {
    list.into_iter().map(|image| Calls { image, admit: vec![], leave: vec![] }).collect()
}

/// 256 records on 8 processors. No lawful judge takes so many: 64 reservations and a tail a processor are 72 rows.
fn crowded(rng: &mut Rng, parts: usize) -> Vec<u8> {
    let mut image = vec![1, 8];
    image.extend(256u16.to_le_bytes());
    for p in 0..8u16 {
        image.extend((32 * p + 1).to_le_bytes());
    }
    for record in 0..256usize {
        let next = if record % 32 == 31 { 0 } else { record as u16 + 2 };
        // record 32 p + i: in one part each key stands once; in four, a key stands on four neighbouring processors
        let (p, i) = (record / 32, record % 32);
        let (key, part) = if parts == 1 { (record + 1, 0) } else { ((p / 4) * 32 + i + 1, p % 4) };
        let t = 90_000 + rng.range(0, 9_999) as u32 / 1_000 * 1_000;
        let t = if parts == 1 { t } else { 90_000 + key as u32 };
        let c = rng.range(1, 9) as u32;
        let d = if part > 0 { c } else { t / 2 };
        image.extend(next.to_le_bytes());
        image.extend((key as u16).to_le_bytes());
        image.extend([if parts == 1 { 0 } else if part == 0 { 1 } else { 2 }, part as u8]);
        for n in [c, d, t] {
            image.extend(n.to_le_bytes());
        }
    }
    image
}

fn micro(ns: f64) -> String {
    match ns / 1000.0 {
        us if us < 1.0 => format!("{us:.3}"),
        us if us < 10.0 => format!("{us:.2}"),
        us => format!("{us:.1}"),
    }
}

fn line(name: &str, t: Times) {
    let ratio = t.twin[0] / t.ours[0];
    println!("| {name} | {} | {} | {:.2} | {} | {} |", micro(t.ours[0]), micro(t.twin[0]), ratio, micro(t.ours[1]), micro(t.twin[1]));
}

const HEADER: &str = "| Call | Library | Twin | Twin ÷ library | Library, median | Twin, median |\n|---|---|---|---|---|---|";

fn cases(rng: &mut Rng, seconds: f64) {
    println!("{HEADER}");
    for (steps, refinements) in [(2, 2), (9, 5)] {
        for rows in [2, 8, 20, 32] {
            line(&format!("judgement, {rows} rows, {steps} steps"), judgement(rng, rows, steps, seconds));
        }
        for rows in [2, 8, 20, 31, 32] {
            line(&format!("allowance, {rows} rows, {steps} steps, {refinements} refinements"), allowances(rng, rows, steps, refinements, seconds));
        }
    }
    for (steps, refinements) in [(2, 2), (9, 5)] {
        let setting = Setting { processors: 8, steps, refinements };
        let with = format!("{steps} steps, {refinements} refinements");
        line(&format!("admission, whole, {with}"), each_call(setting, &wholes(rng, setting, 100), seconds));
        line(&format!("admission, split, {with}"), each_call(setting, &splits(rng, setting, 100), seconds));
        line(&format!("admission, no place, {with}"), each_call(setting, &refusals(rng, setting, 50), seconds));
        line(&format!("withdrawal, {with}"), each_call(setting, &leavers(rng, setting, 50), seconds));
        let full = (0..100).map(|_| stored::save(&filled(rng, setting, &[Style::Light, Style::Light, Style::Medium, Style::Split], 64))).collect::<Vec<_>>();
        let records = full.iter().map(|image| (image.len() - 20) / 18).sum::<usize>() / full.len();
        let unset = time_calls(setting, &images(vec![vec![]; 100]), seconds);
        line(&format!("load of {records} records (mean), {with}"), less(time_calls(setting, &images(full), seconds), unset, 1.0));
        if steps == 9 {
            let many = |parts: usize, rng: &mut Rng| images((0..50).map(|_| crowded(rng, parts)).collect());
            let (keys, split) = (many(1, rng), many(4, rng));
            assert_eq!(proved::admit(&setting, &keys[0].image, &[]).refused, 38);
            assert_eq!(proved::admit(&setting, &split[0].image, &[]).refused, 39);
            line("load of 256 records, refused: 256 keys", less(time_calls(setting, &keys, seconds), unset, 1.0));
            line("load of 256 records, refused: 64 keys of 4 rows, judge says no", less(time_calls(setting, &split, seconds), unset, 1.0));
            line("set-up of 8 processors, and freeing", unset);
        }
    }
    worst(rng);
}

/// The longest admission found: rows crowd on one or two processors, since a judgement grows with the square of its rows, and a
/// heavy row keeps a newcomer off each of the others.
fn worst(rng: &mut Rng) {
    let mut found: (f64, f64) = (0.0, 0.0);
    let tries = 3_000;
    for _ in 0..tries {
        let setting = Setting { processors: rng.range(2, 8) as u32, steps: 9, refinements: 5 };
        let image = crowded_plan(rng, setting.processors as usize);
        let t = rng.range(1_000, 100_000);
        let c = t * rng.range(50, 950) / 1000;
        let w = [wanted(60_000, timing(c, rng.range(c, t), t))];
        let (ours, twin) = (|l: &[Wanted]| proved::admit(&setting, &image, l), |l: &[Wanted]| plain::admit(&setting, &image, l));
        assert_eq!(ours(&w), twin(&w));
        let best = |side: &dyn Fn(&[Wanted]) -> Reply, list: &[Wanted]| {
            let once = |_| {
                let begin = Instant::now();
                black_box(side(black_box(list)));
                begin.elapsed().as_nanos() as f64
            };
            (0..4).map(once).fold(f64::MAX, f64::min)
        };
        let (a, b) = (best(&ours, &w) - best(&ours, &[]), best(&twin, &w) - best(&twin, &[]));
        found = (found.0.max(a), found.1.max(b));
    }
    let name = format!("the longest admission of {tries} on crowded boards, 9 steps, 5 refinements");
    println!("| {name} | {} | {} | {:.2} | | |", micro(found.0), micro(found.1), found.1 / found.0);
}

/// A plan of at most 63 whole reservations: one or two processors with many rows, the others with a heavy one.
fn crowded_plan(rng: &mut Rng, processors: usize) -> Vec<u8> {
    let crowds = rng.range(1, 2) as usize;
    let mut left = 63 - (processors - crowds);
    let lists: Vec<Vec<Timing>> = (0..processors)
        .map(|p| {
            if p < crowds {
                let rows = left.min(31);
                left -= rows;
                return list(rng, rows);
            }
            let t = rng.range(1_000, 100_000);
            vec![timing(t * rng.range(500, 970) / 1000, t, t)]
        })
        .collect();
    composed(&lists)
}

/// The stored plan with these rows, all whole.
fn composed(lists: &[Vec<Timing>]) -> Vec<u8> {
    let count: usize = lists.iter().map(|list| list.len()).sum();
    let mut image = vec![1, lists.len() as u8];
    image.extend((count as u16).to_le_bytes());
    let mut first = 1u16;
    for list in lists {
        image.extend(first.to_le_bytes());
        first += list.len() as u16;
    }
    let mut number = 0u16;
    for list in lists {
        for (i, r) in list.iter().enumerate() {
            number += 1;
            let next = if i + 1 < list.len() { number + 1 } else { 0 };
            image.extend(next.to_le_bytes());
            image.extend(number.to_le_bytes());
            image.extend([0, 0]);
            for n in [r.budget, r.deadline, r.period] {
                image.extend((n as u32).to_le_bytes());
            }
        }
    }
    image
}

fn growth(rng: &mut Rng, seconds: f64) {
    let show = |what: &str, x: u32, t: Times| println!("{what},{x},{:.1},{:.1}", t.ours[0], t.twin[0]);
    println!("what,x,library ns,twin ns");
    for rows in 2..=32u32 {
        show("judgement by rows", rows, judgement(rng, rows as usize, 2, seconds));
        if rows < 32 {
            show("allowance by rows", rows, allowances(rng, rows as usize, 2, 2, seconds));
        }
    }
    for steps in 0..=9 {
        show("judgement by steps", steps, judgement(rng, 20, steps, seconds));
        show("allowance by steps", steps, allowances(rng, 20, steps, 2, seconds));
    }
    for processors in 1..=8 {
        let setting = Setting { processors, steps: 2, refinements: 2 };
        show("admission whole by processors", processors, each_call(setting, &newcomers(rng, setting, 60, 5 * processors as usize, |made| made == Some(1)), seconds));
        show("admission without a place by processors", processors, each_call(setting, &refusals(rng, setting, 30), seconds));
    }
}

fn main() {
    let args: Vec<String> = std::env::args().skip(1).collect();
    let seed = args.get(1).and_then(|s| s.parse().ok()).unwrap_or(1);
    let seconds = args.get(2).and_then(|s| s.parse().ok()).unwrap_or(0.5);
    let mut rng = Rng::new(seed);
    match args.first().map(|s| s.as_str()) {
        Some("cases") => cases(&mut rng, seconds),
        Some("growth") => growth(&mut rng, seconds),
        _ => {
            eprintln!("usage: benchmark cases|growth [SEED [SECONDS A MEASUREMENT]]");
            std::process::exit(2);
        }
    }
}
