//! attack SEED COUNT [--plant NAME]

use std::collections::BTreeMap;
use twin::board::{Board, JudgeChoice, Plant, PLANTS};
use twin::draw::{self, Style};
use twin::placement::Rule;
use twin::rng::Rng;
use twin::simulate::{releases, simulate, Outcome, Pattern, Planned, ALL_PATTERNS, ALL_TIES};
use twin::timing::{Kind, Timing};

/// No board is loaded here, so an error in loading would not show.
fn attack_plants() -> Vec<&'static str> {
    PLANTS.iter().filter(|(_, plant)| *plant != Plant::LoadUnjudged).map(|(name, _)| *name).collect()
}

fn usage() -> ! {
    eprintln!("usage: attack SEED COUNT [--plant {}]", attack_plants().join("|"));
    std::process::exit(2);
}

fn main() {
    let args: Vec<String> = std::env::args().skip(1).collect();
    let mut plant = None;
    let mut numbers: Vec<u64> = Vec::new();
    let mut args = args.iter();
    while let Some(arg) = args.next() {
        if arg == "--plant" {
            plant = Some(args.next().filter(|name| attack_plants().contains(&name.as_str())).and_then(|name| Plant::named(name)).unwrap_or_else(|| usage()));
        } else {
            numbers.push(arg.parse().unwrap_or_else(|_| usage()));
        }
    }
    let [seed, count] = numbers[..] else { usage() };

    let mut rng = Rng::new(seed);
    let mut total = Outcome::default();
    let mut figures = Figures::default();
    for _ in 0..count {
        let (board, requests, gatherings) = filled_board(&mut rng, plant);
        figures.gatherings += gatherings;
        let planned: Vec<Planned> = requests.iter().map(|(key, r)| Planned::of(&board, *key, *r)).collect();
        let late = total.late_instances;
        figures.look_at(&board, &planned);
        attack(&board, &planned, &mut total, &mut rng);
        figures.late_boards += (total.late_instances > late) as usize;
    }

    let show = |w: Option<i64>| w.map_or("-".to_string(), |w| w.to_string());
    println!("seed {seed}");
    if let Some(plant) = plant {
        println!("planted {plant:?}");
    }
    println!("boards {count}");
    println!("reservations {} (split {}, most parts {})", figures.reservations, figures.splits, figures.most_parts);
    println!("processors {}, their mean share used {:.1} %", figures.processors, 100.0 * figures.used / figures.processors.max(1) as f64);
    println!("gatherings {}", figures.gatherings);
    println!("reservations whose rows do not add up {}", figures.untrue);
    println!("instances {} (split {}), pieces {}", total.instances, total.split_instances, total.pieces);
    println!(
        "worst slack {} (whole {}, head {}, tail {}, instance {})",
        show(total.worst()),
        show(total.worst_whole),
        show(total.worst_head),
        show(total.worst_tail),
        show(total.worst_instance)
    );
    println!("late instances {} (late pieces {}, on {} boards)", total.late_instances, total.late_pieces, figures.late_boards);
    if total.late_instances > 0 || figures.untrue > 0 {
        std::process::exit(1);
    }
}

#[derive(Default)]
struct Figures {
    reservations: usize,
    splits: usize,
    most_parts: usize,
    processors: usize,
    used: f64,
    gatherings: usize,
    untrue: usize,
    late_boards: usize,
}

impl Figures {
    fn look_at(&mut self, board: &Board, planned: &[Planned]) {
        self.reservations += planned.len();
        self.splits += planned.iter().filter(|p| p.rows.len() > 1).count();
        self.most_parts = self.most_parts.max(planned.iter().map(|p| p.rows.len()).max().unwrap_or(0));
        self.untrue += planned.iter().filter(|p| !p.is_true_to_request()).count();
        for p in 0..board.processors() {
            self.processors += 1;
            self.used += 1.0 - board.spare_share(p) as f64 / twin::SCALE as f64;
            let tails = board.rows(p).iter().filter(|r| r.kind == Kind::Tail).count();
            assert!(board.rows(p).len() <= 32 && tails <= 1, "a plan against the rules: {:?}", board.rows(p));
        }
    }
}

/// A board filled, churned and filled again, what was asked for by key, and
/// the number of gatherings.
fn filled_board(rng: &mut Rng, plant: Option<Plant>) -> (Board, BTreeMap<i64, Timing>, usize) {
    let judge = *rng.pick(&[JudgeChoice::Density, JudgeChoice::Demand, JudgeChoice::Demand, JudgeChoice::Demand, JudgeChoice::Either]);
    let rule = match rng.below(3) {
        0 => Rule::Best,
        1 => Rule::Fewest,
        _ => {
            let mut order = [1, 2, 3, 4, 5, 6, 7, 8];
            for i in 0..8 {
                order.swap(i, i + rng.below(8 - i));
            }
            Rule::Listed(order)
        }
    };
    let (processors, steps, refinements) = (rng.range(1, 8), rng.range(0, 9), rng.range(0, 5));
    let mut board = Board::set_up(processors, steps, refinements, judge, rule).expect("lawful set-up").planted(plant);
    let longest = *rng.pick(&[12, 30, 80, 200, 400]);
    let styles: &[Style] = match rng.below(5) {
        0 => &[Style::Heavy, Style::Heavy, Style::Split],
        1 => &[Style::Medium, Style::Split, Style::Gap],
        2 => &[Style::Grid, Style::Split, Style::Gap],
        3 => &[Style::Heavy, Style::Medium, Style::Light, Style::Split, Style::Gap, Style::Extreme, Style::Grid],
        _ => &[Style::Medium, Style::Light, Style::Split],
    };
    let mut requests = BTreeMap::new();
    let mut gatherings = 0;
    let mut next_key = 1;
    let rounds = rng.range(0, 3);
    for round in 0..=rounds {
        let mut misses = 0;
        let patience = rng.range(2, 8);
        while misses < patience {
            let style = *rng.pick(styles);
            let r = draw::request(rng, &board, style, longest);
            match board.admit(next_key, r.budget, r.deadline, r.period) {
                Ok(_) => {
                    requests.insert(next_key, r);
                    next_key += 1;
                }
                Err(_) => misses += 1,
            }
        }
        if round < rounds {
            for _ in 0..rng.range(1, 1 + requests.len() as i64 / 2) {
                if let Some(key) = draw::leaver(rng, &board) {
                    let gathered = board.withdraw(key).expect("it stands");
                    gatherings += gathered.iter().filter(|k| **k != 0).count();
                    requests.remove(&key);
                }
            }
        }
    }
    (board, requests, gatherings)
}

/// Every pattern once, the aimed ones more often.
fn attack(board: &Board, planned: &[Planned], total: &mut Outcome, rng: &mut Rng) {
    let longest = planned.iter().map(|p| p.request.period).max().unwrap_or(1);
    for pattern in ALL_PATTERNS {
        let aimed = matches!(pattern, Pattern::Aimed | Pattern::AimedRunning | Pattern::AimedDue);
        let times = if aimed { 3 } else { 1 };
        for _ in 0..times {
            let horizon = (longest * rng.range(2, 8)).min(2500);
            let lists = releases(planned, board.processors(), pattern, horizon, rng);
            let ties = *rng.pick(&ALL_TIES);
            let by_tick = rng.percent(20);
            total.add(&simulate(board.processors(), planned, &lists, ties, by_tick, rng));
        }
    }
}
