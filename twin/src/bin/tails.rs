//! tails SEED COUNT: how much of the largest tail that fits exactly the demand judge's allowance gives away.
//!
//! COUNT lists for each of three tightnesses of the deadlines: 2 to 20 rows, shares drawn evenly (UUniFast) to a total of 0.05 to
//! 0.95, periods of 1 to 1000 ms at 10 microseconds a tick, deadlines even in [C + tightness x (T - C), T], the tail's period like the
//! rows'. The cap is the tail's period. Lists that are infeasible by themselves, or beside which no tail fits at all, are drawn anew.
//! What is lost is counted as a part of the processor, (largest - allowance) / T, and as a part of the largest tail.

use twin::exact::{is_feasible, largest_tail};
use twin::judge::Judge;
use twin::rng::Rng;
use twin::timing::{timing, Timing};

const TIGHTNESSES: [f64; 3] = [0.5, 0.75, 1.0];

fn unit(rng: &mut Rng) -> f64 {
    (rng.next() >> 11) as f64 / (1u64 << 53) as f64
}

fn draw(rng: &mut Rng, tightness: f64) -> Vec<Timing> {
    let rows = rng.range(2, 20) as usize;
    let mut left = 0.05 + 0.9 * unit(rng);
    let mut list = Vec::new();
    for i in 0..rows {
        let next = if i + 1 < rows { left * unit(rng).powf(1.0 / (rows - i - 1) as f64) } else { 0.0 };
        let t = rng.range(100, 100_000);
        let c = (((left - next) * t as f64).round() as i64).clamp(1, t);
        let earliest = c + (tightness * (t - c) as f64).ceil() as i64;
        list.push(timing(c, rng.range(earliest.min(t), t), t));
        left = next;
    }
    list
}

/// Losses of a number of lists.
#[derive(Default, Clone)]
struct Loss {
    lists: usize,
    sum: f64,
    largest: f64,
    /// Lists with nothing lost.
    exact: usize,
}

impl Loss {
    fn add(&mut self, lost: f64) {
        self.lists += 1;
        self.sum += lost;
        self.largest = self.largest.max(lost);
        self.exact += (lost == 0.0) as usize;
    }

    fn show(&self) -> String {
        let n = self.lists.max(1) as f64;
        format!("{},{:.6},{:.6},{:.4}", self.lists, self.sum / n, self.largest, self.exact as f64 / n)
    }
}

fn main() {
    let args: Vec<u64> = std::env::args().skip(1).filter_map(|a| a.parse().ok()).collect();
    let [seed, count] = args[..] else {
        eprintln!("usage: tails SEED COUNT");
        std::process::exit(2);
    };
    let mut rng = Rng::new(seed);
    println!("tightness,steps,refinements,lists,mean,largest,exact,lists,mean of tail,largest of tail,exact,taken lists,taken mean,taken largest,taken exact");
    for tightness in TIGHTNESSES {
        // parts of the processor, and of the largest tail; and parts of the processor for the lists that the judge itself takes, as a board's lists are
        let mut all = vec![Loss::default(); 36];
        let mut of_tail = vec![Loss::default(); 36];
        let mut taken = vec![Loss::default(); 36];
        let (mut drawn, mut infeasible, mut none) = (0, 0, 0);
        while drawn < count {
            let list = draw(&mut rng, tightness);
            if !is_feasible(&list) {
                infeasible += 1;
                continue;
            }
            let period = rng.range(100, 100_000);
            let fits = largest_tail(&list, period);
            if fits == 0 {
                none += 1;
                continue;
            }
            drawn += 1;
            for i in 0..36 {
                let judge = Judge::demand(i as i64 / 6, i as i64 % 6);
                let given = judge.allowance(&list, period, period);
                assert!(given <= fits, "an allowance that does not fit: {list:?} {period} {given} {fits}");
                let lost = (fits - given) as f64 / period as f64;
                all[i].add(lost);
                of_tail[i].add((fits - given) as f64 / fits as f64);
                if judge.says_yes(&list) {
                    taken[i].add(lost);
                }
            }
        }
        for i in 0..36 {
            println!("{tightness},{},{},{},{},{}", i / 6, i % 6, all[i].show(), of_tail[i].show(), taken[i].show());
        }
        eprintln!("tightness {tightness}: {count} lists; drawn anew: {infeasible} infeasible, {none} without room for a tail");
    }
}
