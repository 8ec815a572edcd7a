//! Random workbench sessions: boards saved, images loaded whole and damaged,
//! judgements and allowances.

use crate::board::{within_limits, Board};
use crate::console::{Program, MARKER};
use crate::draw::{self, Style};
use crate::judge::Judge;
use crate::rng::Rng;
use crate::timing::{timing, Timing};
use crate::workbench::{hex, Workbench};
use crate::{MAX_PERIOD, SCALE};
use std::collections::BTreeMap;

/// What the sessions written so far made the workbench reply.
#[derive(Default, Debug)]
pub struct Tally {
    pub sessions: usize,
    pub lines: usize,
    /// Loads sent.
    pub loads: usize,
    /// Loads whose image saving does not give back as it was.
    pub relinked: usize,
    /// Replies by their first word (a row's line by its kind).
    pub replies: BTreeMap<String, usize>,
    pub refusals: BTreeMap<u32, usize>,
    /// Refused images by number and place (places above 9 together).
    pub places: BTreeMap<(u32, usize), usize>,
    /// Loads by the way the image was made: loaded, refused.
    pub ways: BTreeMap<String, (usize, usize)>,
    /// Loads taken by their number of tails.
    pub tails: BTreeMap<usize, usize>,
    pub most_records: usize,
    /// Allowances above 0.
    pub positive: usize,
}

/// A record as the bytes have it.
#[derive(Clone, Debug, PartialEq)]
struct Record {
    next: u16,
    key: u16,
    kind: u8,
    part: u8,
    /// budget, deadline, period
    times: [u32; 3],
}

impl Record {
    fn timing(&self) -> Timing {
        timing(self.times[0] as i64, self.times[1] as i64, self.times[2] as i64)
    }
}

/// An image taken apart.
#[derive(Clone, Debug)]
struct Image {
    form: u8,
    m: u8,
    count: u16,
    heads: Vec<u16>,
    records: Vec<Record>,
}

/// For each processor its records in row order; `next` means nothing here.
type Lists = Vec<Vec<Record>>;

impl Image {
    /// Of an image that a save gave.
    fn parse(bytes: &[u8]) -> Image {
        let two = |at: usize| bytes[at] as u16 | (bytes[at + 1] as u16) << 8;
        let four = |at: usize| two(at) as u32 | (two(at + 2) as u32) << 16;
        let m = bytes[1] as usize;
        let records = (0..two(2) as usize).map(|i| 4 + 2 * m + 18 * i);
        let records = records
            .map(|at| Record {
                next: two(at),
                key: two(at + 2),
                kind: bytes[at + 4],
                part: bytes[at + 5],
                times: [four(at + 6), four(at + 10), four(at + 14)],
            })
            .collect();
        Image { form: bytes[0], m: bytes[1], count: two(2), heads: (0..m).map(|p| two(4 + 2 * p)).collect(), records }
    }

    fn bytes(&self) -> Vec<u8> {
        let mut bytes = vec![self.form, self.m];
        bytes.extend(self.count.to_le_bytes());
        for head in &self.heads {
            bytes.extend(head.to_le_bytes());
        }
        for r in &self.records {
            bytes.extend(r.next.to_le_bytes());
            bytes.extend(r.key.to_le_bytes());
            bytes.extend([r.kind, r.part]);
            for n in r.times {
                bytes.extend(n.to_le_bytes());
            }
        }
        bytes
    }

    /// Of an image whose chains are sound.
    fn lists(&self) -> Lists {
        let chain = |head: &u16| {
            let mut list = Vec::new();
            let mut at = *head;
            while at != 0 {
                let record = self.records[at as usize - 1].clone();
                at = record.next;
                list.push(record);
            }
            list
        };
        self.heads.iter().map(chain).collect()
    }

    /// The lists as an image, the records in row order.
    fn linked(lists: &Lists) -> Image {
        let mut image = Image { form: 1, m: lists.len() as u8, count: 0, heads: Vec::new(), records: Vec::new() };
        for list in lists {
            image.heads.push(if list.is_empty() { 0 } else { image.records.len() as u16 + 1 });
            for (i, record) in list.iter().enumerate() {
                let next = if i + 1 == list.len() { 0 } else { image.records.len() as u16 + 2 };
                image.records.push(Record { next, ..record.clone() });
            }
        }
        image.count = image.records.len() as u16;
        image
    }

    /// The same chains with the records in another order. Indexes that lead
    /// nowhere are kept.
    fn shuffle(&mut self, rng: &mut Rng) {
        let count = self.records.len();
        let mut order: Vec<usize> = (0..count).collect(); // order[new] = old
        if rng.percent(20) {
            order.reverse();
        } else if rng.percent(25) && count >= 2 {
            let (a, b) = (rng.below(count), rng.below(count));
            order.swap(a, b);
        } else {
            for i in (1..count).rev() {
                order.swap(i, rng.below(i + 1));
            }
        }
        let moved = |index: u16| match order.iter().position(|old| *old + 1 == index as usize) {
            Some(new) => new as u16 + 1,
            None => index,
        };
        self.heads = self.heads.iter().map(|head| moved(*head)).collect();
        let record = |old: &usize| {
            let record = &self.records[*old];
            Record { next: moved(record.next), ..record.clone() }
        };
        self.records = order.iter().map(record).collect();
    }
}

struct Writer<'a> {
    rng: &'a mut Rng,
    bench: Workbench,
    lines: Vec<Vec<u8>>,
    tally: &'a mut Tally,
    next_key: i64,
    any_key: bool,
    longest: i64,
    /// Images saved or loaded in this session.
    saved: Vec<Vec<u8>>,
}

/// The lines of one session, without newlines.
pub fn session(rng: &mut Rng, tally: &mut Tally) -> Vec<Vec<u8>> {
    tally.sessions += 1;
    let any_key = rng.percent(50);
    let longest = *rng.pick(&[40, 200, 1000, 10_000, MAX_PERIOD, MAX_PERIOD]);
    let mut w = Writer { rng, bench: Workbench::default(), lines: Vec::new(), tally, next_key: 1, any_key, longest, saved: Vec::new() };
    w.write();
    w.lines
}

impl Writer<'_> {
    fn push(&mut self, line: impl Into<Vec<u8>>) -> String {
        let mut line: Vec<u8> = line.into();
        for byte in &mut line {
            if *byte == b'\n' {
                *byte = 11;
            }
        }
        if line == MARKER {
            line.push(b'-');
        }
        let over = self.bench.ended();
        let reply = self.bench.line(&line);
        if !over {
            self.tally.lines += 1;
            self.count(&reply);
        }
        self.lines.push(line);
        reply
    }

    fn count(&mut self, reply: &str) {
        let words: Vec<&str> = reply.split_whitespace().collect();
        if words.is_empty() {
            return;
        }
        let word = if words[0].parse::<u32>().is_ok() { words[1] } else { words[0] };
        *self.tally.replies.entry(word.to_string()).or_default() += 1;
        if word == "refused" {
            let (number, place) = (words[1].parse().unwrap(), words[2].parse::<usize>().unwrap());
            *self.tally.refusals.entry(number).or_default() += 1;
            if (30..40).contains(&number) {
                *self.tally.places.entry((number, place.min(10))).or_default() += 1;
            }
        }
        if word == "allowance" && words[1] != "0" {
            self.tally.positive += 1;
        }
    }

    fn board(&self) -> &Board {
        self.bench.board().expect("set up")
    }

    fn write(&mut self) {
        let good = self.set_up_line();
        let line = if self.rng.percent(8) { bad_set_up(self.rng, &good) } else { good };
        self.push(line);
        if self.bench.board().is_none() {
            for _ in 0..self.rng.range(0, 2) {
                self.push("save");
            }
            return;
        }
        let styles: &[Style] = match self.rng.below(6) {
            0 => &[Style::Light],
            1 => &[Style::Heavy, Style::Split, Style::Split],
            2 => &[Style::Grid, Style::Split],
            3 => &[Style::Medium, Style::Split, Style::Gap],
            _ => &[Style::Heavy, Style::Medium, Style::Light, Style::Split, Style::Split, Style::Gap, Style::Extreme, Style::Grid],
        };
        for round in 0..self.rng.range(1, 3) {
            let admissions = match self.rng.below(8) {
                0 if round == 0 => 0,
                0 | 1 => self.rng.range(1, 3),
                2 if styles.len() == 1 => 70,
                _ => self.rng.range(2, 8 + 4 * self.board().processors() as i64),
            };
            for _ in 0..admissions {
                let style = *self.rng.pick(styles);
                self.admit(style);
                if self.rng.percent(6) {
                    self.leave();
                }
            }
            self.save();
            for _ in 0..self.rng.range(4, 30) {
                self.step(styles);
            }
        }
        self.save();
        if self.rng.percent(4) {
            self.sweep();
        }
    }

    /// One line, or a few, after the board was filled.
    fn step(&mut self, styles: &[Style]) {
        match self.rng.below(100) {
            0..=54 => {
                let loaded = self.load();
                if loaded && self.rng.percent(40) {
                    for _ in 0..self.rng.range(1, 4) {
                        match self.rng.below(4) {
                            0 => self.leave(),
                            1 => self.look(),
                            2 => self.save(),
                            _ => {
                                let style = *self.rng.pick(styles);
                                self.admit(style);
                            }
                        }
                    }
                }
            }
            55..=66 => self.judge(),
            67..=80 => self.allow(),
            81..=86 => self.look(),
            87..=88 => self.save(),
            89..=91 => self.leave(),
            92..=94 => {
                let style = *self.rng.pick(styles);
                self.admit(style);
            }
            _ => {
                let line = malformed(self.rng);
                self.push(line);
            }
        }
    }

    fn set_up_line(&mut self) -> String {
        let rng = &mut *self.rng;
        let rule = match rng.below(3) {
            0 => "best".to_string(),
            1 => "fewest".to_string(),
            _ => {
                let mut order = [1, 2, 3, 4, 5, 6, 7, 8];
                for i in (1..8).rev() {
                    order.swap(i, rng.below(i + 1));
                }
                order.iter().fold("listed".to_string(), |line, n| format!("{line} {n}"))
            }
        };
        let judge = *rng.pick(&["density", "demand", "demand", "either"]);
        format!("board {} {} {} {judge} {rule}", rng.range(1, 8), rng.range(0, 9), rng.range(0, 5))
    }

    fn admit(&mut self, style: Style) {
        let board = self.bench.board().expect("set up");
        let mut r = draw::request(self.rng, board, style, self.longest);
        if self.rng.percent(60) && !draw::fits(board, r) {
            r = draw::request(self.rng, board, Style::Split, self.longest);
        }
        let again = self.rng.percent(2) && !board.keys().is_empty();
        let key = loop {
            if again {
                break *self.rng.pick(&board.keys());
            }
            let key = if self.any_key { self.rng.range(1, 65_535) } else { self.next_key };
            self.next_key += 1;
            if !board.stands(key) {
                break key;
            }
        };
        self.push(format!("admit {key} {} {} {}", r.budget, r.deadline, r.period));
    }

    fn leave(&mut self) {
        let key = draw::leaver(self.rng, self.bench.board().expect("set up")).unwrap_or(1);
        self.push(format!("leave {key}"));
    }

    fn save(&mut self) {
        let reply = self.push("save");
        let image = unhex(reply.trim_end().strip_prefix("saved ").expect("a save"));
        self.saved.push(image);
    }

    fn look(&mut self) {
        let m = self.board().processors() as i64;
        let p = if self.rng.percent(90) { self.rng.range(1, m) } else { *self.rng.pick(&[0, m + 1, 9, 255, 256, 257, 4_294_967_295]) };
        let rows = self.board().rows((p - 1).clamp(0, m - 1) as usize).len() as i64;
        let n = if self.rng.percent(85) { self.rng.range(1, rows.max(1)) } else { *self.rng.pick(&[0, rows + 1, 32, 33, 257, 4_294_967_295]) };
        self.push(format!("look {p} {n}"));
    }

    /// An image of what stands, damaged at every byte, one after the other; whatever was taken gives way to the sound image again.
    fn sweep(&mut self) {
        let sound = crate::stored::save(self.board());
        for at in 0..sound.len() {
            let mut bytes = sound.clone();
            bytes[at] ^= match self.rng.below(3) {
                0 => 1,
                1 => 1 << self.rng.below(8),
                _ => self.rng.range(1, 255) as u8,
            };
            if self.load_bytes("every byte".to_string(), bytes) {
                self.load_bytes("sound".to_string(), sound.clone());
            }
        }
    }

    /// Loads an image; true if it was taken.
    fn load(&mut self) -> bool {
        let (way, bytes) = self.image();
        self.load_bytes(way, bytes)
    }

    fn load_bytes(&mut self, way: String, bytes: Vec<u8>) -> bool {
        let mut digits = hex(&bytes);
        if self.rng.percent(10) {
            digits = digits.to_uppercase();
        } else if self.rng.percent(10) {
            digits = digits.chars().map(|c| if self.rng.percent(50) { c.to_ascii_uppercase() } else { c }).collect();
        }
        let reply = self.push(format!("load {digits}"));
        let loaded = reply.starts_with("loaded");
        self.tally.loads += 1;
        let way = self.tally.ways.entry(way).or_default();
        if loaded {
            way.0 += 1;
            self.tally.most_records = self.tally.most_records.max(u16::from_le_bytes([bytes[2], bytes[3]]) as usize);
            let tails = Image::parse(&bytes).records.iter().filter(|r| r.kind == 2).count();
            *self.tally.tails.entry(tails).or_default() += 1;
            self.tally.relinked += (reply != format!("loaded {}\n", hex(&bytes))) as usize;
            if self.saved.len() < 12 {
                self.saved.push(bytes);
            }
        } else {
            way.1 += 1;
        }
        loaded
    }

    /// Bytes to load, and the way they were made.
    fn image(&mut self) -> (String, Vec<u8>) {
        let m = self.board().processors();
        let (source, lists) = match self.rng.below(10) {
            0 => ("crowd", self.crowd(m)),
            1..=3 => ("composed", self.composed(m)),
            4..=6 => {
                // of a few, the last with a split
                let mut bytes = self.rng.pick(&self.saved).clone();
                for _ in 0..3 {
                    let other = self.rng.pick(&self.saved);
                    if Image::parse(other).records.iter().any(|r| r.kind != 0) {
                        bytes = other.clone();
                    }
                }
                if self.rng.percent(50) {
                    let way = damage_bytes(self.rng, &mut bytes);
                    return (format!("bytes {way}"), bytes);
                }
                ("saved", Image::parse(&bytes).lists())
            }
            _ => ("standing", Image::parse(&crate::stored::save(self.board())).lists()),
        };
        let mut lists = lists;
        let mut way = source.to_string();
        let changes = *self.rng.pick(&[0, 1, 1, 1, 1, 1, 2, 2, 3]);
        let mut image = None; // once set, the lists count no more
        for i in 0..changes {
            let rest = changes - i;
            let done = match self.rng.below(10) {
                0..=4 if image.is_none() => {
                    if self.rng.percent(20) {
                        self.to_the_edge(&mut lists)
                    } else {
                        damage_lists(self.rng, &mut lists)
                    }
                }
                5 if rest == 1 => {
                    let mut bytes = image.take().unwrap_or_else(|| Image::linked(&lists)).bytes();
                    let done = damage_bytes(self.rng, &mut bytes);
                    way = if changes == 1 { format!("bytes {done}") } else { "several".to_string() };
                    return (way, bytes);
                }
                6 | 7 => {
                    image.get_or_insert_with(|| Image::linked(&lists)).shuffle(self.rng);
                    "shuffled"
                }
                _ => damage_records(self.rng, image.get_or_insert_with(|| Image::linked(&lists))),
            };
            way = if changes == 1 { done.to_string() } else { "several".to_string() };
        }
        let image = image.unwrap_or_else(|| Image::linked(&lists));
        (way, image.bytes())
    }

    /// A whole row or a head gets the largest budget that the judge takes, or one more.
    fn to_the_edge(&mut self, lists: &mut Lists) -> &'static str {
        let p = self.rng.below(lists.len());
        let choice: Vec<usize> = (0..lists[p].len()).filter(|i| lists[p][*i].kind < 2).collect();
        if choice.is_empty() {
            return "nothing";
        }
        let at = *self.rng.pick(&choice);
        let list: Vec<Timing> = lists[p].iter().map(|r| r.timing()).collect();
        if list.iter().all(|r| within_limits(r.budget, r.deadline, r.period).is_ok()) {
            let edge = self.largest_budget(&list, at) + self.rng.range(0, 1);
            lists[p][at].times[0] = edge.clamp(1, list[at].deadline) as u32;
        }
        "to the edge"
    }

    /// The largest budget of that row with which the judge takes the list; 0 if there is none.
    fn largest_budget(&self, list: &[Timing], at: usize) -> i64 {
        let mut list = list.to_vec();
        let (mut yes, mut no) = (0, list[at].deadline + 1);
        while no - yes > 1 {
            let middle = (yes + no) / 2;
            list[at].budget = middle;
            if self.board().judge().says_yes(&list) {
                yes = middle;
            } else {
                no = middle;
            }
        }
        yes
    }

    /// Many small rows: around 32 on a processor, around 64 keys.
    fn crowd(&mut self, m: usize) -> Lists {
        let rng = &mut *self.rng;
        let rows = *rng.pick(&[30, 31, 32, 33, 63, 64, 64, 65, 65, 66, 128, 255, 256, 256, 257]);
        let mut lists = vec![Vec::new(); m];
        let mut key = rng.range(1, 65_000) as u16;
        for i in 0..rows {
            let open: Vec<usize> = (0..m).filter(|p| lists[*p].len() < 32).collect();
            let p = if open.is_empty() || rng.percent(1) && rng.percent(10) { i % m } else { *rng.pick(&open) };
            let t = rng.range(50_000, MAX_PERIOD) as u32;
            lists[p].push(Record { next: 0, key, kind: 0, part: 0, times: [rng.range(1, 30) as u32, t, t] });
            key += 1;
        }
        lists
    }

    /// A plan made of whole and split reservations that obey the rules for keys;
    /// mostly each row is also one that the judge takes at the end of its list.
    fn composed(&mut self, m: usize) -> Lists {
        let judge = self.bench.board().expect("set up").judge().clone();
        let rng = &mut *self.rng;
        let asked = rng.percent(75);
        let takes = |list: &[Record], r: &Record| {
            let mut list: Vec<Timing> = list.iter().map(|r| r.timing()).collect();
            list.push(r.timing());
            judge.says_yes(&list)
        };
        let mut lists: Lists = vec![Vec::new(); m];
        let goal = rng.range(200, 1100);
        let key_from = rng.range(1, 60_000) as u16;
        let count = rng.range(0, 5 * m as i64) as u16;
        let mut keys: Vec<u16> = (0..count).map(|i| key_from + i).collect();
        for i in (1..keys.len()).rev() {
            keys.swap(i, rng.below(i + 1));
        }
        for key in keys {
            let t = draw::period(rng, self.longest).max(4);
            let c = (t * rng.range(1, goal / 3) / 1000).clamp(1, t);
            let x = if m > 1 && c > 1 && rng.percent(50) { rng.range(1, (m as i64 - 1).min(c - 1)) } else { 0 };
            let mut places: Vec<usize> = (0..m).collect();
            for i in (1..m).rev() {
                places.swap(i, rng.below(i + 1));
            }
            let (mut c, mut d) = (c, if rng.percent(70) { t } else { rng.range(c, t) });
            let mut rows: Vec<Record> = Vec::new();
            for part in 1..=x {
                let b = rng.range(1, (c - (x - part) - 1).min(1 + c / (x + 1)).max(1));
                rows.push(Record { next: 0, key, kind: 2, part: part as u8, times: [b as u32, b as u32, t as u32] });
                c -= b;
                d -= b;
            }
            let d = if rng.percent(50) { d } else { rng.range(c, d) };
            rows.push(Record { next: 0, key, kind: (x > 0) as u8, part: 0, times: [c as u32, d as u32, t as u32] });
            let mut with = lists.clone();
            let mut placed = true;
            for row in rows {
                let at = places.iter().position(|p| takes(&lists[*p], &row));
                let p = places.remove(at.unwrap_or(0));
                with[p].push(row);
                placed &= at.is_some();
            }
            if placed || !asked {
                lists = with;
            }
        }
        lists
    }

    /// A list near the edge of what the judge takes, or a processor's.
    fn list(&mut self) -> Vec<Timing> {
        let m = self.board().processors();
        if self.rng.percent(35) {
            let p = self.rng.below(m);
            let mut list: Vec<Timing> = self.board().rows(p).iter().map(|r| r.timing).collect();
            let board = self.bench.board().expect("set up");
            match self.rng.below(4) {
                0 => {}
                1 => list.push(draw::request(self.rng, board, Style::Gap, self.longest)),
                2 => list.push(draw::request(self.rng, board, Style::Grid, self.longest)),
                _ if !list.is_empty() => {
                    let at = self.rng.below(list.len());
                    let r = &mut list[at];
                    r.deadline = self.rng.range(r.budget, r.period);
                }
                _ => {}
            }
            return list;
        }
        if self.rng.percent(30) {
            // tiny: demands that are just the time, but for the rounding of shares
            let rng = &mut *self.rng;
            let row = |rng: &mut Rng| {
                let t = *rng.pick(&[3, 3, 5, 6, 7, 9, 11, 12, 13]);
                let c = rng.range(1, (t * 2 / 3).max(1));
                timing(c, rng.range(c, t), t)
            };
            let mut list: Vec<Timing> = (0..rng.range(1, 2)).map(|_| row(rng)).collect();
            let d = rng.range(1, 40);
            list.push(timing(1, d, *rng.pick(&[d, 2 * d, 60, 1000, MAX_PERIOD]).max(&d)));
            return list;
        }
        let rng = &mut *self.rng;
        let count = match rng.below(10) {
            0 => rng.range(28, 40),
            1 => *rng.pick(&[0, 31, 32, 33]),
            _ => rng.range(1, 7),
        };
        let small = rng.percent(40);
        let fill = rng.range(500, 1150) * SCALE / 1000;
        let by_density = rng.percent(30);
        let mut left = fill;
        let mut list = Vec::new();
        for i in 0..count {
            let t = if small { rng.range(1, 30) } else { draw::period(rng, self.longest) };
            let d = match rng.below(4) {
                0 | 1 => t,
                2 => rng.range((t / 2).max(1), t),
                _ => rng.range(1, t),
            };
            let part = if i == count - 1 { left } else { rng.range(0, (2 * left / (count - i)).max(0)) };
            let c = (part * if by_density { d } else { t } / SCALE).clamp(1, d);
            let row = timing(c, d, t);
            left -= if by_density { row.density() } else { row.share() };
            list.push(row);
        }
        list
    }

    fn judge(&mut self) {
        let mut list = self.list();
        if self.rng.percent(60) && !list.is_empty() {
            let at = if self.rng.percent(50) { list.len() - 1 } else { self.rng.below(list.len()) };
            let edge = self.largest_budget(&list, at) + self.rng.range(0, 1);
            list[at].budget = edge.clamp(1, list[at].deadline);
        }
        let line = format!("judge{}", self.spelled(&list));
        self.push(line);
    }

    /// A row and a period where the rule's quotient for the first check-point
    /// (start value 0) has no remainder but for its correction.
    fn exact(&mut self) -> Option<(Timing, i64)> {
        let n = match self.board().judge() {
            Judge::Density => return None,
            Judge::Demand { steps, .. } => *steps,
            Judge::Either(_, b) => match **b {
                Judge::Demand { steps, .. } => steps,
                _ => return None,
            },
        };
        for _ in 0..50 {
            let d = self.rng.range(4, 100);
            let c = self.rng.range(1, d - 1);
            let fitting = |t: &i64| d >= n * t && (d - c) * t % ((n + 1) * t + d - n * t) == 0;
            let periods: Vec<i64> = (1..=300).filter(fitting).collect();
            if !periods.is_empty() {
                let t = *self.rng.pick(&periods);
                return Some((timing(c, d, self.rng.range(d, 2 * d + 50)), t));
            }
        }
        None
    }

    fn allow(&mut self) {
        if self.rng.percent(15) {
            if let Some((row, t)) = self.exact() {
                self.push(format!("allow {t} 100000 {} {} {}", row.budget, row.deadline, row.period));
                return;
            }
        }
        let mut list = self.list();
        let t = match self.rng.below(12) {
            0 => *self.rng.pick(&[0, 1, 2, 99_999, 100_000, 100_001, 4_294_967_295]),
            1..=4 if !list.is_empty() => (self.rng.pick(&list).period * self.rng.range(1, 6)).min(MAX_PERIOD),
            5 => self.rng.range(1, 40),
            _ => draw::period(self.rng, self.longest),
        };
        let cap = match self.rng.below(10) {
            0 => *self.rng.pick(&[0, 1, 2, t, 100_000, 100_001, 4_294_967_295]),
            1..=4 => 100_000,
            _ => self.rng.range(0, t),
        };
        let line = format!("allow {t} {cap}{}", self.spelled(&list));
        let reply = self.push(line);
        let b = reply.trim_end().strip_prefix("allowance ").and_then(|n| n.parse::<i64>().ok());
        if let (Some(b), true) = (b, list.len() < 40 && (1..=MAX_PERIOD).contains(&t) && self.rng.percent(30)) {
            // the tail itself, or one a little longer
            let b = (b + self.rng.range(0, 1)).clamp(1, t);
            list.push(timing(b, b, t));
            let line = format!("judge{}", self.spelled(&list));
            self.push(line);
        }
    }

    /// The rows as they stand in a line; seldom one of them outside the limits.
    fn spelled(&mut self, list: &[Timing]) -> String {
        let mut rows: Vec<[i64; 3]> = list.iter().map(|r| [r.budget, r.deadline, r.period]).collect();
        if self.rng.percent(6) && !rows.is_empty() {
            for _ in 0..self.rng.range(1, 2) {
                let at = self.rng.below(rows.len());
                let [c, d, t] = rows[at];
                rows[at] = match self.rng.below(6) {
                    0 => [0, d, t],
                    1 => [d + 1, d, t],
                    2 => [c, t + 1, t],
                    3 => [c, d, MAX_PERIOD + 1],
                    4 => [t, c, d],
                    _ => [c, 4_294_967_295, 4_294_967_295],
                };
            }
        }
        rows.iter().map(|[c, d, t]| format!(" {c} {d} {t}")).collect()
    }
}

fn unhex(digits: &str) -> Vec<u8> {
    (0..digits.len() / 2).map(|i| u8::from_str_radix(&digits[2 * i..2 * i + 2], 16).unwrap()).collect()
}

/// Damage that does not care what the bytes mean.
fn damage_bytes(rng: &mut Rng, bytes: &mut Vec<u8>) -> &'static str {
    match rng.below(10) {
        0..=4 => {
            let front = rng.percent(20);
            let at = rng.below(if front { 6 } else { bytes.len() });
            let old = bytes[at];
            bytes[at] = match rng.below(5) {
                0 => old.wrapping_add(1),
                1 => old.wrapping_sub(1),
                2 => old ^ 1 << rng.below(8),
                3 => *rng.pick(&[0, 1, 2, 255, 128]),
                _ => rng.next() as u8,
            };
            "changed"
        }
        5 | 6 => {
            let size = match rng.below(4) {
                0 => bytes.len() - 1,
                1 => bytes.len().saturating_sub(18),
                2 => rng.below(bytes.len().min(8)),
                _ => rng.below(bytes.len()),
            };
            bytes.truncate(size);
            "truncated"
        }
        7 | 8 => {
            let more = *rng.pick(&[1, 2, 17, 18, 18, 18, 36]);
            let zeros = rng.percent(50);
            for _ in 0..more {
                bytes.push(if zeros { 0 } else { rng.next() as u8 });
            }
            if rng.percent(60) {
                // the count of records goes with it: a record is left over
                let count = u16::from_le_bytes([bytes[2], bytes[3]]).wrapping_add(1);
                bytes[2..4].copy_from_slice(&count.to_le_bytes());
            }
            "extended"
        }
        _ => {
            let (a, b) = (rng.below(bytes.len()), rng.below(bytes.len()));
            bytes.swap(a, b);
            "two swapped"
        }
    }
}

/// Damage to records and chain heads.
fn damage_records(rng: &mut Rng, image: &mut Image) -> &'static str {
    let count = image.records.len();
    let m = image.heads.len();
    if m == 0 {
        return "nothing";
    }
    if count == 0 || rng.percent(8) {
        return match rng.below(5) {
            0 => {
                image.form = *rng.pick(&[0, 2, 3, 255]);
                "form"
            }
            1 => {
                image.m = *rng.pick(&[0, image.m.wrapping_sub(1), image.m.wrapping_add(1), 8, 9, 255]);
                "m"
            }
            2 => {
                // another count of processors, with heads to match
                if rng.percent(50) {
                    image.heads.push(0);
                } else {
                    image.heads.pop();
                }
                image.m = image.heads.len() as u8;
                "heads"
            }
            3 => {
                image.count = *rng.pick(&[image.count.wrapping_add(1), image.count.wrapping_sub(1), 0, 256, 257, 65_535, image.count.wrapping_add(256)]);
                "count"
            }
            _ => {
                let p = rng.below(m);
                image.heads[p] = *rng.pick(&[1, 2, count as u16 + 1, 256, 257, 65_535]);
                "head index"
            }
        };
    }
    let (a, b) = (rng.below(count), rng.below(count));
    match rng.below(8) {
        0 => {
            image.records[a].next = match rng.below(6) {
                0 => a as u16 + 1,
                1 => 0,
                2 => count as u16 + 1,
                3 => *rng.pick(&[256, 257, 65_535]),
                _ => b as u16 + 1,
            };
            "next"
        }
        1 => {
            let (p, q) = (rng.below(m), rng.below(m));
            match rng.below(4) {
                0 => image.heads[p] = image.heads[q],
                1 => image.heads[p] = b as u16 + 1,
                2 => image.heads[p] = *rng.pick(&[0, count as u16 + 1, 65_535]),
                _ => image.heads.swap(p, q),
            }
            "heads changed"
        }
        2 | 3 => {
            // one field swapped between two records
            let (mut x, mut y) = (image.records[a].clone(), image.records[b].clone());
            match rng.below(7) {
                0 => std::mem::swap(&mut x.next, &mut y.next),
                1 => std::mem::swap(&mut x.key, &mut y.key),
                2 => std::mem::swap(&mut x.kind, &mut y.kind),
                3 => std::mem::swap(&mut x.part, &mut y.part),
                n => std::mem::swap(&mut x.times[n - 4], &mut y.times[n - 4]),
            }
            image.records[b] = y;
            image.records[a] = x;
            "fields swapped"
        }
        4 => {
            let r = &mut image.records[a];
            match rng.below(4) {
                0 => r.times.swap(0, 1),
                1 => r.times.swap(1, 2),
                2 => r.times.swap(0, 2),
                _ => std::mem::swap(&mut r.next, &mut r.key),
            }
            "swapped within"
        }
        5 | 6 => {
            let r = &mut image.records[a];
            match rng.below(8) {
                0 => r.key = 0,
                1 => r.kind = *rng.pick(&[0, 1, 2, 3, 4, 255]),
                2 => r.part = *rng.pick(&[0, 1, 2, 7, 8, 255]),
                3 => r.times[0] = *rng.pick(&[0, 1, r.times[1], r.times[1].wrapping_add(1), u32::MAX, 1 << 31]),
                4 => r.times[1] = *rng.pick(&[0, r.times[0], r.times[0].wrapping_sub(1), r.times[2], r.times[2].wrapping_add(1), u32::MAX]),
                5 => r.times[2] = *rng.pick(&[0, r.times[1], r.times[1].wrapping_sub(1), 100_000, 100_001, u32::MAX, r.times[2].wrapping_add(1 << 16)]),
                6 => {
                    // two bad records
                    r.times[0] = 0;
                    image.records[b].kind = 3;
                }
                _ => {
                    // a bad record, and a bad index in the last chain
                    r.kind = 9;
                    image.heads[m - 1] = count as u16 + 1;
                }
            }
            "bad record"
        }
        _ => {
            let copy = image.records[a].clone();
            if rng.percent(50) {
                image.records[b] = Record { next: image.records[b].next, ..copy };
            } else {
                image.records.push(copy);
                image.count = image.count.wrapping_add(1);
            }
            "record copied"
        }
    }
}

/// Changes to the plan that leave chains and (mostly) records sound: for the
/// rules about keys and judges.
fn damage_lists(rng: &mut Rng, lists: &mut Lists) -> &'static str {
    let all: Vec<(usize, usize)> = lists.iter().enumerate().flat_map(|(p, list)| (0..list.len()).map(move |i| (p, i))).collect();
    if all.is_empty() {
        return "nothing";
    }
    // splits are rare: half of the time one of their rows, if there are any
    let parts: Vec<(usize, usize)> = all.iter().filter(|(p, i)| lists[*p][*i].kind != 0).copied().collect();
    let (p, i) = if !parts.is_empty() && rng.percent(65) { *rng.pick(&parts) } else { *rng.pick(&all) };
    let (q, j) = *rng.pick(&all);
    match rng.below(14) {
        0 => {
            lists[p].remove(i);
            "row dropped"
        }
        1 | 2 => {
            let row = lists[p].remove(i);
            let to = rng.below(lists.len());
            let at = rng.below(lists[to].len() + 1);
            lists[to].insert(at, row);
            "row moved"
        }
        3 => {
            let row = lists[p][i].clone();
            let to = rng.below(lists.len());
            lists[to].push(row);
            "row doubled"
        }
        4 => {
            lists[p][i].key = lists[q][j].key;
            "key taken over"
        }
        5 => {
            lists[p][i].key = *rng.pick(&[1, 255, 256, 65_535]);
            "key changed"
        }
        6 => {
            let row = &mut lists[p][i];
            row.kind = (row.kind % 3 + rng.range(1, 2) as u8) % 3;
            row.part = (row.kind == 2) as u8;
            if row.kind == 2 {
                row.times[1] = row.times[0];
            }
            "kind changed"
        }
        7 => {
            let row = &mut lists[p][i];
            if row.kind == 2 {
                row.part = *rng.pick(&[1, 2, 3, 7, row.part.wrapping_add(1)]);
            } else {
                row.times[1] = rng.range(row.times[0] as i64, row.times[2] as i64) as u32;
            }
            "part or deadline"
        }
        8 => {
            // the period of one row, or of all rows of its key
            let key = lists[p][i].key;
            let t = lists[p][i].times[2];
            let t = *rng.pick(&[t.wrapping_add(1), t.saturating_sub(1), t.wrapping_mul(2), MAX_PERIOD as u32]);
            if rng.percent(50) {
                lists[p][i].times[2] = t;
            } else {
                for row in lists.iter_mut().flatten().filter(|row| row.key == key) {
                    row.times[2] = t;
                }
            }
            "period"
        }
        9 => {
            // the head's deadline plus the tails' budgets: just the period, or one or more above
            let key = lists[p][i].key;
            let tails: u32 = lists.iter().flatten().filter(|row| row.key == key && row.kind == 2).fold(0, |sum: u32, row| sum.saturating_add(row.times[0]));
            for row in lists.iter_mut().flatten().filter(|row| row.key == key && row.kind != 2) {
                let just = row.times[2].saturating_sub(tails);
                row.times[1] = *rng.pick(&[just, just.wrapping_add(1), row.times[2]]);
                row.times[0] = row.times[0].min(row.times[1].max(1));
            }
            "deadline to the period"
        }
        10 => {
            // the tail longer or shorter
            let row = &mut lists[p][i];
            let b = *rng.pick(&[row.times[0].wrapping_add(1), row.times[0].saturating_sub(1).max(1), row.times[0].wrapping_mul(2), row.times[0].wrapping_add(5)]);
            row.times[0] = b;
            row.times[1] = if row.kind == 2 { b } else { row.times[1].max(b) };
            "budget"
        }
        11 => {
            // parts of a key in another order
            let key = lists[p][i].key;
            let mut tails: Vec<&mut Record> = lists.iter_mut().flatten().filter(|row| row.key == key && row.kind == 2).collect();
            let last = tails.len() as u8;
            for tail in &mut tails {
                tail.part = last.wrapping_add(1).saturating_sub(tail.part);
            }
            "parts turned round"
        }
        12 => {
            let to = rng.below(lists.len());
            if rng.percent(50) {
                lists.swap(p, to);
            } else if to != p {
                let rows = std::mem::take(&mut lists[p]);
                lists[to].extend(rows);
            }
            "processors"
        }
        _ => {
            let n = lists[p].len();
            for k in (1..n).rev() {
                lists[p].swap(k, rng.below(k + 1));
            }
            "rows in another order"
        }
    }
}

fn bad_set_up(rng: &mut Rng, good: &str) -> String {
    let mut fields: Vec<String> = good.split(' ').map(String::from).collect();
    let last = fields.len() - 1;
    match rng.below(10) {
        0 => fields[0] = "Board".into(),
        1 => fields[4] = "x".into(),
        2 => fields[5] = rng.pick(&["Listed", "x", "first", "listed"]).to_string(),
        3 => {
            fields.pop();
        }
        4 => fields.push("8".into()),
        5 => fields[last] = rng.pick(&["0", "9", "1", "x", "4294967296"]).to_string(),
        6 => fields[rng.range(1, 3) as usize] = rng.pick(&["0", "9", "10", "6", "x", "-1"]).to_string(),
        7 => {
            fields.truncate(5);
            fields.push("listed".into());
            let order = rng.pick(&["1 2 3 4 5 6 7 7", "0 1 2 3 4 5 6 7", "1 2 3 4 5 6 7 9", "8 8 8 8 8 8 8 8", "1 2 3 4 5 6 7 264"]);
            fields.extend(order.split(' ').map(String::from));
        }
        8 => fields[*rng.pick(&[2, 3])] = "10".into(),
        _ => {
            fields[rng.range(1, 3) as usize] = "11".into();
            fields[last] = "9".into();
        }
    }
    fields.join(" ")
}

fn malformed(rng: &mut Rng) -> Vec<u8> {
    let row = "1 9 9 ";
    match rng.below(25) {
        0 => b"load".to_vec(),
        1 => b"load 01 01".to_vec(),
        2 => b"load 0".to_vec(),
        3 => b"load 010g".to_vec(),
        4 => b"load 01010".to_vec(),
        5 => b"load -".to_vec(),
        6 => b"load --".to_vec(),
        7 => b"load 0X01".to_vec(),
        8 => b"save 1".to_vec(),
        9 => b"Save".to_vec(),
        10 => b"look 1".to_vec(),
        11 => b"look x 1".to_vec(),
        12 => b"judge 1 2".to_vec(),
        13 => b"judge 1 2 x".to_vec(),
        14 => b"allow 1".to_vec(),
        15 => b"allow 10 5 1 2".to_vec(),
        16 => b"allow 10 4294967296".to_vec(),
        17 => format!("judge {}", row.repeat(*rng.pick(&[39, 40, 41, 42]))).into_bytes(),
        18 => format!("allow 20 9 {}", row.repeat(*rng.pick(&[39, 40, 41, 42]))).into_bytes(),
        19 => vec![b' '; *rng.pick(&[0, 1, 80, 81, 11_999, 12_000, 12_001])],
        20 => {
            let size = *rng.pick(&[11_999, 12_000, 12_001, 12_002]);
            let mut line = vec![b' '; size - 4];
            line.extend(b"save");
            line
        }
        21 => {
            // an image far too long: as a line still short enough, or not
            let size = *rng.pick(&[11_990, 11_994, 11_996, 12_000]);
            let mut line = b"load ".to_vec();
            line.extend(vec![b'0'; size]);
            line
        }
        22 => b"board 1 0 0 density best".to_vec(),
        23 => rng.pick(&["admit 0 1 1 1", "admit 65536 1 1 1", "admit 1 1 1", "leave 0", "leave x", "admit 9 0 0 0", "admit 9 1 1 100001"]).as_bytes().to_vec(),
        _ => (0..rng.range(1, 60)).map(|_| rng.next() as u8).collect(),
    }
}

#[cfg(test)]
mod tests {
    use super::*;
    use crate::console::replay_program;

    #[test]
    fn sessions_cover_what_they_should() {
        let mut rng = Rng::new(3);
        let mut tally = Tally::default();
        for _ in 0..300 {
            let lines = session(&mut rng, &mut tally);
            assert!(!lines.is_empty());
            assert!(lines.iter().all(|l| l != MARKER && !l.contains(&b'\n')));
        }
        for number in [4, 10, 11, 12, 13, 14, 15, 17, 20, 21, 31, 32, 33, 34, 35, 36, 37, 38, 39, 50, 51, 52, 54] {
            assert!(tally.refusals.contains_key(&number), "{number} {tally:#?}");
        }
        let loaded = tally.replies["loaded"];
        assert!(loaded * 5 > tally.loads && loaded * 5 < tally.loads * 4, "{tally:#?}");
        assert!(tally.relinked > 50 && tally.replies["yes"] > 50 && tally.replies["no"] > 50, "{tally:#?}");
        assert!(tally.positive > 100 && tally.most_records >= 64, "{tally:#?}");
    }

    #[test]
    fn image_parts_go_together_again() {
        let bytes = unhex("010101000100000007000000020000000400000004000000");
        let image = Image::parse(&bytes);
        assert_eq!(image.bytes(), bytes);
        assert_eq!(Image::linked(&image.lists()).bytes(), bytes);
    }

    #[test]
    fn a_stream_replays() {
        let stream = "board 1 0 0 density best\nsave\n----\nsave\n----\nboard 2 0 0 density best\nload -\n";
        let mut out = Vec::new();
        replay_program::<Workbench>(&mut stream.as_bytes(), &mut out, None).unwrap();
        assert_eq!(String::from_utf8(out).unwrap(), "board 1\nsaved 010100000000\n----\nrefused 50 0\n----\nboard 2\nrefused 31 0\n----\n");
    }
}
