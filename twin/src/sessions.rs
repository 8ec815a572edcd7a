//! Random console sessions.

use crate::board::Board;
use crate::console::{Console, MARKER};
use crate::draw::{self, Style};
use crate::rng::Rng;
use crate::timing::{timing, Kind, Timing};
use crate::{MAX_PERIOD, MAX_RESERVATIONS};
use std::collections::BTreeMap;

/// What the sessions written so far made the console reply.
#[derive(Default, Debug)]
pub struct Tally {
    pub sessions: usize,
    pub lines: usize,
    pub whole: usize,
    /// Splits by their number of tails.
    pub splits: BTreeMap<usize, usize>,
    pub gone: usize,
    /// Withdrawals by their number of gatherings (those with one at least).
    pub gatherings: BTreeMap<usize, usize>,
    pub refusals: BTreeMap<u32, usize>,
    pub most_rows: usize,
    pub most_reservations: usize,
}

impl Tally {
    fn count(&mut self, reply: &str) {
        self.lines += 1;
        let lines: Vec<&str> = reply.lines().collect();
        let Some(first) = lines.first() else { return };
        let words: Vec<&str> = first.split(' ').collect();
        if words[0] == "refused" {
            *self.refusals.entry(words[1].parse().unwrap()).or_default() += 1;
        } else if words[1] == "whole" {
            self.whole += 1;
        } else if words[1] == "head" {
            *self.splits.entry(lines.len() - 1).or_default() += 1;
        } else if words[1] == "gone" {
            self.gone += 1;
            if lines.len() > 1 {
                *self.gatherings.entry(lines.len() - 1).or_default() += 1;
            }
        }
    }
}

struct Writer<'a> {
    rng: &'a mut Rng,
    console: Console,
    lines: Vec<Vec<u8>>,
    tally: &'a mut Tally,
    keys: KeyStyle,
    next_key: i64,
    malformed_percent: usize,
    /// The last request that was split, to be asked for again.
    last_split: Option<Timing>,
}

#[derive(Clone, Copy)]
enum KeyStyle {
    Counting,
    Falling,
    Random,
    Few,
}

#[derive(Clone, Copy, PartialEq)]
enum Mode {
    Fill,
    Churn,
    Drain,
}

/// The lines of one session, without newlines.
pub fn session(rng: &mut Rng, tally: &mut Tally) -> Vec<Vec<u8>> {
    let keys = *rng.pick(&[KeyStyle::Counting, KeyStyle::Falling, KeyStyle::Random, KeyStyle::Few]);
    let malformed_percent = *rng.pick(&[0, 3, 3, 6, 6, 12, 50]);
    tally.sessions += 1;
    let mut w = Writer { rng, console: Console::new(), lines: Vec::new(), tally, keys, next_key: 1, malformed_percent, last_split: None };
    w.write();
    w.lines
}

impl Writer<'_> {
    fn push(&mut self, mut line: Vec<u8>) -> String {
        for byte in &mut line {
            if *byte == b'\n' {
                *byte = 11;
            }
        }
        if line == MARKER {
            line.push(b'-');
        }
        let over = self.console.ended();
        let reply = self.console.line(&line);
        if !over {
            self.tally.count(&reply);
            if let Some(b) = self.console.board() {
                let rows = (0..b.processors()).map(|p| b.rows(p).len()).max().unwrap_or(0);
                self.tally.most_rows = self.tally.most_rows.max(rows);
                self.tally.most_reservations = self.tally.most_reservations.max(b.keys().len());
            }
        }
        self.lines.push(line);
        reply
    }

    fn board(&self) -> &Board {
        self.console.board().expect("set up")
    }

    fn write(&mut self) {
        while self.rng.percent(10) {
            let line = vec![b' '; *self.rng.pick(&[0, 1, 5, 79, 80])];
            self.push(line);
        }
        match self.rng.below(100) {
            0..=7 => return self.full_rows(),
            8..=15 => return self.equal_heads(),
            _ => {}
        }
        let crowd = self.rng.percent(20);
        let line = if self.rng.percent(17) { bad_set_up(self.rng) } else { good_set_up(self.rng, crowd) };
        self.push(line);
        if self.console.board().is_none() {
            for _ in 0..self.rng.range(0, 4) {
                let line = if self.rng.percent(50) { good_set_up(self.rng, false) } else { malformed(self.rng, None) };
                self.push(line);
            }
            return;
        }

        let longest = *self.rng.pick(&[40, 200, 1000, 10_000, MAX_PERIOD, MAX_PERIOD]);
        let styles: &[Style] = match self.rng.below(6) {
            _ if crowd => &[Style::Light],
            0 => &[Style::Heavy, Style::Split],
            1 => &[Style::Medium, Style::Split, Style::Split, Style::Gap],
            2 => &[Style::Grid],
            3 => &[Style::Grid, Style::Split, Style::Heavy],
            4 => &[Style::Heavy, Style::Medium, Style::Light, Style::Split, Style::Gap, Style::Extreme, Style::Grid],
            _ => &[Style::Medium, Style::Light, Style::Split, Style::Split],
        };
        // a crowd: light ones until so many rows stand, then others (or never)
        let processors = self.board().processors();
        let switch_at = if crowd && self.rng.percent(75) { self.rng.range(20, 31) as usize * processors.min(2) } else { usize::MAX };
        let after_switch = [Style::Light, Style::Split, Style::Split, Style::Split, Style::Heavy, Style::Gap];
        let longest = if crowd { longest.max(1000) } else { longest };
        let last = self.lines.len() + if crowd { self.rng.range(60, 200) } else { self.rng.range(3, 180) } as usize;
        let patience = self.rng.range(1, 6);
        let (mut mode, mut misses, mut churns) = (Mode::Fill, 0, 0);
        while self.lines.len() < last {
            if self.rng.percent(self.malformed_percent) {
                let line = {
                    let board = self.console.board().cloned();
                    malformed(self.rng, board.as_ref())
                };
                self.push(line);
                continue;
            }
            let leave = match mode {
                Mode::Fill => false,
                Mode::Churn => self.rng.percent(45),
                Mode::Drain => true,
            };
            if leave {
                self.leave();
            } else {
                let rows: usize = (0..processors).map(|p| self.board().rows(p).len()).sum();
                let mut style = *self.rng.pick(if rows >= switch_at { &after_switch } else { styles });
                if mode == Mode::Churn && !crowd && self.rng.percent(60) {
                    style = Style::Split;
                }
                let reply = self.admit(style, longest);
                if reply == "refused 17\n" || reply == "refused 16\n" {
                    misses += 1;
                }
            }
            match mode {
                Mode::Fill if misses >= patience => {
                    misses = 0;
                    churns = self.rng.range(4, 60);
                    mode = if self.rng.percent(75) { Mode::Churn } else { Mode::Drain };
                }
                Mode::Churn => {
                    churns -= 1;
                    if churns <= 0 {
                        mode = if self.rng.percent(60) { Mode::Drain } else { Mode::Fill };
                        misses = 0;
                    }
                }
                Mode::Drain if self.board().keys().is_empty() || self.rng.percent(8) => mode = Mode::Fill,
                _ => {}
            }
        }
        if self.rng.percent(40) {
            while !self.board().keys().is_empty() {
                self.leave();
            }
        }
    }

    /// Rows run out while share is left: heavy ones, then light ones up to 30,
    /// 31 or 32 rows on each of two or three processors, then splits.
    fn full_rows(&mut self) {
        let rule = if self.rng.percent(75) { "fewest" } else { "best" };
        let processors = if rule == "best" { 3 } else { 2 };
        self.set_up(processors, &["demand", "either"], rule);
        let longest = *self.rng.pick(&[1000, 4000, MAX_PERIOD]);
        for _ in 0..2 {
            let t = self.rng.range(longest / 2, longest);
            let c = t * self.rng.range(450, 700) / 1000;
            self.ask(timing(c, t, t));
        }
        let rows = self.rng.range(30, 32) as usize;
        for _ in 0..66 {
            let counts: Vec<usize> = (0..processors).map(|p| self.board().rows(p).len()).collect();
            if counts.iter().filter(|n| **n >= rows).count() >= 2 {
                break;
            }
            let t = self.rng.range(longest / 2, longest);
            let c = (t * self.rng.range(1, 9) / 1000).max(1);
            self.ask(timing(c, t, t));
        }
        for _ in 0..self.rng.range(5, 40) {
            if self.rng.percent(35) {
                self.leave();
            } else {
                let style = *self.rng.pick(&[Style::Split, Style::Split, Style::Split, Style::Light]);
                self.admit(style, longest);
            }
        }
    }

    /// Several equal heads on one processor, then its whole row leaves.
    fn equal_heads(&mut self) {
        let processors = self.rng.range(3, 8) as usize;
        let rule = if self.rng.percent(80) { "best" } else { "fewest" };
        self.set_up(processors, &["demand", "either"], rule);
        self.keys = KeyStyle::Random;
        let t = *self.rng.pick(&[10, 20, 60, 100, 1000]);
        let base = timing(t * self.rng.range(4, 7) / 10, t, t);
        for _ in 0..processors {
            self.ask(base);
        }
        for _ in 0..self.rng.range(1, 4) {
            let board = self.console.board().expect("set up");
            let newcomer = draw::request(self.rng, board, Style::Split, t * 10);
            for _ in 0..self.rng.range(2, processors as i64) {
                self.ask(newcomer);
            }
            let board = self.board();
            let heads = |p: &usize| board.rows(*p).iter().filter(|r| r.kind == Kind::Head).count();
            let tails = |p: &usize| board.rows(*p).iter().filter(|r| r.kind == Kind::Tail).count();
            let crowded: Vec<usize> = (0..processors).filter(|p| heads(p) >= 2 && tails(p) == 0).collect();
            let whole = crowded.iter().flat_map(|p| board.rows(*p)).find(|r| r.kind == Kind::Whole).map(|r| r.key);
            match whole {
                Some(key) => {
                    let line = spell(self.rng, &["leave".into(), key.to_string()]);
                    self.push(line);
                }
                None => {
                    self.leave();
                }
            }
        }
        for _ in 0..self.rng.range(0, 30) {
            if self.rng.percent(50) {
                self.leave();
            } else {
                self.admit(Style::Split, t * 10);
            }
        }
    }

    fn set_up(&mut self, processors: usize, judges: &[&str], rule: &str) {
        let steps = self.rng.range(0, 9);
        let refinements = self.rng.range(0, 5);
        let judge = self.rng.pick(judges);
        let line = format!("board {processors} {steps} {refinements} {judge} {rule}");
        self.push(line.into_bytes());
    }

    fn admit(&mut self, style: Style, longest: i64) -> String {
        let board = self.console.board().expect("set up");
        let mut r = draw::request(self.rng, board, style, longest);
        if self.rng.percent(60) && !draw::fits(board, r) {
            r = draw::request(self.rng, board, Style::Split, longest);
        }
        if let (true, Some(again)) = (self.rng.percent(15), self.last_split) {
            r = again;
        }
        self.ask(r)
    }

    fn ask(&mut self, r: Timing) -> String {
        let key = self.key();
        let line = spell(self.rng, &["admit".into(), key.to_string(), r.budget.to_string(), r.deadline.to_string(), r.period.to_string()]);
        let reply = self.push(line);
        if reply.contains("head") {
            self.last_split = Some(r);
        }
        reply
    }

    fn leave(&mut self) -> String {
        let board = self.console.board().expect("set up");
        let key = draw::leaver(self.rng, board).unwrap_or_else(|| self.rng.range(1, 65_535));
        let line = spell(self.rng, &["leave".into(), key.to_string()]);
        self.push(line)
    }

    /// Mostly a key that does not stand.
    fn key(&mut self) -> i64 {
        let standing = self.board().keys();
        if standing.len() == MAX_RESERVATIONS && self.rng.percent(30) {
            return *self.rng.pick(&standing);
        }
        let once = self.rng.percent(4);
        loop {
            let key = match self.keys {
                KeyStyle::Counting => {
                    self.next_key += 1;
                    self.next_key - 1
                }
                KeyStyle::Falling => {
                    self.next_key += 1;
                    65_537 - self.next_key
                }
                KeyStyle::Random => self.rng.range(1, 65_535),
                KeyStyle::Few => self.rng.range(1, 90),
            };
            if once || !self.board().stands(key) {
                return key;
            }
        }
    }
}

/// The fields as a line: mostly plain, sometimes with more spaces or zeros.
fn spell(rng: &mut Rng, fields: &[String]) -> Vec<u8> {
    let odd = rng.percent(6);
    let mut line = String::new();
    for (i, field) in fields.iter().enumerate() {
        if i > 0 {
            line.push(' ');
        }
        if odd {
            line.push_str(&" ".repeat(rng.range(0, 3) as usize));
            if i > 0 && rng.percent(40) && field.bytes().all(|b| b.is_ascii_digit()) {
                line.push_str(&"0".repeat(rng.range(1, 12) as usize));
            }
        }
        line.push_str(field);
    }
    if odd {
        line.push_str(&" ".repeat(rng.range(0, 3) as usize));
    }
    line.into_bytes()
}

fn good_set_up(rng: &mut Rng, crowd: bool) -> Vec<u8> {
    let processors = if crowd { rng.range(1, 3) } else { *rng.pick(&[1, 2, 2, 3, 3, 4, 4, 5, 5, 6, 6, 7, 7, 8, 8]) };
    let fields = [
        "board".to_string(),
        processors.to_string(),
        rng.range(0, 9).to_string(),
        rng.range(0, 5).to_string(),
        rng.pick(&["density", "demand", "demand", "demand", "either", "either"]).to_string(),
        rng.pick(&["best", "fewest"]).to_string(),
    ];
    spell(rng, &fields)
}

/// Some number that is in no range, or at the edge of one.
fn edge_number(rng: &mut Rng) -> String {
    rng.pick(&["0", "1", "2", "8", "9", "10", "6", "5", "65535", "65536", "99999", "100000", "100001", "4294967295", "2147483648", "000", "0001"])
        .to_string()
}

fn not_a_number(rng: &mut Rng) -> String {
    rng.pick(&[
        "-1", "+1", "1.0", "0x10", "1e3", "x", "4294967296", "99999999999999999999", "18446744073709551617", "1,000", "1\t", "\t1", "1\r",
        "\u{661}", "12a", "a12", "--", "demand", "admit", "1_0", "00000000004294967296", "\u{0}", "1\u{0}",
    ])
    .to_string()
}

fn odd_word(rng: &mut Rng) -> String {
    rng.pick(&[
        "Admit", "ADMIT", "Leave", "leaves", "admi", "board", "Board", "look", "withdraw", "quit", "x", "0", "-", "---", "-----", "listed", "Best",
        "bestt", "first", "worst", "Demand", "EITHER", "dense", "leave\t1", "\tadmit", "admit\r", "\r", "\t", "\u{0}", "\u{e9}",
        "gone", "refused", "demand", "best", "density", "fewest", "either", "admit", "leave",
    ])
    .to_string()
}

fn join(fields: &[String]) -> Vec<u8> {
    fields.join(" ").into_bytes()
}

/// A set-up line that is mostly refused.
fn bad_set_up(rng: &mut Rng) -> Vec<u8> {
    let good = String::from_utf8(good_set_up(rng, false)).unwrap();
    let mut fields: Vec<String> = good.split(' ').filter(|f| !f.is_empty()).map(String::from).collect();
    match rng.below(12) {
        0 => {
            let at = *rng.pick(&[0, 4, 5]);
            fields[at] = odd_word(rng);
        }
        1 => fields.truncate(rng.range(1, 5) as usize),
        2 => fields.push(edge_number(rng)),
        3 => fields[rng.range(1, 3) as usize] = not_a_number(rng),
        4 => fields[1] = rng.pick(&["0", "9", "4294967295", "00"]).to_string(),
        5 => fields[2] = rng.pick(&["10", "11", "4294967295"]).to_string(),
        6 => fields[3] = rng.pick(&["6", "7", "4294967295"]).to_string(),
        7 => {
            for i in 1..4 {
                fields[i] = edge_number(rng);
            }
        }
        8 => {
            let at = rng.below(fields.len());
            fields.remove(at);
        }
        9 => {
            // several faults at once
            for _ in 0..rng.range(2, 3) {
                let at = rng.below(fields.len());
                fields[at] = if rng.percent(50) { odd_word(rng) } else { not_a_number(rng) };
            }
            if rng.percent(50) {
                fields.truncate(rng.range(1, 6) as usize);
            } else if rng.percent(30) {
                fields.push("7".into());
            }
        }
        10 => return stretch(rng, join(&fields)),
        _ => return any_line(rng, None),
    }
    join(&fields)
}

/// The line stretched to about 80 bytes: exactly 80 or 81 most often.
fn stretch(rng: &mut Rng, line: Vec<u8>) -> Vec<u8> {
    let size = *rng.pick(&[79, 80, 80, 80, 81, 81, 81, 82, 100, 161, 600]);
    if line.len() >= size {
        return line;
    }
    let missing = size - line.len();
    let mut out = Vec::new();
    match rng.below(4) {
        0 => {
            out.extend(vec![b' '; missing]);
            out.extend(line);
        }
        1 => {
            out.extend(line);
            out.extend(vec![b' '; missing]);
        }
        2 => {
            // spaces before the second field
            let cut = line.iter().position(|b| *b == b' ').unwrap_or(line.len());
            out.extend(&line[..cut]);
            out.extend(vec![b' '; missing]);
            out.extend(&line[cut..]);
        }
        _ => {
            // zeros before the last field that looks like a number
            let cut = (1..line.len()).rev().find(|i| line[*i].is_ascii_digit() && line[i - 1] == b' ').unwrap_or(line.len());
            out.extend(&line[..cut]);
            out.extend(vec![b'0'; missing]);
            out.extend(&line[cut..]);
        }
    }
    out
}

/// A lawful-looking later line, with a key that stands half of the time.
fn plain_line(rng: &mut Rng, board: Option<&Board>) -> Vec<u8> {
    let keys = board.map(|b| b.keys()).unwrap_or_default();
    let key = if !keys.is_empty() && rng.percent(50) { *rng.pick(&keys) } else { rng.range(1, 65_535) };
    if rng.percent(40) {
        return join(&["leave".into(), key.to_string()]);
    }
    let t = rng.range(1, 1000);
    let c = rng.range(1, t);
    join(&["admit".into(), key.to_string(), c.to_string(), rng.range(c, t).to_string(), t.to_string()])
}

/// Random bytes.
fn random_line(rng: &mut Rng) -> Vec<u8> {
    (0..rng.range(1, 100)).map(|_| rng.next() as u8).collect()
}

/// The line with a few bytes changed.
fn changed(rng: &mut Rng, mut line: Vec<u8>) -> Vec<u8> {
    for _ in 0..rng.range(1, 3) {
        let at = rng.below(line.len());
        match rng.below(4) {
            0 => line[at] = rng.next() as u8,
            1 => line[at] = *rng.pick(b" \t\r0a9"),
            2 => line.insert(at, *rng.pick(b" \t\r0a9-")),
            _ if line.len() > 1 => {
                line.remove(at);
            }
            _ => {}
        }
    }
    line
}

/// A session of odd lines alone: `count` of random bytes and as many plain ones with a few bytes changed, in turn. It begins with a board that is set
/// up, or with such a line itself (`first`).
pub fn odd_session(rng: &mut Rng, first: bool, count: usize) -> Vec<Vec<u8>> {
    let mut lines = Vec::new();
    if first {
        let line = good_set_up(rng, false);
        lines.push(if rng.percent(33) { random_line(rng) } else { changed(rng, line) });
    } else {
        lines.push(good_set_up(rng, false));
    }
    for _ in 0..count {
        lines.push(random_line(rng));
        let line = plain_line(rng, None);
        lines.push(changed(rng, line));
    }
    for line in &mut lines {
        for byte in line.iter_mut().filter(|b| **b == b'\n') {
            *byte = 11;
        }
        if line == MARKER {
            line.push(b'-');
        }
    }
    lines
}

/// Random bytes, or a plain line with a few bytes changed.
fn any_line(rng: &mut Rng, board: Option<&Board>) -> Vec<u8> {
    match rng.below(3) {
        0 => random_line(rng),
        1 => {
            let bytes = b" 0123456789admitleavebord  \t\r-+.";
            (0..rng.range(1, 90)).map(|_| *rng.pick(bytes)).collect()
        }
        _ => {
            let line = plain_line(rng, board);
            changed(rng, line)
        }
    }
}

/// A later line that is mostly malformed or refused.
fn malformed(rng: &mut Rng, board: Option<&Board>) -> Vec<u8> {
    let admit = rng.percent(60);
    let plain = String::from_utf8(plain_line(rng, board)).unwrap();
    let mut fields: Vec<String> = plain.split(' ').map(String::from).collect();
    match rng.below(13) {
        0 => fields[0] = odd_word(rng),
        1 => fields.truncate(rng.range(1, fields.len() as i64 - 1) as usize),
        2 => {
            for _ in 0..rng.range(1, 3) {
                fields.push(edge_number(rng));
            }
        }
        3 => {
            let at = rng.range(1, fields.len() as i64 - 1) as usize;
            fields[at] = not_a_number(rng);
        }
        4 | 5 => {
            // numbers at the edges, all or one
            for i in 1..fields.len() {
                if admit || i == fields.len() - 1 {
                    fields[i] = edge_number(rng);
                }
            }
        }
        6 => {
            // one limit of a request passed, with a plain key
            let wrong = [[1, 0, 5, 10], [1, 6, 5, 10], [1, 5, 11, 10], [1, 5, 10, 100_001], [0, 1, 1, 1], [65_536, 1, 1, 1], [1, 100_001, 100_001, 100_001]];
            let numbers = rng.pick(&wrong).iter().map(|n: &i64| n.to_string());
            fields = std::iter::once("admit".to_string()).chain(numbers).collect();
        }
        7 => {
            // several faults at once
            for _ in 0..2 {
                let at = rng.below(fields.len());
                fields[at] = if rng.percent(50) { odd_word(rng) } else { not_a_number(rng) };
            }
            if rng.percent(50) {
                fields.push("1".into());
            }
        }
        8 => return stretch(rng, plain.into_bytes()),
        9 => return vec![b' '; *rng.pick(&[0, 1, 2, 79, 80, 81, 82, 200])],
        10 => {
            // words that are in place in a set-up line
            return good_set_up(rng, false);
        }
        _ => return any_line(rng, board),
    }
    join(&fields)
}

#[cfg(test)]
mod tests {
    use super::*;

    #[test]
    fn sessions_cover_what_they_should() {
        let mut rng = Rng::new(3);
        let mut tally = Tally::default();
        for _ in 0..300 {
            let lines = session(&mut rng, &mut tally);
            assert!(!lines.is_empty());
            assert!(lines.iter().all(|l| l != MARKER && !l.contains(&b'\n')));
        }
        for number in [1, 2, 3, 10, 11, 12, 13, 14, 15, 16, 17, 20, 50, 51, 52, 54] {
            assert!(tally.refusals.contains_key(&number), "{number} {tally:?}");
        }
        assert!(tally.splits.len() >= 4 && tally.gatherings.len() >= 2, "{tally:?}");
        assert_eq!((tally.most_rows, tally.most_reservations), (32, 64));
    }
}
