//! The stored plan: a board's plan as bytes, and back.

use crate::board::{timings, Board, Plan};
use crate::refusal::Refusal;
use crate::timing::{timing, Kind, Row, Timing};
use crate::{MAX_PERIOD, MAX_RESERVATIONS, MAX_ROWS};

pub const FORM: u8 = 1;
pub const MAX_RECORDS: usize = 256;
pub const RECORD: usize = 18;

/// Why an image is refused, and where.
#[derive(Clone, Copy, Debug, PartialEq, Eq)]
pub struct ImageFault {
    pub refusal: Refusal,
    pub place: usize,
}

fn fault<T>(refusal: Refusal, place: usize) -> Result<T, ImageFault> {
    Err(ImageFault { refusal, place })
}

/// The image of a board's plan.
pub fn save(board: &Board) -> Vec<u8> {
    let m = board.processors();
    let r: usize = (0..m).map(|p| board.rows(p).len()).sum();
    let mut image = vec![FORM, m as u8];
    image.extend((r as u16).to_le_bytes());
    let mut first = 1;
    for p in 0..m {
        let rows = board.rows(p).len();
        let head = if rows == 0 { 0 } else { first };
        image.extend((head as u16).to_le_bytes());
        first += rows;
    }
    let mut number = 0;
    for p in 0..m {
        let rows = board.rows(p);
        for (i, row) in rows.iter().enumerate() {
            number += 1;
            let next = if i + 1 == rows.len() { 0 } else { number + 1 };
            image.extend((next as u16).to_le_bytes());
            image.extend((row.key as u16).to_le_bytes());
            image.push(row.kind as u8);
            image.push(row.part as u8);
            for n in [row.timing.budget, row.timing.deadline, row.timing.period] {
                image.extend((n as u32).to_le_bytes());
            }
        }
    }
    assert_eq!(image.len(), 4 + 2 * m + RECORD * r);
    image
}

/// Writes the image to the front of a buffer and answers its length; a buffer
/// that is too short is left as it was.
pub fn save_into(board: &Board, buffer: &mut [u8]) -> Result<usize, Refusal> {
    let image = save(board);
    let front = buffer.get_mut(..image.len()).ok_or(Refusal::BufferTooShort)?;
    front.copy_from_slice(&image);
    Ok(image.len())
}

/// Puts the plan of an image in the place of the board's; or refuses and
/// changes nothing.
pub fn load(board: &mut Board, image: &[u8]) -> Result<(), ImageFault> {
    let plan = read(image, board.processors(), |list| board.says_yes_on_load(list))?;
    board.replace_plan(plan);
    Ok(())
}

/// A record as it lies in the image, unchecked.
struct Record {
    next: usize,
    key: i64,
    kind: u8,
    part: u8,
    timing: Timing,
}

impl Record {
    fn at(bytes: &[u8]) -> Record {
        Record {
            next: little(&bytes[0..2]) as usize,
            key: little(&bytes[2..4]),
            kind: bytes[4],
            part: bytes[5],
            timing: timing(little(&bytes[6..10]), little(&bytes[10..14]), little(&bytes[14..18])),
        }
    }

    /// The row, unless the record is bad in itself (36).
    fn row(&self) -> Option<Row> {
        let kind = match self.kind {
            0 => Kind::Whole,
            1 => Kind::Head,
            2 => Kind::Tail,
            _ => return None,
        };
        let (c, d, t) = (self.timing.budget, self.timing.deadline, self.timing.period);
        let good_part = if kind == Kind::Tail { (1..=7).contains(&self.part) } else { self.part == 0 };
        let good_timing = 1 <= c && c <= d && d <= t && t <= MAX_PERIOD && (kind != Kind::Tail || c == d);
        let good = self.key != 0 && good_part && good_timing;
        good.then_some(Row { key: self.key, kind, part: self.part as usize, timing: self.timing })
    }
}

/// A number of up to four bytes, the lowest first.
fn little(bytes: &[u8]) -> i64 {
    bytes.iter().rev().fold(0, |n, byte| n * 256 + *byte as i64)
}

/// The plan of an image for a board of `m` processors and this judge.
fn read(image: &[u8], m: usize, says_yes: impl Fn(&[Timing]) -> bool) -> Result<Plan, ImageFault> {
    if image.len() < 4 {
        return fault(Refusal::ImageTooShort, 0);
    }
    if image[0] != FORM {
        return fault(Refusal::Form, 0);
    }
    if image[1] as usize != m {
        return fault(Refusal::OtherProcessorCount, 0);
    }
    let r = little(&image[2..4]) as usize;
    if r > MAX_RECORDS || image.len() != 4 + 2 * m + RECORD * r {
        return fault(Refusal::ImageLength, 0);
    }
    let (heads, bytes) = image[4..].split_at(2 * m);
    let heads: Vec<usize> = heads.chunks(2).map(|two| little(two) as usize).collect();
    let records: Vec<Record> = bytes.chunks(RECORD).map(Record::at).collect();

    let chains = follow(&heads, &records)?;

    let mut rows = Vec::new();
    for (i, record) in records.iter().enumerate() {
        match record.row() {
            Some(row) => rows.push(row),
            None => return fault(Refusal::BadRecord, i + 1),
        }
    }
    let plan: Plan = chains.iter().map(|chain| chain.iter().map(|number| rows[number - 1]).collect()).collect();

    let mut keys: Vec<i64> = rows.iter().map(|row| row.key).collect();
    keys.sort();
    keys.dedup();
    for key in &keys {
        if !is_reservation(&plan, *key) {
            return fault(Refusal::BadReservation, *key as usize);
        }
    }
    if keys.len() > MAX_RESERVATIONS {
        return fault(Refusal::TooManyKeys, 0);
    }
    for (p, rows) in plan.iter().enumerate() {
        if !says_yes(&timings(rows)) {
            return fault(Refusal::JudgedNo, p + 1);
        }
    }
    Ok(plan)
}

/// The record numbers of each chain.
fn follow(heads: &[usize], records: &[Record]) -> Result<Vec<Vec<usize>>, ImageFault> {
    let mut reached = vec![false; records.len() + 1];
    reached[0] = true; // no record
    let mut chains = Vec::new();
    for (p, head) in heads.iter().enumerate() {
        let mut chain = Vec::new();
        let mut number = *head;
        while number != 0 {
            if number > records.len() || reached[number] || chain.len() == MAX_ROWS {
                return fault(Refusal::Chains, p + 1);
            }
            reached[number] = true;
            chain.push(number);
            number = records[number - 1].next;
        }
        chains.push(chain);
    }
    if reached.contains(&false) {
        return fault(Refusal::Chains, 0);
    }
    Ok(chains)
}

/// Do the rows of this key make a reservation (37)?
fn is_reservation(plan: &Plan, key: i64) -> bool {
    let mut rows: Vec<(usize, Row)> = Vec::new(); // with their processors
    for (p, list) in plan.iter().enumerate() {
        rows.extend(list.iter().filter(|row| row.key == key).map(|row| (p, *row)));
    }
    let of_kind = |kind: Kind| rows.iter().filter(|(_, row)| row.kind == kind).map(|(_, row)| *row).collect::<Vec<Row>>();
    let (wholes, heads, mut tails) = (of_kind(Kind::Whole), of_kind(Kind::Head), of_kind(Kind::Tail));
    if wholes.len() == 1 && heads.is_empty() && tails.is_empty() {
        return true;
    }
    if !wholes.is_empty() || heads.len() != 1 || tails.is_empty() {
        return false;
    }
    tails.sort_by_key(|tail| tail.part);
    let numbered = tails.iter().enumerate().all(|(i, tail)| tail.part == i + 1);
    let mut processors: Vec<usize> = rows.iter().map(|(p, _)| *p).collect();
    processors.dedup(); // they rise
    let apart = processors.len() == rows.len();
    let head = heads[0].timing;
    let equal_periods = tails.iter().all(|tail| tail.timing.period == head.period);
    let deadline = head.deadline + tails.iter().map(|tail| tail.timing.budget).sum::<i64>();
    numbered && apart && equal_periods && deadline <= head.period
}

#[cfg(test)]
mod tests {
    use super::*;
    use crate::board::JudgeChoice;
    use crate::draw::{self, Style};
    use crate::placement::Rule;
    use crate::rng::Rng;

    fn demand(processors: i64) -> Board {
        Board::set_up(processors, 1, 0, JudgeChoice::Demand, Rule::Best).unwrap()
    }

    fn density(processors: i64) -> Board {
        Board::set_up(processors, 0, 0, JudgeChoice::Density, Rule::Best).unwrap()
    }

    /// next, key, kind, part, budget, deadline, period
    type R = (u16, u16, u8, u8, u32, u32, u32);

    fn image(heads: &[u16], records: &[R]) -> Vec<u8> {
        let mut bytes = vec![1, heads.len() as u8, records.len() as u8, (records.len() / 256) as u8];
        for head in heads {
            bytes.extend(head.to_le_bytes());
        }
        for (next, key, kind, part, c, d, t) in records {
            bytes.extend(next.to_le_bytes());
            bytes.extend(key.to_le_bytes());
            bytes.extend([*kind, *part]);
            for n in [c, d, t] {
                bytes.extend(n.to_le_bytes());
            }
        }
        bytes
    }

    /// Loads on a board where key 9 stands: (0, 0) if loaded, else the number
    /// and the place; nothing may have changed then.
    fn tried(mut board: Board, image: &[u8]) -> (u32, usize) {
        board.admit(9, 1, 100, 100).unwrap();
        let before = save(&board);
        match load(&mut board, image) {
            Ok(()) => (0, 0),
            Err(fault) => {
                assert_eq!(save(&board), before);
                (fault.refusal.number(), fault.place)
            }
        }
    }

    fn outcome(heads: &[u16], records: &[R]) -> (u32, usize) {
        tried(demand(heads.len() as i64), &image(heads, records))
    }

    fn whole(next: u16, key: u16) -> R {
        (next, key, 0, 0, 1, 100, 100)
    }

    const EXAMPLE: [u8; 24] = [1, 1, 1, 0, 1, 0, 0, 0, 7, 0, 0, 0, 2, 0, 0, 0, 4, 0, 0, 0, 4, 0, 0, 0];

    #[test]
    fn the_example() {
        let mut board = density(1);
        board.admit(7, 2, 4, 4).unwrap();
        assert_eq!(save(&board), EXAMPLE);
        assert_eq!(image(&[1], &[(0, 7, 0, 0, 2, 4, 4)]), EXAMPLE);
        let mut other = demand(1);
        other.admit(3, 1, 1, 1).unwrap();
        assert_eq!(load(&mut other, &EXAMPLE), Ok(()));
        assert_eq!(save(&other), EXAMPLE);
        assert_eq!(other.keys(), [7]);
    }

    #[test]
    fn a_split_saved_by_hand() {
        let mut board = demand(2);
        board.admit(1, 6, 10, 10).unwrap();
        board.admit(2, 6, 10, 10).unwrap();
        board.admit(3, 10, 20, 20).unwrap();
        let want = [(2, 1, 0, 0, 6, 10, 10), (0, 3, 2, 1, 3, 3, 20), (4, 2, 0, 0, 6, 10, 10), (0, 3, 1, 0, 7, 17, 20)];
        assert_eq!(save(&board), image(&[1, 3], &want));
        // empty processors, and bytes above 255
        let mut board = demand(3);
        assert_eq!(save(&board), [1, 3, 0, 0, 0, 0, 0, 0, 0, 0]);
        board.admit(65_535, 258, 65_536, 100_000).unwrap();
        let bytes = [0, 0, 0xff, 0xff, 0, 0, 2, 1, 0, 0, 0, 0, 1, 0, 0xa0, 0x86, 1, 0];
        assert_eq!(save(&board)[10..], bytes);
        assert_eq!(save(&board)[..10], [1, 3, 1, 0, 1, 0, 0, 0, 0, 0]);
    }

    #[test]
    fn buffers() {
        let mut board = density(1);
        board.admit(7, 2, 4, 4).unwrap();
        let mut buffer = [0xee; 23];
        assert_eq!(save_into(&board, &mut buffer), Err(Refusal::BufferTooShort));
        assert_eq!(buffer, [0xee; 23]);
        let mut buffer = [0xee; 26];
        assert_eq!(save_into(&board, &mut buffer), Ok(24));
        assert_eq!(buffer[..24], EXAMPLE);
        assert_eq!(buffer[24..], [0xee; 2]);
    }

    #[test]
    fn the_front_of_an_image() {
        let on = |bytes: &[u8]| tried(density(2), bytes);
        for short in [&[][..], &[1], &[9, 9, 9], &[1, 2, 0]] {
            assert_eq!(on(short), (31, 0));
        }
        assert_eq!(on(&[2, 1, 1, 0]), (32, 0));
        assert_eq!(on(&[0, 2, 0, 0, 0, 0, 0, 0]), (32, 0));
        assert_eq!(on(&[1, 1, 0, 0, 0, 0]), (33, 0));
        assert_eq!(on(&[1, 0, 0, 0]), (33, 0));
        assert_eq!(on(&[1, 2, 0, 0]), (34, 0));
        assert_eq!(on(&[1, 2, 0, 0, 0, 0, 0]), (34, 0));
        assert_eq!(on(&[1, 2, 0, 0, 0, 0, 0, 0, 0]), (34, 0));
        assert_eq!(on(&[1, 2, 0, 0, 0, 0, 0, 0]), (0, 0));
        assert_eq!(on(&[1, 2, 1, 0, 0, 0, 0, 0]), (34, 0));
        // 256 records are not too many in themselves (here they are left over); 257 are
        let mut many = vec![1, 2, 0, 1, 0, 0, 0, 0];
        many.extend([0; 256 * 18]);
        assert_eq!(on(&many), (35, 0));
        many[2] = 1;
        many.extend([0; 18]);
        assert_eq!(on(&many), (34, 0));
    }

    #[test]
    fn records_in_any_order() {
        // processor 1: records 3, 1; processor 3: records 2, 4
        let records = [whole(0, 5), whole(4, 6), whole(1, 7), whole(0, 8)];
        let mut board = demand(3);
        load(&mut board, &image(&[3, 0, 2], &records)).unwrap();
        assert_eq!(save(&board), image(&[1, 0, 3], &[whole(2, 7), whole(0, 5), whole(4, 6), whole(0, 8)]));
    }

    #[test]
    fn chains() {
        // loops: back to the start, to itself, not to the start
        assert_eq!(outcome(&[0, 1], &[whole(2, 1), whole(1, 2)]), (35, 2));
        assert_eq!(outcome(&[1], &[whole(1, 1)]), (35, 1));
        assert_eq!(outcome(&[1, 0], &[whole(2, 1), whole(3, 2), whole(2, 3)]), (35, 1));
        // shared: by a head and a next, or two heads; met in the second
        assert_eq!(outcome(&[1, 2, 0], &[whole(3, 1), whole(3, 2), whole(0, 3)]), (35, 2));
        assert_eq!(outcome(&[0, 1, 1], &[whole(0, 1)]), (35, 3));
        assert_eq!(outcome(&[2, 1], &[whole(0, 1), whole(1, 2)]), (35, 2));
        // indexes above r
        assert_eq!(outcome(&[1, 3, 9], &[whole(0, 1), whole(0, 2)]), (35, 2));
        assert_eq!(outcome(&[1], &[whole(65_535, 1)]), (35, 1));
        assert_eq!(outcome(&[1], &[]), (35, 1));
        // left over, also where the record is bad in itself or points out
        assert_eq!(outcome(&[1, 0], &[whole(0, 1), whole(0, 2)]), (35, 0));
        assert_eq!(outcome(&[1, 0], &[whole(0, 1), (9, 0, 7, 9, 0, 0, 0)]), (35, 0));
        // a bad chain comes before a record left over
        assert_eq!(outcome(&[1, 9], &[whole(0, 1), whole(0, 2)]), (35, 2));
        // a bad record in an earlier chain and a bad index in a later one
        assert_eq!(outcome(&[1, 5], &[(0, 0, 3, 1, 0, 0, 0), whole(0, 1)]), (35, 2));
        // 32 records in a chain are not too many; 33 are
        let long = |n: u16| (1..=n).map(|i| whole(if i == n { 0 } else { i + 1 }, i)).collect::<Vec<R>>();
        assert_eq!(outcome(&[0, 1], &long(32)), (0, 0));
        assert_eq!(outcome(&[0, 1], &long(33)), (35, 2));
        assert_eq!(outcome(&[1, 1], &long(33)), (35, 1));
    }

    #[test]
    fn bad_records() {
        let bad: [R; 20] = [
            (0, 1, 3, 0, 1, 2, 2),
            (0, 1, 255, 0, 1, 2, 2),
            (0, 0, 0, 0, 1, 2, 2),
            (0, 1, 0, 1, 1, 2, 2),
            (0, 1, 1, 1, 1, 2, 2),
            (0, 1, 2, 0, 1, 1, 2),
            (0, 1, 2, 8, 1, 1, 2),
            (0, 1, 2, 255, 1, 1, 2),
            (0, 1, 0, 0, 0, 2, 2),
            (0, 1, 0, 0, 0, 0, 0),
            (0, 1, 0, 0, 3, 2, 5),
            (0, 1, 0, 0, 1, 3, 2),
            (0, 1, 0, 0, 1, 1, 100_001),
            (0, 1, 0, 0, 1, 1, u32::MAX),
            (0, 1, 0, 0, 1, u32::MAX, u32::MAX),
            (0, 1, 0, 0, u32::MAX, u32::MAX, u32::MAX),
            (0, 1, 0, 0, 0x8000_0000, 1, 1),
            (0, 1, 2, 1, 1, 2, 2),
            (0, 1, 2, 1, 0, 0, 2),
            (0, 1, 1, 0, 2, 1, 2),
        ];
        for record in bad {
            assert_eq!(outcome(&[1], &[record]), (36, 1), "{record:?}");
            // two of them: the lowest number, in whatever order they are reached
            let second = (2, record.1, record.2, record.3, record.4, record.5, record.6);
            assert_eq!(outcome(&[3, 1], &[whole(0, 9), record, second]), (36, 2), "{record:?}");
            let third = (1, second.1, second.2, second.3, second.4, second.5, second.6);
            assert_eq!(outcome(&[2, 3], &[record, whole(0, 9), third]), (36, 1), "{record:?}");
        }
        // a bad key (two wholes) in an earlier chain: the record comes first
        assert_eq!(outcome(&[1, 3], &[whole(2, 1), whole(0, 1), (0, 2, 9, 0, 1, 1, 1)]), (36, 3));
        assert_eq!(outcome(&[1], &[(0, 65_535, 0, 0, 100_000, 100_000, 100_000)]), (0, 0));
    }

    #[test]
    fn bad_reservations() {
        let head = |next, key, c, d, t| (next, key, 1, 0, c, d, t);
        let tail = |next, key, part, b, t| (next, key, 2, part, b, b, t);
        // a sound one, and one whose deadline is just the period
        assert_eq!(outcome(&[1, 2], &[head(0, 4, 7, 17, 20), tail(0, 4, 1, 3, 20)]), (0, 0));
        assert_eq!(outcome(&[1, 2], &[head(0, 4, 7, 18, 20), tail(0, 4, 1, 3, 20)]), (37, 4));
        assert_eq!(outcome(&[2, 1], &[head(0, 4, 7, 17, 20), tail(0, 4, 2, 3, 20)]), (37, 4));
        // two wholes, on one processor or on two
        assert_eq!(outcome(&[1], &[whole(2, 3), whole(0, 3)]), (37, 3));
        assert_eq!(outcome(&[1, 2], &[whole(0, 3), whole(0, 3)]), (37, 3));
        // a whole and a tail, or a head, or both
        assert_eq!(outcome(&[1, 2], &[whole(0, 3), tail(0, 3, 1, 3, 100)]), (37, 3));
        assert_eq!(outcome(&[1, 2], &[whole(0, 3), head(0, 3, 1, 2, 100)]), (37, 3));
        assert_eq!(outcome(&[1, 2, 3], &[whole(0, 3), head(0, 3, 1, 2, 100), tail(0, 3, 1, 3, 100)]), (37, 3));
        // a head without tail, a tail without head, two heads
        assert_eq!(outcome(&[1], &[head(0, 3, 1, 2, 100)]), (37, 3));
        assert_eq!(outcome(&[1], &[tail(0, 3, 1, 2, 100)]), (37, 3));
        assert_eq!(outcome(&[1, 2, 3], &[head(0, 3, 1, 2, 100), head(0, 3, 1, 2, 100), tail(0, 3, 1, 2, 100)]), (37, 3));
        // tails 1 and 2, in any order; 1 and 3; 1 and 1; 2 and 3
        let tails = |a, b| outcome(&[1, 2, 3], &[tail(0, 3, a, 2, 100), head(0, 3, 1, 2, 100), tail(0, 3, b, 5, 100)]);
        assert_eq!(tails(1, 2), (0, 0));
        assert_eq!(tails(2, 1), (0, 0));
        assert_eq!(tails(1, 3), (37, 3));
        assert_eq!(tails(1, 1), (37, 3));
        assert_eq!(tails(3, 2), (37, 3));
        // head and tail on one processor, two tails on one
        assert_eq!(outcome(&[1, 0], &[head(2, 3, 1, 2, 100), tail(0, 3, 1, 2, 100)]), (37, 3));
        let pair = [head(0, 3, 1, 2, 100), tail(3, 3, 1, 2, 100), tail(0, 3, 2, 2, 100)];
        assert_eq!(outcome(&[1, 2, 0], &pair), (37, 3));
        // unequal periods
        assert_eq!(outcome(&[1, 2], &[head(0, 3, 1, 2, 100), tail(0, 3, 1, 2, 101)]), (37, 3));
        // the lowest bad key, not the first record; below a key that is sound too
        assert_eq!(outcome(&[1, 4], &[whole(2, 300), whole(3, 300), whole(0, 1), whole(5, 256), whole(0, 256)]), (37, 256));
        // seven tails on eight processors, and numbers of processors do not matter
        let mut records = vec![head(0, 3, 1, 2, 100)];
        records.extend((1..=7).map(|part| tail(0, 3, 8 - part, 2, 100)));
        assert_eq!(outcome(&[1, 2, 3, 4, 5, 6, 7, 8], &records), (0, 0));
        // tails of two reservations on one processor are not against this rule; no lawful judge
        // takes them, though: within the longer's deadline both have to be served
        let two = [tail(2, 3, 1, 2, 100), tail(0, 4, 1, 2, 100), head(4, 3, 1, 2, 100), head(0, 4, 1, 2, 100)];
        assert_eq!(outcome(&[1, 3], &two), (39, 1));
        assert!(read(&image(&[1, 3], &two), 2, |_| true).is_ok());
    }

    #[test]
    fn too_many_keys() {
        let keys = |n: u16| {
            let records: Vec<R> = (1..=n).map(|i| whole(if i == n || i % 25 == 0 { 0 } else { i + 1 }, i)).collect();
            image(&[1, 26, 51], &records)
        };
        assert_eq!(tried(demand(3), &keys(64)), (0, 0));
        assert_eq!(tried(demand(3), &keys(65)), (38, 0));
        // before the judge, after a bad key
        let mut records: Vec<R> = (1..=65).map(|i| (if i % 25 == 0 || i == 65 { 0 } else { i + 1 }, i, 0, 0, 100, 100, 100)).collect();
        assert_eq!(outcome(&[1, 26, 51], &records), (38, 0));
        records.truncate(64);
        records[63].0 = 0;
        assert_eq!(outcome(&[1, 26, 51], &records), (39, 1));
        records.push(whole(0, 64));
        records[63].0 = 65;
        assert_eq!(outcome(&[1, 26, 51], &records), (37, 64));
    }

    #[test]
    fn a_judge_that_says_no() {
        let full = [(0, 1, 0, 0, 2, 4, 4), (3, 2, 0, 0, 2, 4, 4), (0, 3, 0, 0, 3, 4, 4)];
        assert_eq!(outcome(&[1, 2], &full), (39, 2));
        assert_eq!(outcome(&[2, 1], &full), (39, 1));
        let both = [(2, 1, 0, 0, 3, 4, 4), (0, 2, 0, 0, 3, 4, 4), (4, 3, 0, 0, 3, 4, 4), (0, 4, 0, 0, 3, 4, 4)];
        assert_eq!(outcome(&[0, 3, 1], &both), (39, 2));
        // what the demand judge takes and density does not
        let tight = image(&[0, 1], &[(2, 1, 0, 0, 2, 3, 10), (0, 2, 0, 0, 2, 5, 10)]);
        assert_eq!(tried(demand(2), &tight), (0, 0));
        assert_eq!(tried(density(2), &tight), (39, 2));
        // no to the empty list
        let empty = image(&[1, 0], &[whole(0, 1)]);
        let refused = |says: fn(&[Timing]) -> bool| read(&empty, 2, says).err().map(|f| (f.refusal.number(), f.place));
        assert_eq!(refused(|_| true), None);
        assert_eq!(refused(|_| false), Some((39, 1)));
        assert_eq!(refused(|list| !list.is_empty()), Some((39, 2)));
    }

    /// Save, load on another board, save: the same bytes.
    #[test]
    fn round_trips() {
        let mut rng = Rng::new(11);
        let (mut splits, mut records) = (0, 0);
        for _ in 0..800 {
            let processors = rng.range(1, 8);
            let judge = *rng.pick(&[JudgeChoice::Density, JudgeChoice::Demand, JudgeChoice::Either]);
            let rule = rng.pick(&[Rule::Best, Rule::Fewest, Rule::Listed([8, 2, 6, 4, 5, 3, 7, 1])]).clone();
            let empty = Board::set_up(processors, rng.range(0, 9), rng.range(0, 5), judge, rule).unwrap();
            let mut board = empty.clone();
            let longest = *rng.pick(&[40, 1000, 100_000]);
            for key in 1..=rng.range(0, 40) {
                let style = *rng.pick(&[Style::Heavy, Style::Medium, Style::Light, Style::Split]);
                let r = draw::request(&mut rng, &board, style, longest);
                let _ = board.admit(key * 1000, r.budget, r.deadline, r.period);
                if rng.percent(10) {
                    if let Some(key) = draw::leaver(&mut rng, &board) {
                        board.withdraw(key).unwrap();
                    }
                }
            }
            let image = save(&board);
            let mut other = empty.clone();
            assert_eq!(load(&mut other, &image), Ok(()));
            assert_eq!(save(&other), image);
            for p in 0..board.processors() {
                assert_eq!(board.rows(p), other.rows(p));
                splits += board.rows(p).iter().filter(|row| row.kind == Kind::Tail).count();
                records += board.rows(p).len();
            }
        }
        assert!(splits > 300 && records > 3000, "{splits} {records}");
    }
}
