//! The console: lines in, replies out.

use crate::board::{Board, JudgeChoice, Placed, Plant, PLANTS};
use crate::placement::Rule;
use crate::refusal::Refusal;
use std::io::{self, BufRead, Write};

pub const MAX_LINE: usize = 80;

/// A program that replies to lines.
pub trait Program: Default {
    /// A longer line is too long.
    const MAX_LINE: usize;
    /// The reply to a line (given without its newline); empty for a blank one.
    fn line(&mut self, line: &[u8]) -> String;
    /// True once the program has ended of itself.
    fn ended(&self) -> bool;
    /// A program with an error planted in it.
    fn planted(plant: Option<Plant>) -> Self;
}

impl Program for Console {
    const MAX_LINE: usize = MAX_LINE;
    fn planted(plant: Option<Plant>) -> Console {
        Console { plant, ..Console::new() }
    }
    fn line(&mut self, line: &[u8]) -> String {
        Console::line(self, line)
    }
    fn ended(&self) -> bool {
        Console::ended(self)
    }
}

/// One run of the console program.
pub struct Console {
    board: Option<Board>,
    ended: bool,
    plant: Option<Plant>,
}

impl Default for Console {
    fn default() -> Self {
        Console::new()
    }
}

impl Console {
    pub fn new() -> Console {
        Console { board: None, ended: false, plant: None }
    }

    /// True once the first line that is not blank has been refused.
    pub fn ended(&self) -> bool {
        self.ended
    }

    pub fn board(&self) -> Option<&Board> {
        self.board.as_ref()
    }

    /// The reply to a line (given without its newline); empty for a blank one.
    pub fn line(&mut self, line: &[u8]) -> String {
        if self.ended {
            return String::new();
        }
        match self.answer(line) {
            Ok(reply) => reply,
            Err(refusal) => {
                if self.board.is_none() {
                    self.ended = true;
                }
                format!("refused {}\n", refusal.number())
            }
        }
    }

    fn answer(&mut self, line: &[u8]) -> Result<String, Refusal> {
        if line.len() > MAX_LINE {
            return Err(Refusal::LineTooLong);
        }
        let fields = fields(line);
        if fields.is_empty() {
            return Ok(String::new());
        }
        match &mut self.board {
            None => {
                let board = set_up(&fields, false)?.planted(self.plant);
                let reply = format!("board {}\n", board.processors());
                self.board = Some(board);
                Ok(reply)
            }
            Some(board) => match fields[0] {
                b"admit" => admit(board, &fields),
                b"leave" => leave(board, &fields),
                _ => Err(Refusal::UnknownWord),
            },
        }
    }
}

/// The parts of a line between spaces.
pub(crate) fn fields(line: &[u8]) -> Vec<&[u8]> {
    line.split(|b| *b == b' ').filter(|f| !f.is_empty()).collect()
}

/// board PROCESSORS STEPS REFINEMENTS JUDGE RULE; where `listed` is known, the
/// rule may also be `listed` and eight numbers.
pub(crate) fn set_up(fields: &[&[u8]], listed: bool) -> Result<Board, Refusal> {
    // every word that is there must be known at its place, whatever the count
    if fields[0] != b"board" {
        return Err(Refusal::UnknownWord);
    }
    let judge = match fields.get(4) {
        None => None,
        Some(&b"density") => Some(JudgeChoice::Density),
        Some(&b"demand") => Some(JudgeChoice::Demand),
        Some(&b"either") => Some(JudgeChoice::Either),
        Some(_) => return Err(Refusal::UnknownWord),
    };
    let rule = match fields.get(5) {
        None => None,
        Some(&b"best") => Some(Rule::Best),
        Some(&b"fewest") => Some(Rule::Fewest),
        Some(&b"listed") if listed => Some(Rule::Listed([0; 8])),
        Some(_) => return Err(Refusal::UnknownWord),
    };
    let (judge, rule) = match (fields.len(), judge, rule) {
        (14, Some(judge), Some(rule @ Rule::Listed(_))) => (judge, rule),
        (6, Some(judge), Some(rule @ (Rule::Best | Rule::Fewest))) => (judge, rule),
        _ => return Err(Refusal::FieldCount),
    };
    let first = numbers(&fields[1..4])?;
    let order = numbers(&fields[6..])?;
    let rule = match rule {
        Rule::Listed(_) => Rule::Listed(order.try_into().expect("eight of them")),
        rule => rule,
    };
    Board::set_up(first[0], first[1], first[2], judge, rule)
}

/// admit KEY BUDGET DEADLINE PERIOD
pub(crate) fn admit(board: &mut Board, fields: &[&[u8]]) -> Result<String, Refusal> {
    if fields.len() != 5 {
        return Err(Refusal::FieldCount);
    }
    let n = numbers(&fields[1..])?;
    let made = board.admit(n[0], n[1], n[2], n[3])?;
    Ok(made.iter().map(row_line).collect())
}

/// leave KEY
pub(crate) fn leave(board: &mut Board, fields: &[&[u8]]) -> Result<String, Refusal> {
    if fields.len() != 2 {
        return Err(Refusal::FieldCount);
    }
    let key = numbers(&fields[1..])?[0];
    let gathered = board.withdraw(key)?;
    let mut reply = format!("{key} gone\n");
    for key in gathered.into_iter().filter(|key| *key != 0) {
        reply.extend(board.rows_of(key).iter().map(row_line));
    }
    Ok(reply)
}

/// KEY KIND PROCESSOR BUDGET DEADLINE
fn row_line(placed: &Placed) -> String {
    let row = &placed.row;
    format!("{} {} {} {} {}\n", row.key, row.kind.word(), placed.processor, row.timing.budget, row.timing.deadline)
}

pub(crate) fn numbers(fields: &[&[u8]]) -> Result<Vec<i64>, Refusal> {
    fields.iter().map(|f| number(f).ok_or(Refusal::NotANumber)).collect()
}

/// One or more decimal digits, with a value of at most 4,294,967,295.
fn number(field: &[u8]) -> Option<i64> {
    if field.is_empty() {
        return None;
    }
    let mut value: i64 = 0;
    for byte in field {
        if !byte.is_ascii_digit() {
            return None;
        }
        value = value * 10 + (byte - b'0') as i64;
        if value > u32::MAX as i64 {
            return None;
        }
    }
    Some(value)
}

/// Reads a line up to byte 10 or the end of the input, without that byte and
/// keeping one byte of it more than the longest line has (enough to see that it
/// is too long).
/// Nothing at the end of the input.
fn read_line(input: &mut impl BufRead, longest: usize) -> io::Result<Option<Vec<u8>>> {
    let mut line = Vec::new();
    let mut seen_any = false;
    loop {
        let chunk = input.fill_buf()?;
        if chunk.is_empty() {
            return Ok(seen_any.then_some(line));
        }
        seen_any = true;
        let end = chunk.iter().position(|b| *b == b'\n');
        let part = &chunk[..end.unwrap_or(chunk.len())];
        let room = (longest + 1).saturating_sub(line.len());
        line.extend_from_slice(&part[..part.len().min(room)]);
        let used = end.map_or(chunk.len(), |e| e + 1);
        input.consume(used);
        if end.is_some() {
            return Ok(Some(line));
        }
    }
}

/// The console program.
pub fn run(input: &mut impl BufRead, output: &mut impl Write) -> io::Result<()> {
    run_program::<Console>(input, output)
}

pub fn run_program<P: Program>(input: &mut impl BufRead, output: &mut impl Write) -> io::Result<()> {
    let mut console = P::default();
    while let Some(line) = read_line(input, P::MAX_LINE)? {
        output.write_all(console.line(&line).as_bytes())?;
        output.flush()?;
        if console.ended() {
            break;
        }
    }
    Ok(())
}

/// Line between two sessions of a stream.
pub const MARKER: &[u8] = b"----";

/// Runs each session of a stream with a fresh console and writes its replies
/// and a marker line.
pub fn replay(input: &mut impl BufRead, output: &mut impl Write) -> io::Result<()> {
    replay_program::<Console>(input, output, None)
}

pub fn replay_program<P: Program>(input: &mut impl BufRead, output: &mut impl Write, plant: Option<Plant>) -> io::Result<()> {
    let mut console = P::planted(plant);
    let mut in_session = false;
    while let Some(line) = read_line(input, P::MAX_LINE)? {
        if line == MARKER {
            output.write_all(b"----\n")?;
            console = P::planted(plant);
            in_session = false;
        } else {
            output.write_all(console.line(&line).as_bytes())?;
            in_session = true;
        }
    }
    if in_session {
        output.write_all(b"----\n")?;
    }
    output.flush()
}

/// A binary that replays: `[--plant NAME]`.
pub fn replay_main<P: Program>() -> io::Result<()> {
    let args: Vec<String> = std::env::args().skip(1).collect();
    let plant = match args.iter().map(|a| a.as_str()).collect::<Vec<_>>()[..] {
        [] => None,
        ["--plant", name] if Plant::named(name).is_some() => Plant::named(name),
        _ => {
            eprintln!("usage: [--plant {}]", PLANTS.map(|(name, _)| name).join("|"));
            std::process::exit(2);
        }
    };
    let mut out = io::BufWriter::new(io::stdout().lock());
    replay_program::<P>(&mut io::stdin().lock(), &mut out, plant)
}

#[cfg(test)]
mod tests {
    use super::*;

    fn session(input: impl AsRef<[u8]>) -> String {
        let mut out = Vec::new();
        run(&mut input.as_ref(), &mut out).unwrap();
        String::from_utf8(out).unwrap()
    }

    #[test]
    fn the_session_of_the_brief() {
        let input = "board 2 1 0 demand best\nadmit 1 6 10 10\nadmit 2 6 10 10\nadmit 3 10 20 20\nleave 1\n";
        let want = "board 2\n1 whole 1 6 10\n2 whole 2 6 10\n3 head 2 7 17\n3 tail 1 3 3\n1 gone\n3 whole 1 10 20\n";
        assert_eq!(session(input), want);
    }

    #[test]
    fn set_up_lines() {
        for (line, want) in [
            ("board 2 1 0 x", "refused 50\n"),
            ("board 2 1 0 demand", "refused 51\n"),
            ("board 2 1 0 demand x 7", "refused 50\n"),
            ("board 2 1 0 demand best 7", "refused 51\n"),
            ("board 2 demand best", "refused 51\n"),
            ("board", "refused 51\n"),
            ("board 2 1 0 demand listed", "refused 50\n"),
            ("board 2 1 0 x best", "refused 50\n"),
            ("board x x x x", "refused 50\n"),
            ("board x 1 0 demand", "refused 51\n"),
            ("admit 1 2 3 4", "refused 50\n"),
            ("Board 2 1 0 demand best", "refused 50\n"),
            ("board 2 1 0 Demand best", "refused 50\n"),
            ("board 2 1 0 demand best\r", "refused 50\n"),
            ("board -2 1 0 demand best", "refused 52\n"),
            ("board 9 1 x demand best", "refused 52\n"),
            ("board 4294967296 1 0 demand best", "refused 52\n"),
            ("board 4294967295 99 99 demand best", "refused 1\n"),
            ("board 0 99 99 demand best", "refused 1\n"),
            ("board 8 10 6 density best", "refused 2\n"),
            ("board 8 9 6 density fewest", "refused 3\n"),
            ("  board  008 9  5 either fewest  ", "board 8\n"),
            ("", ""),
        ] {
            assert_eq!(session(line), want, "{line}");
        }
        // a refused first line ends the program; blank lines before it do not count
        assert_eq!(session("\n   \nboard 0 0 0 density best\nboard 1 0 0 density best\n"), "refused 1\n");
        assert_eq!(session("\n\n  \nboard 1 0 0 density best\n"), "board 1\n");
        let spaces = " ".repeat(81);
        assert_eq!(session(format!("{spaces}\nboard 1 0 0 density best\n")), "refused 54\n");
        let spaces = " ".repeat(80);
        assert_eq!(session(format!("{spaces}\nboard 1 0 0 density best\n")), "board 1\n");
    }

    #[test]
    fn later_lines() {
        for (line, want) in [
            ("board 1 0 0 density best", "refused 50\n"),
            ("board", "refused 50\n"),
            ("ADMIT 1 2 3 4", "refused 50\n"),
            ("x", "refused 50\n"),
            ("\tadmit 1 2 3 4", "refused 50\n"),
            ("admit", "refused 51\n"),
            ("admit x 1 1", "refused 51\n"),
            ("admit 1 2 3 4 5", "refused 51\n"),
            ("leave", "refused 51\n"),
            ("leave x x", "refused 51\n"),
            ("leave x", "refused 52\n"),
            ("leave +1", "refused 52\n"),
            ("leave 1\r", "refused 52\n"),
            ("admit 0 1 1 1.0", "refused 52\n"),
            ("admit 0 1 1 4294967296", "refused 52\n"),
            ("admit 0 1 1 4294967295", "refused 10\n"),
            ("admit 7 0 1 1", "refused 11\n"),
            ("admit 8 2 1 1", "refused 12\n"),
            ("admit 8 1 2 1", "refused 13\n"),
            ("admit 8 1 2 100001", "refused 14\n"),
            ("admit 7 1 1 1", "refused 15\n"),
            ("admit 8 2 2 2", "refused 17\n"),
            ("leave 0", "refused 20\n"),
            ("leave 4294967295", "refused 20\n"),
            ("leave 007", "7 gone\n"),
            ("   leave   7 ", "7 gone\n"),
            ("", ""),
            ("   ", ""),
        ] {
            let replies = session(format!("board 1 0 0 density best\nadmit 7 1 2 2\n{line}"));
            assert_eq!(replies, format!("board 1\n7 whole 1 1 2\n{want}"), "{line}");
        }
        let pad = |n: usize| format!("board 1 0 0 density best\n{}leave 9\nleave 9\n", " ".repeat(n - 7));
        assert_eq!(session(pad(80)), "board 1\nrefused 20\nrefused 20\n");
        assert_eq!(session(pad(81)), "board 1\nrefused 54\nrefused 20\n");
        assert_eq!(session(pad(100_000)), "board 1\nrefused 54\nrefused 20\n");
    }

    #[test]
    fn replays() {
        let stream = "x\nboard 1 0 0 density best\n----\nboard 1 0 0 density best\nadmit 1 1 1 1\n----\n\n----\nboard 2 0 0 density best";
        let want = "refused 50\n----\nboard 1\n1 whole 1 1 1\n----\n----\nboard 2\n----\n";
        for end in ["", "\n", "\n----", "\n----\n"] {
            let mut out = Vec::new();
            replay(&mut format!("{stream}{end}").as_bytes(), &mut out).unwrap();
            assert_eq!(String::from_utf8(out).unwrap(), want);
        }
    }
}
