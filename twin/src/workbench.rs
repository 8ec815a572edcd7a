//! The workbench: a console with longer lines that also saves, loads, looks,
//! judges and asks for allowances.

use crate::board::{within_limits, Board, Plant};
use crate::console::{self, Program};
use crate::refusal::Refusal;
use crate::stored::{self, ImageFault};
use crate::timing::{timing, Timing};

pub const MAX_LINE: usize = 12_000;
/// Rows that `judge` and `allow` take.
pub const MAX_LIST: usize = 40;

/// One run of the workbench program.
#[derive(Default)]
pub struct Workbench {
    board: Option<Board>,
    ended: bool,
    plant: Option<Plant>,
}

/// A refusal with no place named.
impl From<Refusal> for ImageFault {
    fn from(refusal: Refusal) -> ImageFault {
        ImageFault { refusal, place: 0 }
    }
}

impl Program for Workbench {
    const MAX_LINE: usize = MAX_LINE;

    fn line(&mut self, line: &[u8]) -> String {
        if self.ended {
            return String::new();
        }
        match self.answer(line) {
            Ok(reply) => reply,
            Err(fault) => {
                if self.board.is_none() {
                    self.ended = true;
                }
                format!("refused {} {}\n", fault.refusal.number(), fault.place)
            }
        }
    }

    fn ended(&self) -> bool {
        self.ended
    }

    fn planted(plant: Option<Plant>) -> Workbench {
        Workbench { plant, ..Workbench::default() }
    }
}

impl Workbench {
    pub fn board(&self) -> Option<&Board> {
        self.board.as_ref()
    }

    fn answer(&mut self, line: &[u8]) -> Result<String, ImageFault> {
        if line.len() > MAX_LINE {
            return Err(Refusal::LineTooLong.into());
        }
        let fields = console::fields(line);
        if fields.is_empty() {
            return Ok(String::new());
        }
        let Some(board) = &mut self.board else {
            let board = console::set_up(&fields, true)?.planted(self.plant);
            let reply = format!("board {}\n", board.processors());
            self.board = Some(board);
            return Ok(reply);
        };
        let count = fields.len() - 1; // of fields after the word
        match fields[0] {
            b"admit" => Ok(console::admit(board, &fields)?),
            b"leave" => Ok(console::leave(board, &fields)?),
            b"save" => {
                expect(count == 0)?;
                Ok(format!("saved {}\n", hex(&stored::save(board))))
            }
            b"load" => {
                expect(count == 1)?;
                let image = bytes(fields[1]).ok_or(Refusal::NotANumber)?;
                stored::load(board, &image)?;
                Ok(format!("loaded {}\n", hex(&stored::save(board))))
            }
            b"look" => {
                expect(count == 2)?;
                let n = console::numbers(&fields[1..])?;
                let row = board.look(n[0], n[1])?;
                let t = row.timing;
                Ok(format!("row {} {} {} {} {} {}\n", row.key, row.kind.word(), row.part, t.budget, t.deadline, t.period))
            }
            b"judge" => {
                expect(count % 3 == 0 && count / 3 <= MAX_LIST)?;
                let list = list(&console::numbers(&fields[1..])?)?;
                Ok(if board.judge().says_yes(&list) { "yes\n" } else { "no\n" }.to_string())
            }
            b"allow" => {
                expect(count >= 2 && (count - 2) % 3 == 0 && (count - 2) / 3 <= MAX_LIST)?;
                let n = console::numbers(&fields[1..])?;
                let list = list(&n[2..])?;
                Ok(format!("allowance {}\n", board.judge().allowance(&list, n[0], n[1])))
            }
            _ => Err(Refusal::UnknownWord.into()),
        }
    }
}

fn expect(right_count: bool) -> Result<(), Refusal> {
    if right_count {
        Ok(())
    } else {
        Err(Refusal::FieldCount)
    }
}

/// The rows, three numbers each; the first that passes a limit is refused.
fn list(numbers: &[i64]) -> Result<Vec<Timing>, Refusal> {
    numbers
        .chunks(3)
        .map(|n| {
            within_limits(n[0], n[1], n[2])?;
            Ok(timing(n[0], n[1], n[2]))
        })
        .collect()
}

/// Two lower-case hexadecimal digits a byte; `-` for no bytes.
pub fn hex(bytes: &[u8]) -> String {
    if bytes.is_empty() {
        return "-".to_string();
    }
    bytes.iter().map(|byte| format!("{byte:02x}")).collect()
}

fn bytes(field: &[u8]) -> Option<Vec<u8>> {
    if field == b"-" {
        return Some(Vec::new());
    }
    if field.len() % 2 != 0 {
        return None;
    }
    let digit = |byte: u8| (byte as char).to_digit(16).map(|d| d as u8);
    field.chunks(2).map(|two| Some(digit(two[0])? * 16 + digit(two[1])?)).collect()
}

#[cfg(test)]
mod tests {
    use super::*;

    fn session(input: impl AsRef<[u8]>) -> String {
        let mut out = Vec::new();
        console::run_program::<Workbench>(&mut input.as_ref(), &mut out).unwrap();
        String::from_utf8(out).unwrap()
    }

    #[test]
    fn a_session_by_hand() {
        let input = "\nboard 1 0 0 density best\nsave\nadmit 7 2 4 4\nsave\nlook 1 1\nlook 1 2\nleave 7\nsave\n\
            load 010101000100000007000000020000000400000004000000\nlook 01 001\nadmit 7 1 1 1\nadmit 8 3 4 4\n\
            load 01010000000A\nload 010100000000\nload 0101010001000000FFFF00000200000004000000A0860100\nload -\nload 0A\nlook 1 1\n";
        let want = "board 1\nsaved 010100000000\n7 whole 1 2 4\nsaved 010101000100000007000000020000000400000004000000\nrow 7 whole 0 2 4 4\n\
            refused 21 0\n7 gone\nsaved 010100000000\nloaded 010101000100000007000000020000000400000004000000\nrow 7 whole 0 2 4 4\n\
            refused 15 0\nrefused 17 0\nrefused 35 1\nloaded 010100000000\nloaded 0101010001000000ffff00000200000004000000a0860100\n\
            refused 31 0\nrefused 31 0\nrow 65535 whole 0 2 4 100000\n";
        assert_eq!(session(input), want);
    }

    #[test]
    fn first_lines() {
        for (line, want) in [
            ("board 2 1 0 demand listed", "refused 51 0\n"),
            ("board 2 1 0 demand listed 1 2 3 4 5 6 7", "refused 51 0\n"),
            ("board 2 1 0 demand listed 1 2 3 4 5 6 7 8 9", "refused 51 0\n"),
            ("board 2 1 0 demand best 1 2 3 4 5 6 7 8", "refused 51 0\n"),
            ("board 2 1 0 x listed 1 2 3 4 5 6 7 8", "refused 50 0\n"),
            ("board 2 1 0 demand Listed 1 2 3 4 5 6 7 8", "refused 50 0\n"),
            ("board 2 1 0 demand listed 1 2 3 4 5 6 7 x", "refused 52 0\n"),
            ("board 2 1 0 demand listed 1 2 3 4 5 6 7 7", "refused 4 0\n"),
            ("board 2 1 0 demand listed 0 1 2 3 4 5 6 7", "refused 4 0\n"),
            ("board 2 1 6 demand listed 0 1 2 3 4 5 6 7", "refused 3 0\n"),
            ("board 2 1 0 demand listed 8 7 6 5 4 3 2 01", "board 2\n"),
            ("board 9 1 0 demand best", "refused 1 0\n"),
            ("save", "refused 50 0\n"),
        ] {
            assert_eq!(session(format!("{line}\n")), want, "{line}");
        }
        assert_eq!(session("save\nboard 1 0 0 density best\n"), "refused 50 0\n");
        let listed = "board 3 1 0 demand listed 8 3 7 1 6 2 5 4\nadmit 1 1 2 2\nadmit 2 2 2 2\n";
        assert_eq!(session(listed), "board 3\n1 whole 3 1 2\n2 whole 1 2 2\n");
    }

    #[test]
    fn later_lines() {
        let row = "1 9 9 ";
        let spaces = |n: usize| " ".repeat(n);
        let cases: Vec<(String, &str)> = vec![
            ("board 1 0 0 density best".into(), "refused 50 0\n"),
            ("Save".into(), "refused 50 0\n"),
            ("save 1".into(), "refused 51 0\n"),
            ("load".into(), "refused 51 0\n"),
            ("load 01 01".into(), "refused 51 0\n"),
            ("load x x".into(), "refused 51 0\n"),
            ("load 0".into(), "refused 52 0\n"),
            ("load 0g".into(), "refused 52 0\n"),
            ("load 0x01".into(), "refused 52 0\n"),
            ("load --".into(), "refused 52 0\n"),
            ("load 01010".into(), "refused 52 0\n"),
            ("load +1".into(), "refused 52 0\n"),
            ("look 1".into(), "refused 51 0\n"),
            ("look 1 1 1".into(), "refused 51 0\n"),
            ("look 1 x".into(), "refused 52 0\n"),
            ("look 0 1".into(), "refused 21 0\n"),
            ("look 1 0".into(), "refused 21 0\n"),
            ("look 4294967295 4294967295".into(), "refused 21 0\n"),
            ("judge".into(), "yes\n"),
            ("judge 1".into(), "refused 51 0\n"),
            ("judge 1 2 3 4 5".into(), "refused 51 0\n"),
            ("judge 1 2 x".into(), "refused 52 0\n"),
            ("judge 2 4 4 2 4 4".into(), "yes\n"),
            ("judge 2 4 4 3 4 4".into(), "no\n"),
            ("judge 0 4 4".into(), "refused 11 0\n"),
            ("judge 2 4 4 5 4 4".into(), "refused 12 0\n"),
            ("judge 2 5 4 0 0 0".into(), "refused 13 0\n"),
            ("judge 1 1 100001".into(), "refused 14 0\n"),
            (format!("judge {}", "1 100000 100000 ".repeat(32)), "yes\n"),
            (format!("judge {}", "1 100000 100000 ".repeat(40)), "no\n"),
            (format!("judge {}", row.repeat(41)), "refused 51 0\n"),
            (format!("judge {}0 9 9", row.repeat(39)), "refused 11 0\n"),
            ("allow 20".into(), "refused 51 0\n"),
            ("allow 20 9".into(), "allowance 9\n"),
            ("allow 20 9 1".into(), "refused 51 0\n"),
            ("allow 20 9 5 10 10".into(), "allowance 5\n"),
            ("allow 20 2 5 10 10".into(), "allowance 2\n"),
            ("allow 0 9".into(), "allowance 0\n"),
            ("allow 100001 9".into(), "allowance 0\n"),
            ("allow 20 0".into(), "allowance 0\n"),
            ("allow 100000 4294967295".into(), "allowance 100000\n"),
            ("allow 0 0 0 1 1".into(), "refused 11 0\n"),
            ("allow 20 9 5 10 9".into(), "refused 13 0\n"),
            (format!("allow 20 9 {}", "1 100000 100000 ".repeat(32)), "allowance 0\n"),
            (format!("allow 20 9 {}", row.repeat(41)), "refused 51 0\n"),
            ("admit 0 1 1 1".into(), "refused 10 0\n"),
            ("leave 1".into(), "refused 20 0\n"),
            (format!("{}save", spaces(11_996)), "saved 010100000000\n"),
            (format!("{}save", spaces(11_997)), "refused 54 0\n"),
            (spaces(12_000), ""),
            (spaces(12_001), "refused 54 0\n"),
            (spaces(50_000), "refused 54 0\n"),
        ];
        for (line, want) in cases {
            let replies = session(format!("board 1 1 0 demand best\n{line}\nsave"));
            let shown = &line[..line.len().min(60)];
            assert_eq!(replies, format!("board 1\n{want}saved 010100000000\n"), "{shown}");
        }
    }
}
