use std::io::{self, Write};
use twin::rng::Rng;
use twin::sessions::odd_session;

/// COUNT lines of random bytes and COUNT near-valid ones on ten boards, and then COUNT / 5 sessions whose first line is such a line.
fn main() -> io::Result<()> {
    let numbers: Vec<u64> = std::env::args().skip(1).filter_map(|a| a.parse().ok()).collect();
    let [seed, count] = numbers[..] else {
        eprintln!("usage: odd-lines SEED COUNT");
        std::process::exit(2);
    };
    let mut rng = Rng::new(seed);
    let mut out = io::BufWriter::new(io::stdout().lock());
    for i in 0..10 + count / 5 {
        if i > 0 {
            out.write_all(b"----\n")?;
        }
        let lines = if i < 10 { odd_session(&mut rng, false, count as usize / 10) } else { odd_session(&mut rng, true, 0) };
        for line in lines {
            out.write_all(&line)?;
            out.write_all(b"\n")?;
        }
    }
    out.flush()
}
