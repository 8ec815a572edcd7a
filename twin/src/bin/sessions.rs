use std::io::{self, Write};
use twin::rng::Rng;
use twin::sessions::{session, Tally};

fn main() -> io::Result<()> {
    let args: Vec<String> = std::env::args().skip(1).collect();
    let numbers: Vec<u64> = args.iter().filter_map(|a| a.parse().ok()).collect();
    let tell = args.iter().any(|a| a == "--tally");
    let [seed, count] = numbers[..] else {
        eprintln!("usage: sessions SEED COUNT [--tally]");
        std::process::exit(2);
    };
    let mut rng = Rng::new(seed);
    let mut tally = Tally::default();
    let mut out = io::BufWriter::new(io::stdout().lock());
    for i in 0..count {
        if i > 0 {
            out.write_all(b"----\n")?;
        }
        for line in session(&mut rng, &mut tally) {
            out.write_all(&line)?;
            out.write_all(b"\n")?;
        }
    }
    out.flush()?;
    if tell {
        eprintln!("{tally:#?}");
    }
    Ok(())
}
