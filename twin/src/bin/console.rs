use std::io;

fn main() -> io::Result<()> {
    twin::console::run(&mut io::stdin().lock(), &mut io::stdout().lock())
}
