use std::io;

fn main() -> io::Result<()> {
    twin::console::run_program::<twin::workbench::Workbench>(&mut io::stdin().lock(), &mut io::stdout().lock())
}
