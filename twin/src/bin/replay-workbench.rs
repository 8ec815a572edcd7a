fn main() -> std::io::Result<()> {
    twin::console::replay_main::<twin::workbench::Workbench>()
}
