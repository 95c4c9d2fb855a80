//! `cargo run --release --offline -p fuzz FILE...` runs the fuzz target on each file, for instance on an input that libFuzzer stored.

fn main() -> std::io::Result<()> {
    for path in std::env::args().skip(1) {
        fuzz::call(&std::fs::read(&path)?);
        println!("{path}: the library and the second program agree");
    }
    Ok(())
}
