//! Writes what the model makes of the cases on standard input: cargo run --example check_cases < crates/check_cases/stdin

fn main() -> std::io::Result<()> {
    let input = std::io::read_to_string(std::io::stdin())?;
    print!("{}", cases::lines::expected(&input));
    Ok(())
}
