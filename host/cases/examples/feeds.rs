//! Writes a feed of the benchmark into a new folder: cargo run --release --example feeds -- FOLDER NAME LINES, where its longest file has that many lines.

use cases::large::families::FAMILIES;
use model::facts::NAMES;
use std::fs;
use std::path::Path;

const USAGE: &str = "usage: feeds FOLDER NAME LINES, with 64 lines at least";

fn main() -> std::io::Result<()> {
    let words: Vec<String> = std::env::args().skip(1).collect();
    let [folder, name, lines] = &words[..] else { stop(USAGE) };
    let Some(lines) = lines.parse().ok().filter(|&lines| lines >= 64) else { stop(USAGE) };
    let Some(family) = FAMILIES.iter().find(|family| family.name == name) else {
        let names = FAMILIES.each_ref().map(|family| family.name).join(", ");
        stop(&format!("the feeds are: {names}"));
    };
    fs::create_dir(folder)?;
    // A file without bytes isn't supplied.
    let files = (family.feed)(lines).into_iter().zip(NAMES).filter(|(bytes, _)| !bytes.is_empty());
    files.into_iter().try_for_each(|(bytes, name)| fs::write(Path::new(folder).join(name), bytes))
}

fn stop(words: &str) -> ! {
    eprintln!("{words}");
    std::process::exit(2);
}
