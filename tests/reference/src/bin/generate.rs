//! `generate SEED small|medium|large [COUNT DIRECTORY]`: one file to standard output,
//! or COUNT files of the seeds from SEED on, as DIRECTORY/SEED.il.

use reference::generate::{self, SizeClass};
use std::io::Write;

fn size_class(word: &str) -> Option<SizeClass> {
    match word {
        "small" => Some(SizeClass::Small),
        "medium" => Some(SizeClass::Medium),
        "large" => Some(SizeClass::Large),
        _ => None,
    }
}

fn run(arguments: &[String]) -> Option<std::io::Result<()>> {
    let (seed, size) = (
        arguments.first()?.parse::<u64>().ok()?,
        size_class(arguments.get(1)?)?,
    );
    let Some(count) = arguments.get(2) else {
        return Some(std::io::stdout().write_all(&generate::file(seed, size)));
    };
    let (count, directory) = (count.parse::<u64>().ok()?, arguments.get(3)?);
    let write = |seed| std::fs::write(format!("{directory}/{seed}.il"), generate::file(seed, size));
    Some((seed..seed + count).try_for_each(write))
}

fn main() -> std::io::Result<()> {
    let arguments: Vec<String> = std::env::args().skip(1).collect();
    run(&arguments).unwrap_or_else(|| {
        eprintln!("generate SEED small|medium|large [COUNT DIRECTORY]");
        std::process::exit(2)
    })
}
