//! Measures and prints the page below its head as Markdown:
//! `bench FOLDER [--short | --serve] [--repetitions N] [--parts PARTS]`. The
//! folder lies in a memory file system. With --short only the README's table,
//! with --serve only the section on serving. With --parts the plots and the
//! README's table are put into that folder, from the same run. Ends with 3 if
//! the run drifted too far.

use bench::measure::{Run, REPETITIONS};
use bench::page::{short, Page};
use std::fs;
use std::path::Path;
use std::process::ExitCode;

/// What stands after an option.
fn after<'a>(arguments: &'a [String], option: &str) -> Option<&'a str> {
    let at = arguments.iter().position(|argument| argument == option)?;
    Some(arguments.get(at + 1).unwrap_or_else(|| panic!("{option} wants a value")))
}

fn main() -> ExitCode {
    let arguments: Vec<String> = std::env::args().skip(1).collect();
    let folder = Path::new(arguments.first().expect("a folder in a memory file system"));
    let repetitions = after(&arguments, "--repetitions").map_or(REPETITIONS, |number| number.parse().expect("a number"));
    let mut run = Run::default();
    if arguments.iter().any(|argument| argument == "--short") {
        print!("{}", short(&mut run, folder, repetitions));
        return ExitCode::SUCCESS;
    }
    #[cfg(feature = "library")]
    if arguments.iter().any(|argument| argument == "--serve") {
        print!("{}", bench::page::served(&mut run, folder, repetitions));
        return ExitCode::SUCCESS;
    }
    let page = Page::plan(&mut run, folder);
    run.measure(repetitions);
    print!("{}", page.text(&run, repetitions));
    if let Some(parts) = after(&arguments, "--parts").map(Path::new) {
        fs::write(parts.join("growth.svg"), page.svg(&run)).expect("the plots");
        fs::write(parts.join("table.md"), page.table(&run)).expect("the README's table");
    }
    match page.drifted(&run) {
        None => ExitCode::SUCCESS,
        Some(sentence) => {
            eprintln!("{sentence}");
            ExitCode::from(3)
        }
    }
}
