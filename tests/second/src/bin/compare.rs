//! The random comparison of another implementation's programs with this one.

use std::fs;
use std::path::PathBuf;
use std::process::ExitCode;
use std::sync::atomic::{AtomicBool, AtomicUsize, Ordering};
use std::sync::Mutex;
use std::thread;
use std::time::{Duration, Instant};

use second::bench::Bench;
use second::inspect::inspect;
use second::listing::listing;
use second::outside::ask;
use second::random::Random;
use second::small::{image_of, judge, line_of, smalllogs};
use second::tally::Tally;
use second::{damage, images, open, place, scripts, smalls, spots};

const USAGE: &str = "compare [--session PATH] [--listing PATH] [--smalllogs PATH] [--inspect PATH] [--self] \
                     [--seed S] [--scripts N] [--images N] [--inspected N] [--jobs N] [--brief]";
const SCRIPTS: usize = 3_080;
const IMAGES: usize = 4_800;
const SMALL_LOGS: usize = 300;
/// Random images for the inspector, besides the systematic ones.
const INSPECTED: usize = 2_000;
/// The first stream of the small logs, past those of images and scripts.
const SMALL_STREAM: u64 = 1 << 40;
/// The first stream of the inspector's images.
const INSPECT_STREAM: u64 = 1 << 41;
/// How long a script that differs may be made smaller.
const SHRINKING: Duration = Duration::from_secs(30);

struct Options {
    session: Option<String>,
    listing: Option<String>,
    smalllogs: Option<String>,
    inspect: Option<String>,
    seed: u64,
    scripts: usize,
    images: usize,
    inspected: usize,
    jobs: usize,
    /// Stop at the first difference, save and shrink nothing.
    brief: bool,
}

#[derive(Default)]
struct Totals {
    passed: usize,
    failed: usize,
    scripts: usize,
    images: usize,
    inspected: usize,
    lines: usize,
    tally: Tally,
    /// A difference in an image or a script was shown.
    shown: bool,
    /// One in an image for the inspector was shown.
    inspected_shown: bool,
}

fn main() -> ExitCode {
    let Some(options) = options() else {
        eprintln!("usage: {USAGE}");
        return ExitCode::from(2);
    };
    println!("seed {}", options.seed);
    let totals = compare_all(&options);
    let complete = report(&options, &totals);
    println!("{} passed, {} failed", totals.passed, totals.failed);
    if totals.failed == 0 && complete {
        ExitCode::SUCCESS
    } else {
        ExitCode::FAILURE
    }
}

fn options() -> Option<Options> {
    let mut options = Options {
        session: None,
        listing: None,
        smalllogs: None,
        inspect: None,
        seed: 1,
        scripts: SCRIPTS,
        images: IMAGES,
        inspected: INSPECTED,
        jobs: 2,
        brief: false,
    };
    let mut words = std::env::args().skip(1);
    while let Some(word) = words.next() {
        match word.as_str() {
            "--session" => options.session = Some(words.next()?),
            "--listing" => options.listing = Some(words.next()?),
            "--smalllogs" => options.smalllogs = Some(words.next()?),
            "--inspect" => options.inspect = Some(words.next()?),
            "--seed" => options.seed = words.next()?.parse().ok()?,
            "--scripts" => options.scripts = words.next()?.parse().ok()?,
            "--images" => options.images = words.next()?.parse().ok()?,
            "--inspected" => options.inspected = words.next()?.parse().ok()?,
            "--jobs" => options.jobs = words.next()?.parse().ok()?,
            "--brief" => options.brief = true,
            "--self" => with_itself(&mut options)?,
            _ => return None,
        }
    }
    let programs = [&options.session, &options.listing, &options.smalllogs, &options.inspect];
    if programs.iter().all(|program| program.is_none()) {
        return None;
    }
    Some(options)
}

/// The programs of this implementation that lie beside this one.
fn with_itself(options: &mut Options) -> Option<()> {
    let folder = std::env::current_exe().ok()?.parent()?.to_path_buf();
    let beside = |name: &str| folder.join(name).to_str().map(str::to_string);
    options.session = Some(beside("second_session")?);
    options.listing = Some(beside("second_listing")?);
    options.smalllogs = Some(beside("second_smalllogs")?);
    options.inspect = Some(beside("second_inspect")?);
    Some(())
}

impl Options {
    /// Random small logs ask both the program of K9 and the listing program.
    fn small_logs(&self) -> usize {
        if self.smalllogs.is_some() && self.listing.is_some() {
            SMALL_LOGS
        } else {
            0
        }
    }
}

/// The program of K9, then small logs, then the inspector's images, then images and
/// scripts in turn, shared out among the jobs.
fn compare_all(options: &Options) -> Totals {
    let smalls = options.small_logs();
    let systematic = if options.inspect.is_some() { damage::systematic() } else { Vec::new() };
    let inspected = if options.inspect.is_some() { systematic.len() + options.inspected } else { 0 };
    let images = if options.listing.is_some() { options.images } else { 0 };
    let scripts = if options.session.is_some() { options.scripts } else { 0 };
    let next = AtomicUsize::new(0);
    let totals = Mutex::new(Totals::default());
    let (agreed, printed) = compare_smalllogs(options, &totals);
    let stop = AtomicBool::new(!agreed && options.brief);
    let work = || loop {
        let index = next.fetch_add(1, Ordering::Relaxed);
        if index >= smalls + inspected + images + scripts || stop.load(Ordering::Relaxed) {
            return;
        }
        let agreed = if index < smalls {
            compare_small_log(options, index, &printed, &totals)
        } else if index < smalls + inspected {
            compare_inspected(options, index - smalls, &systematic, &totals)
        } else {
            let index = index - smalls - inspected;
            let script = index * scripts / (images + scripts);
            let is_script = (index + 1) * scripts / (images + scripts) > script;
            if is_script {
                compare_script(options, script, &totals)
            } else {
                compare_image(options, index - script, &totals)
            }
        };
        if !agreed && options.brief {
            stop.store(true, Ordering::Relaxed);
        }
    };
    thread::scope(|scope| {
        for _ in 0..options.jobs.max(1) {
            scope.spawn(work);
        }
    });
    totals.into_inner().unwrap_or_default()
}

/// Counts one comparison.
fn count(totals: &Mutex<Totals>, agreed: bool, tally: &Tally) {
    let Ok(mut totals) = totals.lock() else { return };
    totals.tally.add(tally);
    if agreed {
        totals.passed += 1;
    } else {
        totals.failed += 1;
    }
}

/// Counts one image or script; true the first time that one fails.
fn count_shown(totals: &Mutex<Totals>, agreed: bool, tally: &Tally) -> bool {
    count(totals, agreed, tally);
    let Ok(mut totals) = totals.lock() else { return false };
    let is_first = !agreed && !totals.shown;
    totals.shown |= is_first;
    is_first
}

/// The program of K9, which reads nothing: with no input, and with some. Whether both
/// agreed, and the lines that it printed.
fn compare_smalllogs(options: &Options, totals: &Mutex<Totals>) -> (bool, Vec<String>) {
    let Some(program) = options.smalllogs.as_deref() else { return (true, Vec::new()) };
    let mut random = Random::stream(options.seed, SMALL_STREAM - 1);
    let some: Vec<u8> = (0..random.between(1, 4_096)).map(|_| random.any() as u8).collect();
    let expected = smalllogs().into_bytes();
    let (agreed, printed) = ask_smalllogs(program, "no input", &[], &expected, totals);
    if !agreed && options.brief {
        return (false, printed);
    }
    let (agreed_again, _) = ask_smalllogs(program, "some input", &some, &expected, totals);
    (agreed && agreed_again, printed)
}

/// The program of K9 with one input.
fn ask_smalllogs(
    program: &str,
    name: &str,
    input: &[u8],
    expected: &[u8],
    totals: &Mutex<Totals>,
) -> (bool, Vec<String>) {
    let got = ask(program, input);
    let agreed = got.as_ref().is_ok_and(|got| *got == expected);
    count(totals, agreed, &Tally::default());
    if !agreed {
        println!("smalllogs with {name} differs");
        print_difference(expected, &got);
    }
    let mut printed = lines_of(&got.unwrap_or_default());
    // What follows the last line feed is no line.
    printed.pop();
    (agreed, printed)
}

/// A random small log: printed by the program of K9 exactly when opening accepts it
/// here, and its image is listed as here.
fn compare_small_log(
    options: &Options,
    index: usize,
    printed: &[String],
    totals: &Mutex<Totals>,
) -> bool {
    let log = smalls::make(Random::stream(options.seed, SMALL_STREAM + index as u64));
    let line = line_of(&log);
    let is_legal = judge(&log).is_ok();
    let is_printed = printed.contains(&line);
    let input = images::bytes_of(&image_of(&log));
    let expected = listing(&input).into_bytes();
    let got = ask(options.listing.as_deref().unwrap_or_default(), &input);
    let is_listed = got.as_ref().is_ok_and(|got| *got == expected);
    let agreed = is_printed == is_legal && is_listed;
    let mut tally = Tally::default();
    for case in smalls::cases(&log) {
        tally.count("small logs", case);
    }
    count(totals, agreed, &tally);
    if !agreed {
        println!("small log {index} differs: `{line}`");
        println!("  here legal: {is_legal}, there printed: {is_printed}");
        print_difference(&expected, &got);
    }
    agreed
}

fn compare_image(options: &Options, index: usize, totals: &Mutex<Totals>) -> bool {
    let input = images::make(Random::stream(options.seed, 2 * index as u64), index);
    let expected = listing(&input).into_bytes();
    let program = options.listing.as_deref().unwrap_or_default();
    let got = ask(program, &input);
    let agreed = got.as_ref().is_ok_and(|got| *got == expected);
    let mut tally = Tally::default();
    let first_line = String::from_utf8_lossy(&expected).lines().next().unwrap_or("").to_string();
    tally.count("listing", if first_line.starts_with("length") { "listed" } else { &first_line });
    if let Ok(mut totals) = totals.lock() {
        totals.images += 1;
        totals.lines += expected.iter().filter(|&&byte| byte == b'\n').count();
    }
    if count_shown(totals, agreed, &tally) {
        println!("image {index} differs");
        print_difference(&expected, &got);
        save(options, &format!("{}-{index}.image", options.seed), &input);
    }
    agreed
}

fn compare_script(options: &Options, index: usize, totals: &Mutex<Totals>) -> bool {
    let kind = index % scripts::KINDS.len();
    let script = scripts::make(Random::stream(options.seed, 2 * index as u64 + 1), kind);
    let mut bench = Bench::new();
    let expected = bench.script(&script);
    let program = options.session.as_deref().unwrap_or_default();
    let got = ask(program, &script);
    let agreed = got.as_ref().is_ok_and(|got| *got == expected);
    if let Ok(mut totals) = totals.lock() {
        totals.scripts += 1;
        totals.lines += script.iter().filter(|&&byte| byte == b'\n').count();
    }
    if count_shown(totals, agreed, &bench.tally) {
        println!("script {index} differs ({})", scripts::KINDS[kind]);
        print_difference(&expected, &got);
        save(options, &format!("{}-{index}.script", options.seed), &script);
        if !options.brief {
            let small = shrink(program, &script);
            save(options, &format!("{}-{index}-small.script", options.seed), &small);
            print_difference(&second::bench::run(&small), &ask(program, &small));
        }
    }
    agreed
}

/// An image for the inspector: the texts, the number, and the place named.
fn compare_inspected(options: &Options, index: usize, systematic: &[Vec<u8>], totals: &Mutex<Totals>) -> bool {
    let input = systematic.get(index).cloned().unwrap_or_else(|| {
        let index = index - systematic.len();
        damage::make(Random::stream(options.seed, INSPECT_STREAM + index as u64), index)
    });
    let expected = inspect(&input);
    let got = ask(options.inspect.as_deref().unwrap_or_default(), &input);
    let mut tally = Tally::default();
    if let Ok(named) = place::named_in(&expected) {
        for case in spots::met(&input, named.as_ref()) {
            tally.count("inspect", &case);
        }
    }
    if let Ok(mut totals) = totals.lock() {
        totals.inspected += 1;
        totals.lines += expected.lines().count();
        totals.tally.add(&tally);
    }
    let checks = inspect_checks(options, &input, &expected, &got);
    for (check, outcome) in &checks {
        let mut tally = Tally::default();
        tally.count("inspect checks", check);
        count(totals, outcome.is_ok(), &tally);
    }
    let wrong: Vec<_> = checks.iter().filter(|(_, outcome)| outcome.is_err()).collect();
    if !wrong.is_empty() && is_first_inspected(totals) {
        println!("image {index} for the inspector differs");
        print_difference(expected.as_bytes(), &got);
        for (check, outcome) in &wrong {
            println!("  {check}: {}", outcome.as_ref().err().map_or("", |why| why));
        }
        let name = format!("{}-{index}-inspect", options.seed);
        save(options, &format!("{name}.image"), &input);
        save(options, &format!("{name}.here"), expected.as_bytes());
        save(options, &format!("{name}.there"), got.as_ref().map_or(&[], |text| text));
    }
    wrong.is_empty()
}

/// True the first time that an image for the inspector fails.
fn is_first_inspected(totals: &Mutex<Totals>) -> bool {
    totals.lock().is_ok_and(|mut totals| !std::mem::replace(&mut totals.inspected_shown, true))
}

/// What is asked of an inspector's text.
const INSPECT_CHECKS: [&str; 4] = ["text", "number", "listing's number", "place"];

/// The same text as here; the number that opening has here, and that the listing program
/// prints; and that the place named is a fault. What cannot be asked is left out.
fn inspect_checks(
    options: &Options,
    input: &[u8],
    expected: &str,
    got: &Result<Vec<u8>, String>,
) -> Vec<(&'static str, Result<(), String>)> {
    let same = |one: String, other: String| {
        if one == other {
            Ok(())
        } else {
            Err(format!("here `{one}`, there `{other}`"))
        }
    };
    let [of_text, of_number, of_listing, of_place] = INSPECT_CHECKS;
    let text = match got {
        Ok(text) => String::from_utf8_lossy(text).into_owned(),
        Err(why) => return vec![(of_text, Err(why.clone()))],
    };
    let is_same = text == expected;
    let mut checks = vec![(of_text, if is_same { Ok(()) } else { Err("the texts differ".to_string()) })];
    let answer = text.split(['\n', ':']).next().unwrap_or("").to_string();
    checks.push((of_number, same(opening_of(input), answer.clone())));
    if let Some(program) = options.listing.as_deref().filter(|_| input.len() <= second::listing::MOST_BYTES) {
        let listed = ask(program, input).map(|text| String::from_utf8_lossy(&text).into_owned());
        let listed = listed.map(|text| match text.lines().next().unwrap_or("") {
            line if line.starts_with("length ") => "opens".to_string(),
            line => line.to_string(),
        });
        checks.push((of_listing, listed.and_then(|listed| same(listed, answer))));
    }
    match place::named_in(&text) {
        Ok(None) => {}
        Ok(Some(named)) => checks.push((of_place, place::agrees(input, &named))),
        Err(why) => checks.push((of_place, Err(why))),
    }
    checks
}

/// Opening's answer here: `opens`, or `refused N`; 1 for what is no row of words.
fn opening_of(input: &[u8]) -> String {
    let word = |part: &[u8]| part.iter().rev().fold(0, |word, &byte| word << 8 | u64::from(byte));
    let image: Vec<u64> = input.chunks(8).map(word).collect();
    match open::open(&image, &mut [0; 1024]) {
        _ if input.len() % 8 != 0 => "refused 1".to_string(),
        Ok(_) => "opens".to_string(),
        Err(why) => format!("refused {}", why.number()),
    }
}

/// The parts between line feeds; the last one is empty where a line feed ends it.
fn lines_of(bytes: &[u8]) -> Vec<String> {
    bytes.split(|&b| b == b'\n').map(|l| String::from_utf8_lossy(l).into_owned()).collect()
}

/// The first line that is not the same.
fn print_difference(expected: &[u8], got: &Result<Vec<u8>, String>) {
    let got = match got {
        Ok(got) => got,
        Err(why) => {
            println!("  the other program: {why}");
            return;
        }
    };
    let (here, there) = (lines_of(expected), lines_of(got));
    let count = here.len().max(there.len());
    let nothing = "(no line)".to_string();
    for i in 0..count {
        let (one, other) = (here.get(i).unwrap_or(&nothing), there.get(i).unwrap_or(&nothing));
        if one != other {
            println!("  output line {}: here `{one}`, there `{other}`", i + 1);
            return;
        }
    }
}

/// Saves an input under the folder `target/compare` of the current folder.
fn save(options: &Options, name: &str, input: &[u8]) {
    if options.brief {
        return;
    }
    let folder = PathBuf::from("target").join("compare");
    let path = folder.join(name);
    if fs::create_dir_all(&folder).and_then(|()| fs::write(&path, input)).is_ok() {
        println!("  saved as {}", path.display());
    }
}

/// Drops lines while the difference stays.
fn shrink(program: &str, script: &[u8]) -> Vec<u8> {
    let start = Instant::now();
    let differs = |lines: &[&[u8]]| {
        let script = lines.join(&b'\n');
        let expected = second::bench::run(&script);
        !ask(program, &script).is_ok_and(|got| got == expected)
    };
    let mut lines: Vec<&[u8]> = script.split(|&byte| byte == b'\n').collect();
    let mut part = lines.len() / 2;
    while part >= 1 && start.elapsed() < SHRINKING {
        let mut first = 0;
        while first < lines.len() && start.elapsed() < SHRINKING {
            let mut fewer = lines.clone();
            fewer.drain(first..(first + part).min(lines.len()));
            if differs(&fewer) {
                lines = fewer;
            } else {
                first += part;
            }
        }
        part /= 2;
    }
    lines.join(&b'\n')
}

/// Prints the coverage; false where a run of the default size has missed
/// something.
fn report(options: &Options, totals: &Totals) -> bool {
    let tally = &totals.tally;
    let mut missing = Vec::new();
    if options.session.is_some() {
        for line in tally.lines() {
            println!("{line}");
        }
        missing.extend(tally.missing());
    }
    if options.listing.is_some() {
        missing.extend(print_counts(tally, "listing", &listing_answers()));
    }
    if options.small_logs() > 0 {
        missing.extend(print_counts(tally, "small logs", &smalls::CASES.map(str::to_string)));
    }
    let mut inspect_missing = Vec::new();
    if options.inspect.is_some() {
        inspect_missing = print_inspected(tally);
    }
    let calls: u64 = second::tally::TABLE.iter().map(|(call, _, _)| tally.total(call)).sum();
    println!(
        "compared {} scripts, {} images, {} inspected images, {} lines, {calls} calls, {} cuts",
        totals.scripts,
        totals.images,
        totals.inspected,
        totals.lines,
        tally.of("command", "cut")
    );
    let whole = options.scripts >= SCRIPTS && options.images >= IMAGES && !options.brief;
    for name in missing.iter().chain(&inspect_missing) {
        println!("never met: {name}");
    }
    let inspected_whole = options.inspected >= INSPECTED && !options.brief;
    (missing.is_empty() || !whole) && (inspect_missing.is_empty() || !inspected_whole)
}

/// Prints what the inspectors were asked, and how often each rule and spot came up: a line
/// a rule. Those that never did.
fn print_inspected(tally: &Tally) -> Vec<String> {
    print_counts(tally, "inspect checks", &INSPECT_CHECKS.map(str::to_string));
    let mut missing = Vec::new();
    let mut line = String::new();
    for case in spots::all() {
        let count = tally.of("inspect", &case);
        // A rule begins a line, its spots follow on it.
        match case.split_once([' ', ',']) {
            None if line.is_empty() => line = format!("inspect: {case} {count}"),
            None => {
                println!("{line}");
                line = format!("inspect: {case} {count}");
            }
            Some((_, spot)) => line += &format!(", {} {count}", spot.trim_start()),
        }
        if count == 0 {
            missing.push(format!("inspect: {case}"));
        }
    }
    println!("{line}");
    missing
}

/// Prints how often each answer came up; those that never did.
fn print_counts(tally: &Tally, call: &str, answers: &[String]) -> Vec<String> {
    let counts: Vec<String> =
        answers.iter().map(|a| format!("{a} {}", tally.of(call, a))).collect();
    println!("{call}: {}", counts.join(", "));
    let never_met = answers.iter().filter(|a| tally.of(call, a) == 0);
    never_met.map(|a| format!("{call}: {a}")).collect()
}

/// What the listing program can say; 2 cannot be met.
fn listing_answers() -> Vec<String> {
    let mut answers = vec!["listed".to_string()];
    answers.extend([1, 3, 4, 5, 6, 7, 8, 9].iter().map(|n| format!("refused {n}")));
    answers
}
