//! The lines of `sroa.rs` that made routines reach: this driver's own debug build, run under
//! callgrind, against the lines that its debug information names.

use std::collections::BTreeSet;
use std::path::Path;
use std::process::{Command, Stdio};

use gen::Sort;

use crate::args::Args;

/// The file whose lines are counted.
const FILE: &str = "sroa.rs";

/// Prints how many lines wild routines met, or another sort, and the lines that none did.
pub fn command(args: &Args) -> Result<bool, String> {
    args.only(&["count", "seed", "sort"])?;
    if !cfg!(debug_assertions) {
        return Err("lines are told apart in a debug build alone: leave out `--release`".into());
    }
    let count = args.number("count", 5000)?.to_string();
    let seed = args.number("seed", 1)?.to_string();
    let driver = std::env::current_exe().map_err(|e| e.to_string())?;
    let profile = driver.with_file_name("callgrind.out");
    let sort = args.sort()?.unwrap_or(Sort::Wild).name();
    let words = ["histogram", "--count", &count, "--seed", &seed, "--sort", sort];
    run_under_callgrind(&driver, &profile, &words)?;
    let profile = std::fs::read_to_string(&profile).map_err(|e| e.to_string())?;
    let (source, met) = met_lines(&profile).ok_or("the pass was never met")?;
    report(&source, &known_lines(&driver)?, &met);
    Ok(true)
}

fn run_under_callgrind(driver: &Path, profile: &Path, words: &[&str]) -> Result<(), String> {
    let status = Command::new("valgrind")
        .args(["--tool=callgrind", "--compress-strings=no", "--compress-pos=no", "-q"])
        .arg(format!("--callgrind-out-file={}", profile.display()))
        .arg(driver)
        .args(words)
        .stdout(Stdio::null())
        .status()
        .map_err(|e| format!("valgrind: {e}"))?;
    if status.success() {
        Ok(())
    } else {
        Err(format!("valgrind: {status}"))
    }
}

/// The lines of the file with a cost, and where the file is.
fn met_lines(profile: &str) -> Option<(String, BTreeSet<u64>)> {
    let mut source = None;
    let mut inside = false;
    let mut met = BTreeSet::new();
    for line in profile.lines() {
        let file = ["fl=", "fi=", "fe="].iter().find_map(|lead| line.strip_prefix(lead));
        if let Some(file) = file {
            inside = is_the_file(file);
            if inside {
                source.get_or_insert(file.to_string());
            }
        } else if inside {
            let number: Option<u64> = line.split(' ').next().and_then(|word| word.parse().ok());
            met.extend(number.filter(|n| *n > 0));
        }
    }
    source.map(|source| (source, met))
}

fn is_the_file(path: &str) -> bool {
    Path::new(path).file_name().is_some_and(|name| name == FILE)
}

/// The lines of the file that the debug information has code for.
fn known_lines(driver: &Path) -> Result<BTreeSet<u64>, String> {
    let output = Command::new("objdump")
        .args(["--dwarf=decodedline"])
        .arg(driver)
        .output()
        .map_err(|e| format!("objdump: {e}"))?;
    let text = String::from_utf8_lossy(&output.stdout);
    let line = |line: &str| {
        let mut words = line.split_whitespace();
        let file = words.next()?;
        let number: u64 = words.next()?.parse().ok()?;
        is_the_file(file).then_some(number)
    };
    Ok(text.lines().filter_map(line).filter(|n| *n > 0).collect())
}

fn report(source: &str, known: &BTreeSet<u64>, met: &BTreeSet<u64>) {
    let text = std::fs::read_to_string(source).unwrap_or_default();
    let lines: Vec<&str> = text.lines().collect();
    let reached = known.intersection(met).count();
    println!("{FILE}: {reached} of {} lines with code are met; unmet:", known.len());
    for number in known.difference(met) {
        let line = lines.get(*number as usize - 1).map_or("", |line| line.trim());
        println!("  {number:>5}  {line}");
    }
}

#[cfg(test)]
mod tests {
    use super::*;

    #[test]
    fn costs_of_the_file_are_found() {
        let profile = "fl=/a/other.rs\nfn=f\n3 4\nfl=/a/sroa.rs\nfn=g\n7 1\ncfn=h\ncalls=1 9\n8 20\nfe=/a/other.rs\n11 1\n";
        let (source, met) = met_lines(profile).unwrap();
        assert_eq!(source, "/a/sroa.rs");
        assert_eq!(met.into_iter().collect::<Vec<_>>(), [7, 8]);
    }
}
