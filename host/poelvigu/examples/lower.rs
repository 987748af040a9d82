//! Lowers a routine that stands in a file in hexadecimal, and says in words what was done:
//! `cargo run -p poelvigu --example lower -- ../examples/pair.hex`, with another number behind it for
//! `most`, and one for the edition.

use std::error::Error;
use std::process::ExitCode;

use poelvigu::{lower_with, Choices, Edition};

fn main() -> ExitCode {
    match run(std::env::args().skip(1)) {
        Ok(text) => {
            println!("{text}");
            ExitCode::SUCCESS
        }
        Err(error) => {
            eprintln!("{error}");
            ExitCode::FAILURE
        }
    }
}

/// What is to be said of the file that the words name.
fn run(mut words: impl Iterator<Item = String>) -> Result<String, Box<dyn Error>> {
    let file = words.next().ok_or("usage: lower FILE [MOST [EDITION]]")?;
    let mut choices = Choices::default();
    if let Some(most) = words.next() {
        choices.most = most.parse()?;
    }
    if words.next().as_deref() == Some("2") {
        choices.edition = Edition::Second;
    }
    let digits = std::fs::read_to_string(&file).map_err(|error| format!("{file}: {error}"))?;
    let input = bytes(digits.trim()).ok_or(format!("{file} is not hexadecimal"))?;
    let (lowered, output, _) = lower_with(&input, &choices)?;
    let hex: String = output.iter().map(|byte| format!("{byte:02x}")).collect();
    Ok(format!("{:?}\n{}\n{hex}", lowered.counts, lowered.reason))
}

/// The bytes of a text of hexadecimal digits.
fn bytes(digits: &str) -> Option<Vec<u8>> {
    let byte = |two: &[u8]| {
        let two = std::str::from_utf8(two).ok().filter(|two| two.len() == 2)?;
        u8::from_str_radix(two, 16).ok()
    };
    digits.as_bytes().chunks(2).map(byte).collect()
}
