//! What the Rust makes of one input, or an edition.

use edition2::Edition;
use oracle::{from_hex, to_hex, Settings, LENT};

use crate::args::Args;
use crate::judged::Judged;

/// Prints as document 01's program does.
pub fn command(args: &Args) -> Result<bool, String> {
    args.only(&["hex", "tuples", "structs", "max", "lent", "edition"])?;
    let hex = args.text("hex").ok_or("run takes --hex")?;
    let input = from_hex(hex).ok_or("--hex is no hexadecimal")?;
    let usual = Settings::default();
    let settings = Settings {
        enable_tuples: args.number("tuples", usual.enable_tuples)?,
        enable_structs: args.number("structs", usual.enable_structs)?,
        max_aggregate_size: args.number("max", usual.max_aggregate_size)?,
    };
    let lent = args.number("lent", LENT as u64)? as usize;
    let judged = match args.text("edition") {
        None => Judged::of(&input, settings),
        Some(_) => Judged::in_edition(&input, settings, Edition::of(args.number("edition", 1)?)),
    };
    print!("{}", printed(&judged, lent));
    Ok(true)
}

/// "result, five counts in `Stats` order, shelf reason, in decimal with single blanks; on the next
/// line the routine in lower-case hexadecimal. For a refusal, one line: `refused`, number, offset."
pub fn printed(judged: &Judged, lent: usize) -> String {
    match judged.within(lent) {
        ([0, _, numbers @ .., _], output) => {
            format!("{}\n{}\n", numbers.map(|n| n.to_string()).join(" "), to_hex(output))
        }
        ([number, offset, ..], _) => format!("refused {number} {offset}\n"),
    }
}

#[cfg(test)]
mod tests {
    use super::*;
    use oracle::rows::{EXAMPLE, EXAMPLE_OUTPUT};

    fn prints(hex: &str) -> String {
        let input = from_hex(hex).unwrap();
        printed(&Judged::of(&input, Settings::default()), LENT)
    }

    #[test]
    fn the_worked_example_prints_its_two_lines() {
        assert_eq!(prints(EXAMPLE), format!("1 1 1 0 0 0 0\n{EXAMPLE_OUTPUT}\n"));
        assert_eq!(prints(""), "refused 1 0\n");
    }
}
