//! The families of one input's builds, as the program `families` has to print them.

pub mod diff;

use families::{families, Family};
use oracle::{from_hex, read, Refusal};

use crate::args::Args;

/// Prints a line for each build of the input `--hex`, or its refusal.
pub fn command(args: &Args) -> Result<bool, String> {
    args.only(&["hex", "members"])?;
    let hex = args.text("hex").ok_or("families takes --hex")?;
    let input = from_hex(hex).ok_or("--hex is no hexadecimal")?;
    print!("{}", printed(&found(&input), args.has("members")));
    Ok(true)
}

/// The families of an input, or its refusal 1 to 9.
pub fn found(input: &[u8]) -> Result<Vec<Family>, Refusal> {
    read(input).map(|routine| families(&routine))
}

/// For each build a line: block, instruction, dest, how many members, turns, 1 where a member is
/// looked into at an Index that is no Integer, else 0; then the members, where they are asked for.
/// For a refusal, one line.
pub fn printed(found: &Result<Vec<Family>, Refusal>, members: bool) -> String {
    match found {
        Ok(families) => families.iter().map(|family| line(family, members)).collect(),
        Err(refusal) => format!("{refusal}\n"),
    }
}

fn line(family: &Family, members: bool) -> String {
    let Family { block, instruction, dest, .. } = family;
    let (count, flag) = (family.members.len(), u8::from(family.dynamic));
    let head = format!("{block} {instruction} {} {count} {} {flag}", dest.0, family.turns());
    let listed = family.members.iter().filter(|_| members).map(|v| format!(" {}", v.0));
    format!("{head}{}\n", listed.collect::<String>())
}

/// What is counted of families.
pub const CASES: [&str; 5] = [
    "builds",
    "more than one member",
    "copy before its source",
    "copy at another kind",
    "dynamic index",
];

/// Which of them a family is.
pub fn cases(family: &Family) -> [bool; CASES.len()] {
    let members = family.members.len();
    [true, members > 1, family.backwards, family.copies >= members, family.dynamic]
}

#[cfg(test)]
mod tests {
    use super::*;
    use oracle::rows::EXAMPLE;

    fn prints(hex: &str, members: bool) -> String {
        printed(&found(&from_hex(hex).expect("it is hexadecimal")), members)
    }

    #[test]
    fn a_line_for_each_build() {
        assert_eq!(prints(EXAMPLE, false), "0 0 0 1 1 0\n");
        assert_eq!(prints(EXAMPLE, true), "0 0 0 1 1 0 0\n");
        let backwards = concat!(
            "0200000302000000000200020000000003010001000200000001000300000100000a0000020007",
            "000000000800000000010000000301030100"
        );
        assert_eq!(prints(backwards, false), "0 1 0 2 3 0\n");
        assert_eq!(prints(backwards, true), "0 1 0 2 3 0 0 1\n");
    }

    #[test]
    fn a_refusal_is_printed_and_no_build_is_nothing() {
        assert_eq!(prints("", false), "refused 1 0\n");
        assert_eq!(prints(&format!("{EXAMPLE}00"), true), "refused 9 56\n");
        assert_eq!(prints("00000000010000000000000300", false), "");
    }
}
