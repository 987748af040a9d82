//! Each cause of document 01's table, at its offset, in the fewest bytes.

use oracle::form::most;
use oracle::rows::EXAMPLE;
use oracle::{cause, from_hex, read};

fn answer(input: &[u8]) -> String {
    read(input).map_or_else(|refusal| refusal.to_string(), |_| "accepted".to_string())
}

/// One type (Felt), two values without types, one block: 11 bytes, then what a case adds.
const HEAD: &str = "0100 00 0200 0100 0000 00 00";

fn bytes(text: &str) -> Vec<u8> {
    from_hex(&text.replace(' ', "")).expect("cases are hexadecimal")
}

fn check(cases: &[(&str, &str)], head: &str) {
    for (text, expected) in cases {
        assert_eq!(answer(&bytes(&format!("{head}{text}"))), *expected, "{head} {text}");
    }
}

#[test]
fn the_type_table() {
    check(
        &[
            ("4100", "refused 2 0"),
            ("0100 0b", "refused 3 2"),
            ("0100 03 11", "refused 2 3"),
            ("0100 03 01 0000", "refused 4 4"),
            ("0100 06 0000", "refused 4 3"),
            ("0200 00 07 00 0100", "refused 4 5"),
            ("0200 00 00", "refused 5 3"),
            ("0300 00 03 01 0000 03 01 0000", "refused 5 7"),
            // The second name decides, before its type is looked for.
            ("0200 00 04 0000 02 0500 0000 0500", "refused 5 11"),
            // Names tell structs apart, and sizes arrays; a size has no most.
            ("0300 00 04 0000 00 04 0100 00", "refused 1 11"),
            ("0300 00 05 0000 ffffffff 05 0000 00000000", "refused 1 17"),
        ],
        "",
    );
}

#[test]
fn the_head() {
    check(
        &[
            ("0000 0101", "refused 2 2"),
            ("0000 0000 2100", "refused 2 4"),
            ("0000 0000 0100 0100", "refused 4 6"),
            ("0000 0000 0100 0000 11", "refused 2 8"),
            ("0000 0100 0100 0000 01 0100", "refused 4 9"),
            ("0000 0100 0100 0000 02 0000 0000", "refused 6 11"),
            ("0000 0100 0100 0000 00 02", "refused 3 9"),
            ("0000 0800 0100 0000 00 ff", "refused 1 10"),
            ("0000 0100 0100 0000 00 01 0000", "refused 4 10"),
        ],
        "",
    );
}

#[test]
fn instructions() {
    check(
        &[
            ("8100", "refused 2 11"),
            ("0100 10", "refused 3 13"),
            ("0100 0813", "refused 3 13"),
            ("0100 0013", "refused 3 14"),
            ("0200 0008 0009", "refused 7 16"),
            ("0200 0008 0809", "refused 3 15"),
            ("0100 0001 10", "refused 3 15"),
            ("0100 0002 1a", "refused 3 15"),
            ("0100 0000 0200", "refused 4 15"),
            ("0200 000a 0000 00 000a 0000", "refused 6 20"),
            ("0100 0003 02 0000 0000", "refused 6 18"),
            ("0100 0000 0000 05", "refused 3 17"),
            ("0100 0000 0000 0102", "refused 3 18"),
            ("0100 0000 0000 030200", "refused 4 18"),
            ("0100 0000 0000 02 0100", "refused 4 18"),
            ("0100 0006 0000 09", "refused 2 17"),
            ("0100 0006 0000 01 03", "refused 3 18"),
            ("0100 0007 00000000 11", "refused 2 19"),
            ("0100 0003 01 0000 0000 00 00 00", "refused 8 22"),
            ("0100 0003 00 0000 00 00 01", "refused 8 20"),
            ("0100 0003 00 0000 00 00 11", "refused 2 20"),
            // Each number beside the kind is a field.
            ("0100 0108 00000000", "refused 1 19"),
            ("0100 0208 00000000 00000000000000", "refused 1 19"),
            ("0100 0408 000000", "refused 1 15"),
        ],
        HEAD,
    );
}

#[test]
fn terminators_and_the_end() {
    check(
        &[
            ("0000 05", "refused 3 13"),
            ("0000 00 0100", "refused 4 14"),
            ("0000 02 1a", "refused 3 14"),
            ("0000 03 11", "refused 2 14"),
            ("0000 04", "accepted"),
            ("0000 04 00", "refused 9 14"),
            // is_const stands with kind 16 alone.
            ("0100 0810 0000 00 0000 04", "accepted"),
        ],
        HEAD,
    );
}

/// "bytes end inside a field: 1, offset of the field": so does every beginning of a routine, and
/// no field is longer than a u64. "bytes after the last block: 9, offset of the first".
#[test]
fn every_beginning_ends_inside_a_field() {
    let whole = bytes(EXAMPLE);
    for length in 0..whole.len() {
        let refusal = read(&whole[..length]).expect_err("a beginning is no routine");
        assert_eq!(refusal.number, cause::ENDS);
        assert!(refusal.offset <= length && length < refusal.offset + 8);
    }
    let longer = [&whole[..], &[0]].concat();
    assert_eq!(answer(&longer), format!("refused 9 {}", whole.len()));
}

/// "256 in all": the count of the block that carries the sum past it.
#[test]
fn the_sum_of_instructions_has_a_most() {
    let routine = |counts: &[usize]| {
        let mut input = bytes("0000 0000");
        input.extend((counts.len() as u16).to_le_bytes());
        input.extend(bytes("0000 00"));
        for count in counts {
            input.extend((*count as u16).to_le_bytes());
            input.extend(bytes("0008").repeat(*count));
            input.push(4);
        }
        answer(&input)
    };
    let half = most::IN_BLOCK;
    assert_eq!(routine(&[half, half]), "accepted");
    assert_eq!(routine(&[half, half - 1, 1]), "accepted");
    assert_eq!(routine(&[half, half, 0]), "accepted");
    let third = 9 + 2 * (3 + 2 * half);
    assert_eq!(routine(&[half, half, 1]), format!("refused 2 {third}"));
    assert_eq!(routine(&[half + 1]), "refused 2 9");
}
