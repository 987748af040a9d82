//! Document 02's edition 2, sentence by sentence: routines with what is printed of them, the output too where it is
//! short. The lines were found by another program.

use edition2::{lower, Edition};
use oracle::{from_hex, to_hex, Settings, LENT};

struct Row {
    says: &'static str,
    hex: &'static str,
    /// Edition 2's line.
    second: &'static str,
    /// Its output, where it stands here.
    output: Option<&'static str>,
    /// Edition 1's line, where it stands here.
    first: Option<&'static str>,
}

const ROWS: [Row; 13] = [
    Row {
        says: "a Debug is a kept instruction: its value is rebuilt",
        hex: concat!(
            "030000030200000000030201000100010001000000000101000200000a000002000700000000080000000007",
            "00000000010300000300",
        ),
        second: "1 1 0 0 0 1 0",
        output: Some(concat!(
            "0300000302000000000302010001000200010000000003010001000200000a01000200070000000008000000",
            "000700000000010301000300",
        )),
        first: None,
    },
    Row {
        says: "a Call's argument is rebuilt at its recorded type, whatever the parameter type is",
        hex: concat!(
            "030000030200000000030201000100010001000000000101000200000a000002000700000000080000000003",
            "00010001030000010000000300",
        ),
        second: "1 1 0 0 0 1 1",
        output: None,
        first: None,
    },
    Row {
        says: "parts before the whole",
        hex: concat!(
            "0300000302000000000302010001000200010000000003010002000200000a00000200070000000008000000",
            "000a0100020300000300000301030100",
        ),
        second: "1 2 0 0 0 3 0",
        output: Some(concat!(
            "030000030200000000030201000100050001000000001f010002000100010002000300000a02000200070000",
            "000008000000000a03000200070000000008000000000a0400020302000303000301030400",
        )),
        first: Some("1 2 0 0 0 1 5"),
    },
    Row {
        says: "once per reading",
        hex: concat!(
            "030000030200000000030201000100010001000000000101000200000a000002000700000000080000000011",
            "0300000300000300",
        ),
        second: "1 1 0 0 0 2 0",
        output: None,
        first: None,
    },
    Row {
        says: "a tracked value recorded at a type that is no aggregate stays, and takes no number",
        hex: concat!(
            "0300000302000000000302010001000200010000000003010000000200000a00000200070000000008000000",
            "0000010003000001000301030100",
        ),
        second: "1 1 0 0 1 0 1",
        output: Some("03000003020000000003020100010002000100000000030100000000000301030100"),
        first: None,
    },
    Row {
        says: "the base of a kept Load",
        hex: concat!(
            "0300000302000000000302010001000200010000000003010001000200000a00000200070000000008000000",
            "0005010000000001000301030100",
        ),
        second: "1 1 0 0 0 1 0",
        output: None,
        first: None,
    },
    Row {
        says: "the base of a kept Store stays: its value is rebuilt",
        hex: concat!(
            "0300000302000000000302010001000200010000000003010001000300000a00000200070000000008000000",
            "000a01000200070000000008000000000600000003010001000300",
        ),
        second: "1 2 0 0 0 1 5",
        output: None,
        first: None,
    },
    Row {
        says: "a later Boolean Index is treated as an operand",
        hex: concat!(
            "03000005000002000000050100020000000400010000000103000f0100020000000000040000100000020001",
            "0000000002000000000000100100020003000000000400000001000006010001000000000000030000010000",
            "05020001000200000000000000010100000300",
        ),
        second: "1 2 0 1 0 2 1",
        output: None,
        first: Some("1 2 1 1 0 0 1"),
    },
    Row {
        says: "14, by itself",
        hex: "02000003010000010001000000000101000100000a0000010300000301030000",
        second: "refused 14 0",
        output: None,
        first: None,
    },
    Row {
        says: "14, by inserts, two deep",
        hex: concat!(
            "03000003020000000003020100010003000100000000070100010001000300000a0000020007000000000800",
            "0000000f0100030000000000000302000100000f02000300000000000003010001000301030100",
        ),
        second: "refused 14 0",
        output: None,
        first: None,
    },
    Row {
        says: "10 before 14",
        hex: concat!(
            "03000003020000000005000002000000040001000000000f01000200010001000400000a0000020007000000",
            "0008000000001001000100010000000000000f0200030000000000000301000100000f030003020001000000",
            "03030001000301030300",
        ),
        second: "refused 10 0",
        output: None,
        first: None,
    },
    Row {
        says: "14 before 10",
        hex: concat!(
            "03000003020000000005000002000000040001000000000f01000200010001000400000a0000020007000000",
            "0008000000001001000100010000000000000f0200030000010000000301000100000f030003020000000000",
            "03030001000301030300",
        ),
        second: "refused 14 0",
        output: None,
        first: None,
    },
    Row {
        says: "where the descent does not reach it: nothing reads the value",
        hex: "02000003010000010001000000000101000100000a0000010300000300",
        second: "1 1 0 0 0 0 1",
        output: None,
        first: None,
    },
];

/// The first line, and the output.
fn printed(hex: &str, edition: Edition) -> (String, String) {
    let input = from_hex(hex).expect("it is hexadecimal");
    match lower(&input, Settings::default(), edition, LENT) {
        Ok(lowered) => {
            let counts = lowered.counts.map(|n| n.to_string()).join(" ");
            let line = format!("{} {counts} {}", u8::from(lowered.result), lowered.reason);
            (line, to_hex(&lowered.output))
        }
        Err(refusal) => (refusal.to_string(), String::new()),
    }
}

#[test]
fn each_sentence_is_read_so() {
    for Row { says, hex, second, output, first } in &ROWS {
        let (line, bytes) = printed(hex, Edition::Second);
        assert_eq!(line, *second, "{says}");
        assert!(output.is_none_or(|output| bytes == output), "{says}");
        let line = printed(hex, Edition::First).0;
        assert!(first.is_none_or(|first| line == first), "{says}, edition 1: {line}");
    }
}

/// "Any other means 1."
#[test]
fn editions_go_by_number() {
    for other in [0, 1, 3, 2 | 1 << 32, u64::MAX] {
        assert_eq!(Edition::of(other), Edition::First);
    }
    assert_eq!(Edition::of(2), Edition::Second);
}

/// 11 goes by the true length.
#[test]
fn the_output_needs_its_length() {
    for Row { hex, .. } in &ROWS {
        let input = from_hex(hex).expect("it is hexadecimal");
        let of = |room| lower(&input, Settings::default(), Edition::Second, room);
        if let Ok(lowered) = of(LENT) {
            let length = lowered.output.len();
            assert_eq!(of(length), Ok(lowered));
            assert_eq!(of(length - 1).map_err(|refusal| refusal.number), Err(11));
        }
    }
}
