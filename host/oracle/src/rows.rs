//! Stored inputs with the first line that they print, shelf reason aside: document 01's worked
//! example, and what was decided where it leaves a point open; and inputs whose Debugs decide the
//! shelf reason, or do not.

/// An input in hexadecimal and what it prints.
pub struct Row {
    pub hex: &'static str,
    pub prints: &'static str,
}

/// "tuple of 7 and 8, part 1 returned", and the routine that it prints.
pub const EXAMPLE: &str = "0200000302000000000200010000000003010000000200000a00000200070000000008000000000b01000300000100000000000301030100";
pub const EXAMPLE_OUTPUT: &str =
    "020000030200000000020001000000000301000000010000000100000800000000000301030100";

pub const ROWS: [Row; 8] = [
    Row { hex: EXAMPLE, prints: "1 1 1 0 0 0" },
    // Only 2 and 8 can meet at one offset: a Call's return count of 17.
    Row { hex: "010000020001000000000001000003000000000011", prints: "refused 2 20" },
    // The bytes ending just before a field are inside it.
    Row { hex: "", prints: "refused 1 0" },
    Row { hex: "00000000", prints: "refused 1 4" },
    // Bit 3 with a kind other than 16, an undefined one too, and with no kind byte left.
    Row { hex: "010000020001000000000001000813", prints: "refused 3 13" },
    Row { hex: "0100000200010000000000010008", prints: "refused 1 14" },
    // No blocks: the entry block is never below 0.
    Row { hex: "000000000000000000", prints: "refused 4 6" },
    // Shelf reason 0, though the input stops at an unwritten part that the output has no more.
    Row {
        hex: "020000030100000200010000000003000001000100000a0100010300000300",
        prints: "1 1 0 0 0 0",
    },
];

/// An input with a Debug, what it prints and its shelf reason.
pub struct DebugRow {
    pub hex: &'static str,
    pub prints: &'static str,
    pub reason: u8,
}

pub const DEBUGS: [DebugRow; 9] = [
    // Error.
    DebugRow {
        hex: "000000000100000000010000070000000001040300",
        prints: "0 0 0 0 0 0",
        reason: 1,
    },
    // A value without a recorded type.
    DebugRow {
        hex: "000001000100000000000100000700000000010300000300",
        prints: "0 0 0 0 0 0",
        reason: 1,
    },
    // A value that the block defines later.
    DebugRow {
        hex: "0100000100010000000001000002000007000000000103000000000000000700000000000300",
        prints: "0 0 0 0 0 0",
        reason: 2,
    },
    // A tuple that is left out.
    DebugRow {
        hex: "02000003010000010001000000000101000200000a0000010007000000000700000000010300000300",
        prints: "1 1 0 0 0 0",
        reason: 5,
    },
    // The same in another block, which the Rust's scan does not look at.
    DebugRow {
        hex: concat!(
            "02000003010000010002000000000101000100000a00000100010000000001000100000700000000",
            "010300000300"
        ),
        prints: "1 1 0 0 0 0",
        reason: 5,
    },
    // The same, and that block returns it: it is kept.
    DebugRow {
        hex: concat!(
            "02000003010000010002000000000101000100000a00000100070000000001000100000700000000",
            "010300000301030000"
        ),
        prints: "0 0 0 0 0 0",
        reason: 0,
    },
    // Literals, and a tuple that is a parameter.
    DebugRow {
        hex: "0200000301000001000100000001000001010001000007050000000400070000000101020300000300",
        prints: "0 0 0 0 0 0",
        reason: 0,
    },
    // A part of a tuple that is left out.
    DebugRow {
        hex: concat!(
            "020000030100000200010000000003010000000300000a0000010007000000000b01000300000000",
            "00000000000700000000010301000300"
        ),
        prints: "1 1 1 0 0 0",
        reason: 0,
    },
    // A value that is defined nowhere: the run stops there, the shelf test says nothing of it.
    DebugRow {
        hex: "010000010001000000000100000100000700000000010300000300",
        prints: "0 0 0 0 0 0",
        reason: 0,
    },
];
