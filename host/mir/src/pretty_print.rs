//! Stands for the crate's printing trait.

/// Prints a piece of MIR for people.
pub trait PrettyPrint {
    fn pretty_print(&self, indent: usize) -> String;
}

/// Two blanks for each step.
pub(crate) fn indent_str(indent: usize) -> String {
    "  ".repeat(indent)
}
