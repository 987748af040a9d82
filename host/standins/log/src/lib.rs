//! Stands for the logging facade: a debug line that goes nowhere.

/// Checks the format and its arguments, and writes nothing.
#[macro_export]
macro_rules! debug {
    ($($part:tt)*) => {{
        let _ = format_args!($($part)*);
    }};
}
