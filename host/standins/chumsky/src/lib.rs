//! Stands for the parser library: the span that an instruction carries.

pub mod span {
    #[derive(Debug, Clone, Copy, PartialEq, Eq, Hash)]
    pub struct SimpleSpan<T = usize> {
        pub start: T,
        pub end: T,
    }
}
