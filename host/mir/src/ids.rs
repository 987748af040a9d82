//! Stands for the index types of the crate's `lib.rs`.

use index_vec::Idx;

macro_rules! index_type {
    ($(#[$note:meta])* $name:ident) => {
        $(#[$note])*
        #[derive(Debug, Clone, Copy, PartialEq, Eq, Hash, PartialOrd, Ord)]
        pub struct $name(usize);

        impl $name {
            pub const fn new(raw: usize) -> Self {
                Self(raw)
            }

            pub const fn from_raw(raw: usize) -> Self {
                Self(raw)
            }

            pub const fn index(self) -> usize {
                self.0
            }
        }

        impl Idx for $name {
            fn from_raw(raw: usize) -> Self {
                Self(raw)
            }

            fn index(self) -> usize {
                self.0
            }
        }
    };
}

index_type!(
    /// A value of a function.
    ValueId
);
index_type!(
    /// A block of a function.
    BasicBlockId
);
index_type!(
    /// A function of a module.
    FunctionId
);
