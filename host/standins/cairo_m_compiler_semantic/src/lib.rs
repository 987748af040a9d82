//! Stands for the semantic crate: what `MirType::from_semantic_type` and `BinaryOp::from_parser`
//! name. No routine comes from semantic types here, so the identifiers have no values at all.

/// The semantic database.
pub trait SemanticDb {}

pub mod types {
    use crate::SemanticDb;

    /// A type without values.
    #[derive(Debug, Clone, Copy, PartialEq, Eq)]
    enum Never {}

    /// A semantic type. There is none.
    #[derive(Debug, Clone, Copy, PartialEq, Eq)]
    pub struct TypeId(Never);

    impl TypeId {
        pub fn data(self, _db: &dyn SemanticDb) -> TypeData {
            match self.0 {}
        }
    }

    /// A semantic struct. There is none.
    #[derive(Debug, Clone, Copy, PartialEq, Eq)]
    pub struct StructTypeId(Never);

    impl StructTypeId {
        pub fn name(self, _db: &dyn SemanticDb) -> String {
            match self.0 {}
        }

        pub fn fields(self, _db: &dyn SemanticDb) -> Vec<(String, TypeId)> {
            match self.0 {}
        }
    }

    /// A semantic function signature. There is none.
    #[derive(Debug, Clone, Copy, PartialEq, Eq)]
    pub struct FunctionSignatureId(Never);

    impl FunctionSignatureId {
        pub fn params(self, _db: &dyn SemanticDb) -> Vec<(String, TypeId)> {
            match self.0 {}
        }

        pub fn return_type(self, _db: &dyn SemanticDb) -> TypeId {
            match self.0 {}
        }
    }

    /// What a semantic type is.
    #[derive(Debug, Clone, PartialEq, Eq)]
    pub enum TypeData {
        Felt,
        Bool,
        U32,
        Tuple(Vec<TypeId>),
        Struct(StructTypeId),
        Pointer { element_type: TypeId },
        FixedArray { element_type: TypeId, size: usize },
        Function(FunctionSignatureId),
        Error,
        Unknown,
    }
}
