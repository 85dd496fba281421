//! The kinds of sheet rows, what column b holds, fixed names and classes.

/// The kind of a sheet row: what stands in column 0.
#[derive(Clone, Copy, Debug, PartialEq, Eq)]
#[repr(u32)]
pub enum Kind {
    Header = 0,
    Unit = 2,
    Import = 3,
    Class = 4,
    Function = 6,
    FunctionExport = 7,
    ConstantExport = 8,
    /// A name that an import lists.
    Listed = 9,
    Field = 10,
    Parameter = 11,
    ExpressionStatement = 20,
    Assign = 21,
    Return = 22,
    Break = 23,
    Continue = 24,
    Block = 25,
    If = 26,
    For = 27,
    Assert = 28,
    Let = 29,
    ClassDeclaration = 30,
    Nil = 40,
    True = 41,
    False = 42,
    Integer = 43,
    Float = 44,
    String = 45,
    Bytes = 46,
    Array = 47,
    Dict = 48,
    /// A pair of a dict.
    Pair = 49,
    Identifier = 50,
    /// `$name`.
    HostConstant = 51,
    /// A function literal.
    Literal = 52,
    Index = 53,
    Member = 54,
    Instanceof = 55,
    Unary = 56,
    Binary = 57,
    Ternary = 58,
    Call = 59,
}

impl From<Kind> for u32 {
    fn from(kind: Kind) -> u32 {
        kind as u32
    }
}

/// What column b holds, where it is no row or number.
pub mod flag {
    pub const MUTABLE: u32 = 1;
    /// A let with 2 + g is a constant at global g.
    pub const FIRST_CONSTANT: u32 = 2;
    pub const UNIT_FUNCTION: u32 = 1;
    pub const IMPORT_ALL: u32 = 1;
}

/// Fixed names; the first listed name has the number after `LAST_FIXED`.
pub mod name {
    pub const NULL: u32 = 22;
    pub const INIT: u32 = 23;
    pub const MAIN_UNIT: u32 = 24;
    pub const LAST_FIXED: u32 = 24;
}

/// Classes that are there without being declared. A class of the sheet has the number `FIRST` + its row.
pub mod class {
    pub const INT64: u32 = 3;
    pub const FLOAT64: u32 = 4;
    pub const STRING: u32 = 5;
    pub const ARRAY: u32 = 7;
    pub const BYTEARRAY: u32 = 8;
    pub const DICT: u32 = 9;
    pub const UIEVENT: u32 = 100;
    pub const AUDIO_NEEDED: u32 = 101;
    pub const AUDIO_DATA: u32 = 102;
    pub const FIRST: u32 = 256;
}
