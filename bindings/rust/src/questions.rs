//! The questions, named by what gets a yes, and what a no says.
use std::fmt;

/// A question, by the number that its no has.
#[derive(Clone, Copy, Debug, PartialEq, Eq)]
#[repr(u32)]
pub enum Question {
    RowsFit = 1,
    NamesFit = 2,
    FormatFits = 3,
    DepthFits = 4,
    InLoop = 5,
    Mutable = 6,
    LetFree = 7,
    Declared = 8,
    NullDeclared = 9,
    InstanceofClass = 10,
    ParentClass = 11,
    ConstructedRecord = 12,
    MethodThere = 13,
    MethodArity = 14,
    Exported = 15,
    NameFree = 16,
    Known = 17,
    NoCycle = 18,
    ParentRecord = 19,
    InitThere = 20,
    InitArity = 21,
    Room = 22,
    Session = 23,
    SessionRoom = 24,
    EntryLeft = 25,
    NoCircle = 29,
}

const ALL: [Question; 26] = [
    Question::RowsFit,
    Question::NamesFit,
    Question::FormatFits,
    Question::DepthFits,
    Question::InLoop,
    Question::Mutable,
    Question::LetFree,
    Question::Declared,
    Question::NullDeclared,
    Question::InstanceofClass,
    Question::ParentClass,
    Question::ConstructedRecord,
    Question::MethodThere,
    Question::MethodArity,
    Question::Exported,
    Question::NameFree,
    Question::Known,
    Question::NoCycle,
    Question::ParentRecord,
    Question::InitThere,
    Question::InitArity,
    Question::Room,
    Question::Session,
    Question::SessionRoom,
    Question::EntryLeft,
    Question::NoCircle,
];

impl Question {
    /// `None` for 0, which is no refusal, and for numbers that no question has.
    pub fn from_number(number: u32) -> Option<Question> {
        ALL.into_iter().find(|&question| question as u32 == number)
    }

    /// Is it asked of a row? The others are asked of the whole input, of the lent words, or of the session.
    pub fn has_position(self) -> bool {
        self == Question::NoCircle || (Question::InLoop as u32..=Question::InitArity as u32).contains(&(self as u32))
    }
}

impl fmt::Display for Question {
    fn fmt(&self, f: &mut fmt::Formatter<'_>) -> fmt::Result {
        f.write_str(match self {
            Question::RowsFit => "the sheet is not 1 to 2,048 rows of eight numbers",
            Question::NamesFit => {
                "the name list does not fit: a name is fixed, listed twice, empty, too long or not ended, or there are too many"
            }
            Question::FormatFits => "a row does not fit the format",
            Question::DepthFits => "a row lies deeper than 64",
            Question::InLoop => "a break or continue stands outside the loops of its function",
            Question::Mutable => "an identifier is assigned that is not mutable",
            Question::LetFree => "a let's name is taken in its scope",
            Question::Declared => "an identifier is not declared",
            Question::NullDeclared => "`null` is not declared; Plush has `nil`",
            Question::InstanceofClass => "instanceof names no class",
            Question::ParentClass => "a class's parent names no class",
            Question::ConstructedRecord => "a core class cannot be constructed",
            Question::MethodThere => "the class does not have the method called on it",
            Question::MethodArity => "a method called on a class has another number of parameters than the call has arguments",
            Question::Exported => "the imported unit does not have the listed name",
            Question::NameFree => "an import, class, parameter or function is declared twice in its scope",
            Question::Known => "a host constant is not MAIN_UNIT, or a method is called on a core class",
            Question::NoCycle => "a class is its own ancestor",
            Question::ParentRecord => "a core class cannot be a parent",
            Question::InitThere => "the constructed class has no init",
            Question::InitArity => "init has another number of parameters than the call has arguments, self besides",
            Question::Room => "the answer does not fit the lent words",
            Question::Session => {
                "the session is none, or the entry is not one unit without imports, or starts below the session's globals"
            }
            Question::SessionRoom => "the session has no room for the entry",
            Question::EntryLeft => "no entry is left to withdraw",
            Question::NoCircle => "a unit is on a circle of imports",
        })
    }
}
