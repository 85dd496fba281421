//! The symbol resolver of Plush behind safe functions. It is proved in Rattle and linked as libplush.a (build.rs); the C routine and
//! what it promises stand in `include/plush.h`. `docs/FORMAT.md` says what sheets, names and answer rows are.
//!
//! - Nothing is allocated but by [`resolve_to_vec`] and [`Session::new`], and there is no static data: threads may call at the same time.
//! - A call takes up to 2 MiB of stack, which is what `std::thread` gives a thread. A thread that is made with less, or that is deep
//!   in other calls, must be given more.
use std::error::Error;
use std::fmt;

pub mod columns;
pub mod kinds;
pub mod limits;
mod questions;
mod session;

pub use kinds::Kind;
pub use questions::Question;
pub use session::{NumberOf, Session, SESSION_BYTES, SESSION_WORDS};

/// Words of a sheet row and of an answer row.
pub const ROW_WORDS: usize = 8;

/// The answer words that the program plush_resolve lends: 2,048 rows.
pub const ANSWER_WORDS: usize = 16384;

const REPORT_WORDS: usize = 8;

// A slice is a pointer and a length. The pointer of an empty Rust slice is aligned and not null, as the routine wants it, and
// `&mut` keeps lent words and bytes apart from all else.
extern "C" {
    fn plush_resolve(
        sheet: *const u32,
        sheet_words: usize,
        names: *const u8,
        name_bytes: usize,
        answer: *mut u32,
        answer_words: usize,
        report: *mut u32,
        report_words: usize,
    ) -> u32;
    fn plush_order_units(
        sheet: *const u32,
        sheet_words: usize,
        names: *const u8,
        name_bytes: usize,
        list: *mut u32,
        list_words: usize,
        report: *mut u32,
        report_words: usize,
    ) -> u32;
    fn plush_find_name(
        names: *const u8,
        name_bytes: usize,
        name: *const u8,
        bytes: usize,
        found: *mut u32,
        found_words: usize,
    ) -> u32;
    fn plush_session_fresh(words: *mut u32, session_words: usize, bytes: *mut u8, session_bytes: usize);
    fn plush_enter(
        words: *mut u32,
        session_words: usize,
        bytes: *mut u8,
        session_bytes: usize,
        sheet: *const u32,
        sheet_words: usize,
        names: *const u8,
        name_bytes: usize,
        answer: *mut u32,
        answer_words: usize,
        report: *mut u32,
        report_words: usize,
    ) -> u32;
    fn plush_preview(
        words: *const u32,
        session_words: usize,
        bytes: *const u8,
        session_bytes: usize,
        sheet: *const u32,
        sheet_words: usize,
        names: *const u8,
        name_bytes: usize,
        answer: *mut u32,
        answer_words: usize,
        report: *mut u32,
        report_words: usize,
    ) -> u32;
    fn plush_withdraw(words: *mut u32, session_words: usize, bytes: *const u8, session_bytes: usize, report: *mut u32, report_words: usize) -> u32;
    fn plush_name_text(
        words: *const u32,
        session_words: usize,
        bytes: *const u8,
        session_bytes: usize,
        names: *const u8,
        name_bytes: usize,
        whose: u32,
        number: u32,
        place: *mut u32,
        place_words: usize,
    ) -> u32;
    fn plush_to_columns(source: *const u32, source_words: usize, target: *mut u32, target_words: usize) -> u32;
    fn plush_from_columns(source: *const u32, source_words: usize, target: *mut u32, target_words: usize) -> u32;
}

/// Codes of answer rows, as they stand in word 1.
mod code {
    pub const NOTHING: u32 = 0;
    pub const FUN: u32 = 1;
    pub const CLASS: u32 = 2;
    pub const GLOBAL: u32 = 3;
    pub const ARG: u32 = 4;
    pub const LOCAL: u32 = 5;
    pub const CAPTURED: u32 = 6;
    pub const TRUE: u32 = 7;
    pub const FALSE: u32 = 8;
    pub const FUNCTION_COUNTS: u32 = 20;
    pub const CLASS_COUNTS: u32 = 22;
    pub const FIELD: u32 = 23;
    pub const METHOD: u32 = 24;
}

/// What an answer row says of its sheet row. Functions, classes and names are told by number.
#[derive(Clone, Copy, Debug, PartialEq, Eq)]
pub enum Answer {
    /// Nothing is declared.
    Nothing,
    Function {
        function: u32,
    },
    Class {
        class: u32,
    },
    Global {
        index: u32,
        mutable: bool,
    },
    Argument {
        index: u32,
        function: u32,
    },
    Local {
        slot: u32,
        function: u32,
        mutable: bool,
    },
    /// `index` counts the captures of the function that the row lies in. `distance` is how many function boundaries lie between an
    /// identifier and its declaration, 1 or more; in a literal's source rows it is 0. With every other answer to an identifier the
    /// distance is 0: its own function's arguments and locals, globals, functions, classes.
    Captured {
        index: u32,
        mutable: bool,
        distance: u32,
    },
    True,
    False,
    FunctionCounts {
        locals: u32,
        captures: u32,
        escapes: u32,
    },
    /// `parent` is 0 where there is none.
    ClassCounts {
        parent: u32,
        has_children: bool,
        fields: u32,
        methods: u32,
    },
    Field {
        slot: u32,
        name: u32,
    },
    Method {
        name: u32,
        function: u32,
    },
}

/// An answer and the sheet row that it belongs to.
#[derive(Clone, Copy, Debug, PartialEq, Eq)]
pub struct AnswerRow {
    pub row: u32,
    pub answer: Answer,
}

impl AnswerRow {
    /// Reads the eight words of an answer row. `None`: the code is none that the resolver writes.
    pub fn from_words(words: &[u32]) -> Option<AnswerRow> {
        let &[row, code, x, y, z, u, _, _] = words else { return None };
        let answer = match code {
            code::NOTHING => Answer::Nothing,
            code::FUN => Answer::Function { function: x },
            code::CLASS => Answer::Class { class: x },
            code::GLOBAL => Answer::Global { index: x, mutable: z == 1 },
            code::ARG => Answer::Argument { index: x, function: y },
            code::LOCAL => Answer::Local { slot: x, function: y, mutable: z == 1 },
            code::CAPTURED => Answer::Captured { index: x, mutable: z == 1, distance: u },
            code::TRUE => Answer::True,
            code::FALSE => Answer::False,
            code::FUNCTION_COUNTS => Answer::FunctionCounts { locals: x, captures: y, escapes: z },
            code::CLASS_COUNTS => Answer::ClassCounts { parent: x, has_children: y == 1, fields: z, methods: u },
            code::FIELD => Answer::Field { slot: x, name: y },
            code::METHOD => Answer::Method { name: x, function: y },
            _ => return None,
        };
        Some(AnswerRow { row, answer })
    }

    /// The way back.
    pub fn to_words(self) -> [u32; ROW_WORDS] {
        let [code, x, y, z, u] = match self.answer {
            Answer::Nothing => [code::NOTHING, 0, 0, 0, 0],
            Answer::Function { function } => [code::FUN, function, 0, 0, 0],
            Answer::Class { class } => [code::CLASS, class, 0, 0, 0],
            Answer::Global { index, mutable } => [code::GLOBAL, index, 0, mutable as u32, 0],
            Answer::Argument { index, function } => [code::ARG, index, function, 0, 0],
            Answer::Local { slot, function, mutable } => [code::LOCAL, slot, function, mutable as u32, 0],
            Answer::Captured { index, mutable, distance } => [code::CAPTURED, index, 0, mutable as u32, distance],
            Answer::True => [code::TRUE, 0, 0, 0, 0],
            Answer::False => [code::FALSE, 0, 0, 0, 0],
            Answer::FunctionCounts { locals, captures, escapes } => [code::FUNCTION_COUNTS, locals, captures, escapes, 0],
            Answer::ClassCounts { parent, has_children, fields, methods } => {
                [code::CLASS_COUNTS, parent, has_children as u32, fields, methods]
            }
            Answer::Field { slot, name } => [code::FIELD, slot, name, 0, 0],
            Answer::Method { name, function } => [code::METHOD, name, function, 0, 0],
        };
        [self.row, code, x, y, z, u, 0, 0]
    }
}

/// Where a row stands in the source. All 0 where a question of the whole input got a no.
#[derive(Clone, Copy, Debug, PartialEq, Eq)]
pub struct Position {
    pub file: u32,
    pub line: u32,
    pub column: u32,
}

/// A question that got a no. `name` is the number of the name asked about, 0 where there is none.
#[derive(Clone, Copy, Debug, PartialEq, Eq)]
pub struct Refusal {
    pub question: Question,
    pub position: Position,
    pub name: u32,
}

impl fmt::Display for Refusal {
    fn fmt(&self, f: &mut fmt::Formatter<'_>) -> fmt::Result {
        let Position { file, line, column } = self.position;
        write!(f, "{} (question {}", self.question, self.question as u32)?;
        if self.question.has_position() {
            write!(f, "; file {file}, line {line}, column {column}")?;
        }
        if self.name != 0 {
            write!(f, "; name {}", self.name)?;
        }
        f.write_str(")")
    }
}

impl Error for Refusal {}

/// A sheet that was resolved.
#[derive(Clone, Copy, Debug)]
pub struct Resolved<'a> {
    words: &'a [u32],
    globals: u32,
}

impl<'a> Resolved<'a> {
    /// The answer rows as words, eight to a row, in rising sheet row.
    pub fn words(&self) -> &'a [u32] {
        self.words
    }

    /// The answer rows.
    pub fn rows(&self) -> impl Iterator<Item = AnswerRow> + 'a {
        self.words.chunks_exact(ROW_WORDS).filter_map(AnswerRow::from_words)
    }

    /// The starting globals and those that lets of unit functions added.
    pub fn globals(&self) -> u32 {
        self.globals
    }
}

/// Resolves a sheet into the lent words. After a refusal every one of them is 0, else those after the answer rows.
pub fn resolve<'a>(sheet: &[u32], names: &[u8], answer: &'a mut [u32]) -> Result<Resolved<'a>, Refusal> {
    let mut report = [0; REPORT_WORDS];
    // All pointers are those of slices that live to the end of the call; the two that are written are lent to it alone.
    unsafe {
        plush_resolve(
            sheet.as_ptr(),
            sheet.len(),
            names.as_ptr(),
            names.len(),
            answer.as_mut_ptr(),
            answer.len(),
            report.as_mut_ptr(),
            report.len(),
        )
    };
    told(report, answer)
}

/// What a report says, with the answer rows of the lent words.
fn told(report: [u32; REPORT_WORDS], answer: &[u32]) -> Result<Resolved<'_>, Refusal> {
    let (rows, globals) = counted(report)?;
    Ok(Resolved { words: &answer[..ROW_WORDS * rows as usize], globals })
}

/// The numbers of rows and globals that a report tells.
fn counted(report: [u32; REPORT_WORDS]) -> Result<(u32, u32), Refusal> {
    let [number, file, line, column, name, rows, globals, _] = report;
    if number == 0 {
        return Ok((rows, globals));
    }
    Err(Refusal { question: refusing(number), position: Position { file, line, column }, name })
}

/// The order in which a sheet's units start, their rows, in the lent list: each after all that it imports, and each time the lowest row among all that are
/// ready. After a refusal every word of the list is 0, else those after the units.
pub fn order_units<'a>(sheet: &[u32], names: &[u8], list: &'a mut [u32]) -> Result<&'a [u32], Refusal> {
    let mut report = [0; REPORT_WORDS];
    unsafe {
        plush_order_units(
            sheet.as_ptr(),
            sheet.len(),
            names.as_ptr(),
            names.len(),
            list.as_mut_ptr(),
            list.len(),
            report.as_mut_ptr(),
            report.len(),
        )
    };
    let (units, _) = counted(report)?;
    Ok(&list[..units as usize])
}

/// The answer rows and the globals of a sheet, with as many words as they need.
pub fn resolve_to_vec(sheet: &[u32], names: &[u8]) -> Result<(Vec<AnswerRow>, u32), Refusal> {
    let mut answer = vec![0; ANSWER_WORDS];
    loop {
        match resolve(sheet, names, &mut answer) {
            Ok(resolved) => return Ok((resolved.rows().collect(), resolved.globals())),
            Err(refusal) if refusal.question == Question::Room => answer = vec![0; 2 * answer.len()],
            Err(refusal) => return Err(refusal),
        }
    }
}

fn refusing(number: u32) -> Question {
    Question::from_number(number).expect("the library asks the questions of this crate")
}

fn answered(number: u32) -> Result<(), Question> {
    match number {
        0 => Ok(()),
        _ => Err(refusing(number)),
    }
}

/// Stores a sheet by column in the lent target: word c of row r goes to place c * rows + r, `next` and `child` as their difference from r
/// modulo 2^32. After a refusal every word of the target is 0, else those after the source's length.
pub fn to_columns(source: &[u32], target: &mut [u32]) -> Result<(), Question> {
    answered(unsafe { plush_to_columns(source.as_ptr(), source.len(), target.as_mut_ptr(), target.len()) })
}

/// The way back. Each, handed the other's result at the source's length, gives the source again, whatever its words.
pub fn from_columns(source: &[u32], target: &mut [u32]) -> Result<(), Question> {
    answered(unsafe { plush_from_columns(source.as_ptr(), source.len(), target.as_mut_ptr(), target.len()) })
}

/// What a search found.
#[derive(Clone, Copy, Debug, PartialEq, Eq)]
pub struct Found {
    /// The name's number; `None` where the bytes are no name of the list, or question 2 refuses the list.
    pub number: Option<u32>,
    /// How many places of the index were read: none in a list that is refused.
    pub places: u32,
}

/// Finds bytes, without an end, among the fixed names and those of a list.
pub fn find_name(names: &[u8], name: &[u8]) -> Found {
    let mut found = [0; 2];
    unsafe { plush_find_name(names.as_ptr(), names.len(), name.as_ptr(), name.len(), found.as_mut_ptr(), found.len()) };
    Found { number: Some(found[0]).filter(|&number| number != 0), places: found[1] }
}
