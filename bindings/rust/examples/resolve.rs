//! resolve SHEET NAMES: resolves a sheet, given as text, and prints in words what each of its names means.
//!
//!     (cd crates/plush && rt lib)
//!     cd bindings/rust
//!     export PLUSH_LIB_DIR=$PWD/../../crates/plush/out
//!     cargo run --offline --example resolve ../../crates/plush_resolve/data/sheet.txt ../../crates/plush_resolve/data/names.txt
use plush::{columns, Answer, AnswerRow, Kind, ANSWER_WORDS, ROW_WORDS};
use std::process::ExitCode;

const FIXED: [&str; 25] = [
    "no name",
    "Int64",
    "Float64",
    "String",
    "Array",
    "ByteArray",
    "Dict",
    "UIEvent",
    "AudioNeeded",
    "AudioData",
    "kind",
    "window_id",
    "key",
    "button",
    "x",
    "y",
    "dx",
    "dy",
    "text",
    "num_samples",
    "num_channels",
    "device_id",
    "null",
    "init",
    "MAIN_UNIT",
];

/// The words of a sheet's text: lines of eight numbers in ten columns each.
fn words_of(text: &str) -> Vec<u32> {
    let field = |line: &str, column: usize| line.get(10 * column..10 * column + 10).and_then(|field| field.trim().parse().ok());
    text.lines().flat_map(|line| (0..ROW_WORDS).filter_map(move |column| field(line, column))).collect()
}

fn name_of(number: u32, names: &str) -> &str {
    let number = number as usize;
    FIXED.get(number).copied().or_else(|| names.lines().nth(number - FIXED.len())).unwrap_or("no name")
}

fn told(answer: Answer, names: &str) -> String {
    let var = |mutable| if mutable { "mutable " } else { "" };
    let out = |distance| match distance {
        0 => String::new(), // what a literal hands on
        1 => ", 1 function out".to_string(),
        _ => format!(", {distance} functions out"),
    };
    match answer {
        Answer::Nothing => "nothing is declared".to_string(),
        Answer::Function { function } => format!("function {function}"),
        Answer::Class { class } => format!("class {class}"),
        Answer::Global { index, mutable } => format!("{}global {index}", var(mutable)),
        Answer::Argument { index, function } => format!("argument {index} of function {function}"),
        Answer::Local { slot, function, mutable } => format!("{}local {slot} of function {function}", var(mutable)),
        Answer::Captured { index, mutable, distance } => {
            format!("{}capture {index} of its function{}", var(mutable), out(distance))
        }
        Answer::True => "true".to_string(),
        Answer::False => "false".to_string(),
        Answer::FunctionCounts { locals, captures, escapes } => format!("{locals} locals, {captures} captures, {escapes} escapes"),
        Answer::ClassCounts { parent, fields, methods, .. } => format!("parent {parent}, {fields} fields, {methods} methods"),
        Answer::Field { slot, name } => format!("field {slot} is {}", name_of(name, names)),
        Answer::Method { name, function } => format!("function {function} is method {}", name_of(name, names)),
    }
}

/// What an answer row says, after what its sheet row is.
fn line_of(found: AnswerRow, sheet: &[u32], names: &str) -> String {
    let row = &sheet[ROW_WORDS * found.row as usize..];
    let is = |kind: Kind| row[columns::KIND] == kind as u32;
    let before = if is(Kind::Instanceof) {
        "instanceof asks for ".to_string()
    } else if is(Kind::Literal) {
        "the literal hands on ".to_string()
    } else if is(Kind::Function) {
        let counts = matches!(found.answer, Answer::FunctionCounts { .. });
        if counts { "the function has " } else { "its capture or escape is " }.to_string()
    } else if is(Kind::Class) {
        let counts = matches!(found.answer, Answer::ClassCounts { .. });
        if counts { "the class has " } else { "its " }.to_string()
    } else {
        format!("{} is ", name_of(row[columns::A], names))
    };
    format!("row {}: {before}{}", found.row, told(found.answer, names))
}

fn main() -> ExitCode {
    let args: Vec<String> = std::env::args().skip(1).collect();
    let [sheet, names] = &args[..] else {
        eprintln!("resolve SHEET NAMES");
        return ExitCode::from(2);
    };
    let sheet = words_of(&std::fs::read_to_string(sheet).expect("the sheet is a text file"));
    let names = std::fs::read_to_string(names).expect("the names are a text file");
    let mut answer = [0; ANSWER_WORDS];
    match plush::resolve(&sheet, names.as_bytes(), &mut answer) {
        Ok(resolved) => {
            resolved.rows().for_each(|row| println!("{}", line_of(row, &sheet, &names)));
            ExitCode::SUCCESS
        }
        Err(refusal) => {
            println!("{refusal}");
            ExitCode::FAILURE
        }
    }
}
