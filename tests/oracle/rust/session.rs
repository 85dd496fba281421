//! Runs of entries at the prompt: one program and one `Env` over the whole run, and the unchanged `resolve_repl_unit`.
//!
//! A refused entry leaves program and `Env` as the Rust leaves them. Only after a panic, which stops the Rust in the middle, both
//! are the copies that were made before the entry, with the walk's next global that the panic left in the `Env`. A trial is an
//! entry on copies. A withdrawal runs the other accepted entries again on a fresh session; the global count stays.
use crate::answers;
use crate::ast::{Class, ClassId, Program};
use crate::sheet::{fixed_names, listed, numbered, parse_rows, Row, Sheet};
use crate::symbols::opened::{copy, laid_over, next_global, visible};
use crate::symbols::{Decl, Env};
use std::collections::{HashMap, HashSet};
use std::fmt::Write as _;
use std::panic::{catch_unwind, AssertUnwindSafe};
use std::time::Instant;

/// An accepted entry, with what it added.
#[derive(Clone)]
struct Entry {
    rows: Vec<Row>,
    list: Vec<u8>,
    classes: Vec<ClassId>,
    laid_over: usize,
}

pub struct Session {
    prog: Program,
    env: Env,
    /// names by number; number 0 is the empty name
    names: Vec<String>,
    entries: Vec<Entry>,
}

impl Session {
    pub fn new() -> Session {
        Session { prog: Program::new(), env: Env::new(), names: fixed_names(), entries: Vec::new() }
    }

    /// The answer to an entry: text in the form that a sheet's answer has.
    pub fn enter(&mut self, sheet: &[u8], list: &[u8]) -> String {
        self.enter_rows(parse_rows(sheet), list)
    }

    fn enter_rows(&mut self, rows: Vec<Row>, list: &[u8]) -> String {
        let names = self.with_new_names(list);
        let sheet = Sheet::entry(rows, list, self.entries.len(), &names);
        let key = self.prog.units.len().to_string();
        let (prog, env) = (self.prog.clone(), copy(&self.env));
        sheet.add_entry(&key, &mut self.prog);
        let loaded = self.prog.clone();
        match catch_unwind(AssertUnwindSafe(|| self.prog.resolve_repl_unit(&key, &mut self.env))) {
            Err(panic) => {
                let next = next_global(&self.env);
                (self.prog, self.env) = (prog, env);
                self.prog.num_globals = next;
                crate::panicked(panic)
            }
            Ok(Err(error)) => crate::refused(error),
            Ok(Ok(())) => {
                let classes = sheet.class_rows().map(|row| sheet.class_id(row)).collect();
                let out = crate::answered(&answers::answers(&sheet, &self.prog), self.prog.num_globals);
                self.names = names;
                let laid_over = laid_over(loaded, env, &key);
                self.entries.push(Entry { rows: sheet.rows, list: list.to_vec(), classes, laid_over });
                out
            }
        }
    }

    /// The session's names, then those of a list that it does not have, in the list's order.
    fn with_new_names(&self, list: &[u8]) -> Vec<String> {
        let known: HashSet<&String> = self.names.iter().collect();
        let new: Vec<String> = listed(list).filter(|name| !known.contains(name)).collect();
        self.names.iter().cloned().chain(new).collect()
    }

    /// What the session would be after an entry, and the answer to that.
    pub fn tried(&self, sheet: &[u8], list: &[u8]) -> (Session, String) {
        let (prog, env) = (self.prog.clone(), copy(&self.env));
        let mut trial = Session { prog, env, names: self.names.clone(), entries: self.entries.clone() };
        let answer = trial.enter(sheet, list);
        (trial, answer)
    }

    /// The number of each name.
    pub fn numbers(&self) -> HashMap<String, u32> {
        numbered(&self.names)
    }

    /// How long `resolve_repl_unit` takes, in nanoseconds. The entry must be accepted; the session stays.
    pub fn elapsed_unit(&mut self, rows: Vec<Row>, list: &[u8], numbers: HashMap<String, u32>) -> u64 {
        let sheet = Sheet::entry_over(rows, list, self.entries.len(), numbers);
        self.undone(|key, prog, env| {
            sheet.add_entry(key, prog);
            let start = Instant::now();
            let result = prog.resolve_repl_unit(key, env);
            let elapsed = start.elapsed().as_nanos() as u64;
            assert!(result.is_ok());
            elapsed
        })
    }

    /// The same from the rows in memory to the answer rows: tree, `resolve_repl_unit`, rows. `numbers` are those of the session's
    /// names, and get the new ones.
    pub fn elapsed(&mut self, rows: Vec<Row>, list: &[u8], numbers: HashMap<String, u32>) -> u64 {
        let before = self.entries.len();
        self.undone(|key, prog, env| {
            let start = Instant::now();
            let sheet = Sheet::entry_over(rows, list, before, numbers);
            sheet.add_entry(key, prog);
            let result = prog.resolve_repl_unit(key, env);
            let answer = answers::answers(&sheet, prog);
            let elapsed = start.elapsed().as_nanos() as u64;
            std::hint::black_box((&result, &answer));
            elapsed
        })
    }

    /// Does something that adds an entry under a key, and takes the entry out again. The program is not copied for that, so that
    /// it stays in the processor's caches.
    fn undone<T>(&mut self, enter: impl FnOnce(&str, &mut Program, &mut Env) -> T) -> T {
        let (prog, raised) = (&mut self.prog, 2048 * self.entries.len());
        let (key, globals, main) = (prog.units.len().to_string(), prog.num_globals, prog.main_fn);
        let parents: HashSet<ClassId> = prog.classes.values().filter(|class| class.has_children).map(|class| class.id).collect();
        let env = copy(&self.env);
        let out = enter(&key, prog, &mut self.env);
        self.env = env;
        (prog.num_globals, prog.main_fn) = (globals, main);
        prog.units.retain(|each, _| *each != key);
        prog.funs.retain(|id, _| usize::from(*id) < raised);
        prog.classes.retain(|id, class| {
            class.has_children = parents.contains(id);
            usize::from(*id) < 256 + raised
        });
        out
    }

    pub fn withdraw(&mut self) {
        let globals = self.prog.num_globals;
        self.entries.pop();
        let entries = std::mem::take(&mut self.entries);
        let count = entries.len();
        *self = Session::new();
        for entry in entries {
            self.enter_rows(entry.rows, &entry.list);
        }
        assert_eq!(self.entries.len(), count);
        self.prog.num_globals = globals;
    }

    /// The session, as lines: the row that tells it; each visible name with its code, its number and whether it is mutable; each
    /// class with its parent, its child mark, its fields by slot, and its methods with function and number of parameters.
    pub fn told(&self) -> String {
        let mut out = String::new();
        let shown = visible(&self.env);
        let bytes: usize = self.names[fixed_names().len()..].iter().map(|name| name.chars().count() + 1).sum();
        let classes: Vec<&ClassId> = self.entries.iter().flat_map(|entry| &entry.classes).collect();
        let members = classes.iter().map(|id| &self.prog.classes[*id]).map(|class| class.fields.len() + class.methods.len());
        let counts = [
            self.prog.num_globals as usize,
            self.entries.len(),
            shown.len(),
            self.names.len() - fixed_names().len(),
            bytes,
            self.entries.iter().map(|entry| entry.laid_over).sum(),
            classes.len(),
            members.sum(),
        ];
        writeln!(out, "SESSION {}", spaced(counts)).unwrap();

        let numbers = numbered(&self.names);
        let mut shown: Vec<[u32; 4]> = shown.iter().map(|(name, decl)| meaning(numbers[name], decl)).collect();
        shown.sort();
        for name in shown {
            writeln!(out, "NAME {}", spaced(name)).unwrap();
        }
        let core = [100, 101, 102].map(ClassId::from);
        for id in core.iter().chain(classes) {
            writeln!(out, "CLASS {}", spaced(self.class_words(&self.prog.classes[id], &numbers))).unwrap();
        }
        out
    }

    fn class_words(&self, class: &Class, numbers: &HashMap<String, u32>) -> Vec<usize> {
        let mut words = vec![class.id.into(), class.parent_id.into(), class.has_children as usize];
        let mut fields: Vec<_> = class.fields.iter().map(|(name, slot)| (*slot, numbers[name] as usize)).collect();
        fields.sort();
        words.push(fields.len());
        words.extend(fields.iter().map(|field| field.1));
        for (name, fun) in &class.methods {
            words.extend([numbers[name] as usize, (*fun).into(), self.prog.funs[fun].params.len()]);
        }
        words
    }
}

fn spaced<T: ToString>(words: impl IntoIterator<Item = T>) -> String {
    words.into_iter().map(|word| word.to_string()).collect::<Vec<_>>().join(" ")
}

fn meaning(name: u32, decl: &Decl) -> [u32; 4] {
    match *decl {
        Decl::Fun { id } => [name, 1, usize::from(id) as u32, 0],
        Decl::Class { id } => [name, 2, usize::from(id) as u32, 0],
        Decl::Global { idx, mutable } => [name, 3, idx, mutable as u32],
        _ => panic!("an entry leaves a declaration of another kind"),
    }
}
