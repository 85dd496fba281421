//! A sheet of document 01 and the Plush program that it stands for. The sheet must pass questions 1 to 4.
use crate::ast::*;
use crate::lexer::SrcPos;
use crate::symbols::Decl;
use std::collections::HashMap;

pub type Row = [u32; 8];

const FIXED: [&str; 24] = [
    "Int64", "Float64", "String", "Array", "ByteArray", "Dict", "UIEvent", "AudioNeeded", "AudioData", "kind",
    "window_id", "key", "button", "x", "y", "dx", "dy", "text", "num_samples", "num_channels", "device_id", "null",
    "init", "MAIN_UNIT",
];

pub struct Sheet {
    pub rows: Vec<Row>,
    /// names by number; number 0 is the empty name
    names: Vec<String>,
    /// the numbers that answer rows tell: the sheet's own or, of an entry, the session's
    numbers: HashMap<String, u32>,
    /// what function and class numbers gain: 0, or 2,048 for each entry before this one
    raised: usize,
}

/// Rows out of text: eight numbers in ten columns each, then a newline.
pub fn parse_rows(text: &[u8]) -> Vec<Row> {
    let number = |field: &[u8]| std::str::from_utf8(field).unwrap().trim_start().parse().unwrap();
    text.chunks(81).map(|line| std::array::from_fn(|c| number(&line[10 * c..10 * c + 10]))).collect()
}

/// A byte list as a string, one character for each byte: equal strings have equal bytes.
fn string_of(bytes: &[u8]) -> String {
    bytes.iter().map(|&b| b as char).collect()
}

/// The names of a list.
pub fn listed(list: &[u8]) -> impl Iterator<Item = String> + '_ {
    list.split_inclusive(|&b| b == 10).map(|name| string_of(&name[..name.len() - 1]))
}

/// The names that stand before every list, by number; number 0 is the empty name.
pub fn fixed_names() -> Vec<String> {
    std::iter::once("").chain(FIXED).map(String::from).collect()
}

pub fn numbered(names: &[String]) -> HashMap<String, u32> {
    names.iter().enumerate().map(|(i, name)| (name.clone(), i as u32)).collect()
}

impl Sheet {
    pub fn new(rows: Vec<Row>, list: &[u8]) -> Sheet {
        let mut names = fixed_names();
        names.extend(listed(list));
        let numbers = numbered(&names);
        Sheet { rows, names, numbers, raised: 0 }
    }

    /// The sheet of an entry that `before` accepted ones precede; `names` are the session's, with the entry's new ones.
    pub fn entry(rows: Vec<Row>, list: &[u8], before: usize, names: &[String]) -> Sheet {
        Sheet { numbers: numbered(names), raised: 2048 * before, ..Sheet::new(rows, list) }
    }

    /// The same over the numbers of the session's names, to which the entry's new ones are added.
    pub fn entry_over(rows: Vec<Row>, list: &[u8], before: usize, mut numbers: HashMap<String, u32>) -> Sheet {
        let mut names = fixed_names();
        for name in listed(list) {
            let next = numbers.len() as u32;
            numbers.entry(name.clone()).or_insert(next);
            names.push(name);
        }
        Sheet { rows, names, numbers, raised: 2048 * before }
    }

    pub fn kind(&self, row: usize) -> u32 {
        self.rows[row][0]
    }

    pub fn kids(&self, row: usize) -> Vec<usize> {
        let mut kids = Vec::new();
        let mut kid = self.rows[row][2] as usize;
        while kid != 0 {
            kids.push(kid);
            kid = self.rows[kid][1] as usize;
        }
        kids
    }

    pub fn number(&self, name: &str) -> u32 {
        self.numbers[name]
    }

    fn a(&self, row: usize) -> u32 {
        self.rows[row][6]
    }

    fn b(&self, row: usize) -> u32 {
        self.rows[row][7]
    }

    /// A function's number is its row.
    pub fn fun_id(&self, row: usize) -> FunId {
        (row + self.raised).into()
    }

    /// A class's number is 256 + its row.
    pub fn class_id(&self, row: usize) -> ClassId {
        (256 + row + self.raised).into()
    }

    fn pos(&self, row: usize) -> SrcPos {
        SrcPos::new(self.rows[row][3], self.rows[row][4], self.rows[row][5])
    }

    /// The name whose number stands in column a.
    fn name(&self, row: usize) -> String {
        self.names[self.a(row) as usize].clone()
    }

    pub fn program(&self) -> Program {
        let mut prog = Program::new();
        self.add_head_and_classes(&mut prog);
        for row in self.kids(0) {
            self.add_unit(row, row.to_string(), &mut prog);
        }
        prog
    }

    /// Adds the one unit of an entry to the program of a session, under a key.
    pub fn add_entry(&self, key: &str, prog: &mut Program) {
        self.add_head_and_classes(prog);
        self.add_unit(self.kids(0)[0], key.to_string(), prog);
    }

    fn add_head_and_classes(&self, prog: &mut Program) {
        let main = self.b(0) as usize;
        prog.num_globals = self.a(0);
        prog.main_fn = if main == 0 { FunId::default() } else { self.fun_id(main) };
        for row in self.class_rows() {
            self.add_class(row, prog);
        }
    }

    pub fn class_rows(&self) -> impl Iterator<Item = usize> + '_ {
        (0..self.rows.len()).filter(|&row| self.kind(row) == 4)
    }

    fn add_class(&self, row: usize, prog: &mut Program) {
        let id = self.class_id(row);
        let parent = self.b(row) as usize;
        let mut class = Class {
            name: self.name(row),
            parent_name: (parent != 0).then(|| self.names[parent].clone()),
            pos: self.pos(row),
            id,
            ..Default::default()
        };
        for kid in self.kids(row) {
            if self.kind(kid) == 10 {
                class.reg_field(&self.name(kid));
            } else {
                class.methods.insert(self.name(kid), self.add_fun(kid, id, prog));
            }
        }
        prog.classes.insert(id, class);
    }

    fn add_unit(&self, row: usize, key: String, prog: &mut Program) {
        let mut unit = Unit::default();
        for kid in self.kids(row) {
            match self.kind(kid) {
                3 => unit.imports.push(self.import(kid)),
                4 => drop(unit.classes.insert(self.name(kid), self.class_id(kid))),
                7 => drop(unit.funs.insert(self.name(kid), self.fun_id(self.b(kid) as usize))),
                8 => drop(unit.consts.insert(self.name(kid), self.b(kid))),
                _ => unit.unit_fn = self.add_fun(kid, ClassId::default(), prog),
            }
        }
        prog.units.insert(key, unit);
    }

    fn import(&self, row: usize) -> Import {
        Import {
            full_path: self.a(row).to_string(),
            symbols: self.kids(row).iter().map(|&kid| self.name(kid)).collect(),
            import_all: self.b(row) == 1,
            pos: self.pos(row),
        }
    }

    fn add_fun(&self, row: usize, class_id: ClassId, prog: &mut Program) -> FunId {
        let mut params = self.kids(row);
        let body = params.pop().unwrap();
        let fun = Function {
            name: self.name(row),
            params: params.iter().map(|&kid| self.name(kid)).collect(),
            body: self.stmt(body, prog),
            is_unit: self.b(row) == 1,
            pos: self.pos(row),
            id: self.fun_id(row),
            class_id,
            ..Default::default()
        };
        prog.funs.insert(self.fun_id(row), fun);
        self.fun_id(row)
    }

    fn stmt(&self, row: usize, prog: &mut Program) -> StmtBox {
        let kids = self.kids(row);
        let mut expr = |i: usize| self.expr(kids[i], prog);
        let stmt = match self.kind(row) {
            20 => Stmt::Expr(expr(0)),
            21 => Stmt::Assign { lhs: expr(0), rhs: expr(1) },
            22 => Stmt::Return(expr(0)),
            23 => Stmt::Break,
            24 => Stmt::Continue,
            25 => Stmt::Block(kids.iter().map(|&kid| self.stmt(kid, prog)).collect()),
            26 => Stmt::If {
                test_expr: self.expr(kids[0], prog),
                then_stmt: self.stmt(kids[1], prog),
                else_stmt: kids.get(2).map(|&kid| self.stmt(kid, prog)),
            },
            27 => Stmt::For {
                init_stmt: self.stmt(kids[0], prog),
                test_expr: self.expr(kids[1], prog),
                incr_stmt: self.stmt(kids[2], prog),
                body_stmt: self.stmt(kids[3], prog),
            },
            28 => Stmt::Assert { test_expr: expr(0) },
            29 => Stmt::Let {
                mutable: self.b(row) == 1,
                var_name: self.name(row),
                init_expr: expr(0),
                decl: self.b(row).checked_sub(2).map(|idx| Decl::Global { idx, mutable: false }),
            },
            30 => Stmt::ClassDecl { class_id: self.class_id(self.a(row) as usize) },
            kind => panic!("kind {kind} is no statement"),
        };
        StmtBox::new(stmt, self.pos(row))
    }

    fn expr(&self, row: usize, prog: &mut Program) -> ExprBox {
        let kids = self.kids(row);
        let mut kid = |i: usize| self.expr(kids[i], prog);
        let word = (self.b(row) as u64) << 32 | self.a(row) as u64;
        let expr = match self.kind(row) {
            40 => Expr::Nil,
            41 => Expr::True,
            42 => Expr::False,
            43 => Expr::Int64(word as i64),
            44 => Expr::Float64(f64::from_bits(word)),
            45 => Expr::String(String::new()),
            46 => Expr::ByteArray(Vec::new()),
            47 => Expr::Array { exprs: self.exprs(&kids, prog) },
            48 => Expr::Dict { pairs: kids.iter().map(|&pair| (String::new(), self.expr(self.kids(pair)[0], prog))).collect() },
            50 => Expr::Ident(self.name(row)),
            51 => Expr::HostConst(self.name(row)),
            52 => {
                let class = self.a(row) as usize;
                let class = if class == 0 { ClassId::default() } else { self.class_id(class) };
                Expr::Fun { fun_id: self.add_fun(kids[0], class, prog), captured: Vec::new() }
            }
            53 => Expr::Index { base: kid(0), index: kid(1) },
            54 => Expr::Member { base: kid(0), field: self.name(row) },
            55 => Expr::InstanceOf { val: kid(0), class_name: self.name(row), class_id: ClassId::default() },
            56 => Expr::Unary { op: UnOp::Minus, child: kid(0) },
            57 => Expr::Binary { op: BinOp::Add, lhs: kid(0), rhs: kid(1) },
            58 => Expr::Ternary { test_expr: kid(0), then_expr: kid(1), else_expr: kid(2) },
            59 => Expr::Call { callee: kid(0), args: self.exprs(&kids[1..], prog) },
            kind => panic!("kind {kind} is no expression"),
        };
        ExprBox::new(expr, self.pos(row))
    }

    fn exprs(&self, rows: &[usize], prog: &mut Program) -> Vec<ExprBox> {
        rows.iter().map(|&row| self.expr(row, prog)).collect()
    }
}
