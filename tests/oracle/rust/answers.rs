//! The answer rows of document 01, out of a resolved program: its tree and the sheet are gone through side by side.
use crate::ast::*;
use crate::sheet::{Row, Sheet};
use crate::symbols::Decl;

/// Answer rows in rising sheet row.
pub fn answers(sheet: &Sheet, prog: &Program) -> Vec<Row> {
    let mut found = Answers { sheet, by_row: vec![Vec::new(); sheet.rows.len()] };
    for row in 0..sheet.rows.len() {
        match sheet.kind(row) {
            4 => found.class(row, &prog.classes[&sheet.class_id(row)]),
            6 => found.function(row, &prog.funs[&sheet.fun_id(row)]),
            _ => {}
        }
    }
    found.by_row.concat()
}

struct Answers<'a> {
    sheet: &'a Sheet,
    by_row: Vec<Vec<Row>>,
}

impl Answers<'_> {
    fn put(&mut self, row: usize, code: u32, values: [u32; 4]) {
        let [v, w, x, y] = values;
        self.by_row[row].push([row as u32, code, v, w, x, y, 0, 0]);
    }

    fn put_decl(&mut self, row: usize, decl: &Decl) {
        let fun = |id: FunId| usize::from(id) as u32;
        let (code, values) = match *decl {
            Decl::Fun { id } => (1, [fun(id), 0, 0, 0]),
            Decl::Class { id } => (2, [usize::from(id) as u32, 0, 0, 0]),
            Decl::Global { idx, mutable } => (3, [idx, 0, mutable as u32, 0]),
            Decl::Arg { idx, src_fun } => (4, [idx, fun(src_fun), 0, 0]),
            Decl::Local { idx, src_fun, mutable } => (5, [idx, fun(src_fun), mutable as u32, 0]),
            Decl::Captured { idx, mutable } => (6, [idx, 0, mutable as u32, 0]),
        };
        self.put(row, code, values);
    }

    fn class(&mut self, row: usize, class: &Class) {
        let parent = usize::from(class.parent_id) as u32;
        let counts = [class.fields.len() as u32, class.methods.len() as u32];
        self.put(row, 22, [parent, class.has_children as u32, counts[0], counts[1]]);
        let mut fields: Vec<_> = class.fields.iter().map(|(name, slot)| (*slot, self.sheet.number(name))).collect();
        fields.sort();
        for (slot, name) in fields {
            self.put(row, 23, [slot as u32, name, 0, 0]);
        }
        for (name, fun) in &class.methods {
            self.put(row, 24, [self.sheet.number(name), usize::from(*fun) as u32, 0, 0]);
        }
    }

    fn function(&mut self, row: usize, fun: &Function) {
        let counts = [fun.num_locals, fun.captured.len(), fun.escaping.len(), 0];
        self.put(row, 20, counts.map(|n| n as u32));
        let mut captured: Vec<_> = fun.captured.iter().collect();
        captured.sort_by_key(|&(_, index)| index);
        for (decl, _) in captured {
            self.put_decl(row, decl);
        }
        let mut escaping: Vec<_> = fun.escaping.iter().collect();
        escaping.sort_by_key(|decl| match decl {
            Decl::Local { idx, .. } => *idx,
            _ => unreachable!(),
        });
        for decl in escaping {
            self.put_decl(row, decl);
        }
        self.stmt(*self.sheet.kids(row).last().unwrap(), &fun.body);
    }

    fn stmt(&mut self, row: usize, stmt: &StmtBox) {
        let kids = self.sheet.kids(row);
        match stmt.stmt.as_ref() {
            Stmt::Break | Stmt::Continue | Stmt::ClassDecl { .. } => {}
            Stmt::Expr(value) | Stmt::Return(value) | Stmt::Assert { test_expr: value } => self.expr(kids[0], value),
            Stmt::Assign { lhs, rhs } => self.exprs(&kids, [lhs, rhs]),
            Stmt::Block(stmts) => kids.iter().zip(stmts).for_each(|(&kid, stmt)| self.stmt(kid, stmt)),
            Stmt::If { test_expr, then_stmt, else_stmt } => {
                self.expr(kids[0], test_expr);
                self.stmt(kids[1], then_stmt);
                if let Some(else_stmt) = else_stmt {
                    self.stmt(kids[2], else_stmt);
                }
            }
            Stmt::For { init_stmt, test_expr, incr_stmt, body_stmt } => {
                self.stmt(kids[0], init_stmt);
                self.expr(kids[1], test_expr);
                self.stmt(kids[2], incr_stmt);
                self.stmt(kids[3], body_stmt);
            }
            Stmt::Let { init_expr, decl, .. } => {
                match decl {
                    Some(decl) => self.put_decl(row, decl),
                    None => self.put(row, 0, [0; 4]),
                }
                self.expr(kids[0], init_expr);
            }
        }
    }

    fn expr(&mut self, row: usize, expr: &ExprBox) {
        let kids = self.sheet.kids(row);
        match expr.expr.as_ref() {
            // an identifier, or a class method's member callee
            Expr::Ref { decl, .. } => self.put_decl(row, decl),
            Expr::True if self.sheet.kind(row) == 51 => self.put(row, 7, [0; 4]),
            Expr::False if self.sheet.kind(row) == 51 => self.put(row, 8, [0; 4]),
            Expr::True | Expr::False | Expr::Nil | Expr::Int64(_) | Expr::Float64(_) => {}
            Expr::String(_) | Expr::ByteArray(_) => {}
            Expr::Fun { captured, .. } => captured.iter().for_each(|decl| self.put_decl(row, decl)),
            Expr::InstanceOf { val, class_id, .. } => {
                self.put(row, 2, [usize::from(*class_id) as u32, 0, 0, 0]);
                self.expr(kids[0], val);
            }
            Expr::Array { exprs } => self.exprs(&kids, exprs),
            Expr::Dict { pairs } => {
                for (&pair, (_, value)) in kids.iter().zip(pairs) {
                    self.expr(self.sheet.kids(pair)[0], value);
                }
            }
            Expr::Member { base, .. } => self.expr(kids[0], base),
            Expr::Unary { child, .. } => self.expr(kids[0], child),
            Expr::Index { base, index } => self.exprs(&kids, [base, index]),
            Expr::Binary { lhs, rhs, .. } => self.exprs(&kids, [lhs, rhs]),
            Expr::Ternary { test_expr, then_expr, else_expr } => self.exprs(&kids, [test_expr, then_expr, else_expr]),
            Expr::Call { callee, args } => {
                self.expr(kids[0], callee);
                self.exprs(&kids[1..], args);
            }
            Expr::Ident(_) | Expr::HostConst(_) | Expr::HostFn(_) => panic!("row {row} is not resolved"),
        }
    }

    fn exprs<'a>(&mut self, rows: &[usize], exprs: impl IntoIterator<Item = &'a ExprBox>) {
        for (&row, expr) in rows.iter().zip(exprs) {
            self.expr(row, expr);
        }
    }
}
