// Statements and bodies.

use crate::items::{Boxed, Items};
use crate::lexer::What;
use crate::parser::{owned, Parsed, Parser, Tall};
use crate::tree::{Act, Expr, Kind, Name, Op, Place, Slot, Stmt, Stmts};

fn as_expr(place: &Place) -> Expr {
    match &place.index {
        None => Expr::Name(owned(&place.name)),
        Some(index) => Expr::Element { name: owned(&place.name), index: Boxed::new(copy(index)) },
    }
}

fn copy(e: &Expr) -> Expr {
    let boxed = |e: &Boxed<Expr>| Boxed::new(copy(&e.0));
    match e {
        Expr::Number(n) => Expr::Number(*n),
        Expr::Name(n) => Expr::Name(owned(n)),
        Expr::Element { name, index } => Expr::Element { name: owned(name), index: boxed(index) },
        Expr::Arg(n) => Expr::Arg(owned(n)),
        Expr::Not(e) => Expr::Not(boxed(e)),
        Expr::Minus(e) => Expr::Minus(boxed(e)),
        Expr::Binary { op, left, right } => {
            Expr::Binary { op: *op, left: boxed(left), right: boxed(right) }
        }
    }
}

fn changed(target: Place, op: Op, by: Expr) -> Act {
    let (left, right) = (Boxed::new(as_expr(&target)), Boxed::new(by));
    Act::Assign { target, value: Expr::Binary { op, left, right } }
}

fn changing(sign: &[u8]) -> Option<Op> {
    Some(match sign {
        b"+=" => Op::Add,
        b"-=" => Op::Sub,
        b"*=" => Op::Mul,
        b"/=" => Op::Div,
        b"%=" => Op::Rem,
        _ => return None,
    })
}

// The value behind an `=`: an expression, or a call with its function and arguments.
pub enum Source {
    Value(Expr),
    Call(Name, Items<Expr>),
}

impl<'t> Parser<'t> {
    fn begins_statement(&self) -> bool {
        let words = ["int", "if", "while", "for", "return"].iter().any(|w| self.is_word(w));
        words || self.name_ahead(0).is_some() || self.is_sign("++") || self.is_sign("--")
    }

    /// Statements up to what begins none.
    pub fn list(&mut self, kind: Kind, room: u32) -> Parsed<Stmts> {
        let mut all = Items::new();
        while self.begins_statement() || self.is_sign(";") {
            all.append(&mut self.statement(kind, room)?.0);
        }
        Ok(all)
    }

    /// The body of main, with the threads that it declares.
    pub fn main_body(&mut self, room: u32) -> Parsed<(Stmts, Items<Slot>)> {
        let (mut all, mut slots) = (Items::new(), Items::new());
        loop {
            let is_static = self.is_word("static") && !self.defined.threads;
            if is_static || (self.is_word("pthread_t") && self.name_ahead(1).is_some()) {
                self.at += usize::from(is_static);
                self.word("pthread_t")?;
                slots.append(&mut self.slots()?.0);
            } else if self.begins_statement() || self.is_sign(";") {
                all.append(&mut self.statement(Kind::Main, room)?.0);
            } else {
                return Ok((all, slots));
            }
        }
    }

    fn arm(&mut self, kind: Kind, room: u32) -> Parsed<Stmts> {
        if !self.takes_sign("{") {
            return self.statement(kind, room);
        }
        let all = self.list(kind, room)?;
        self.sign("}")?;
        Ok(all)
    }

    fn statement(&mut self, kind: Kind, room: u32) -> Parsed<Stmts> {
        if self.takes_sign(";") {
            return Ok(Items::new());
        }
        if !self.begins_statement() {
            return self.syntax();
        }
        if room == 0 {
            return self.deep();
        }
        let line = self.line();
        let needs_a_level = self.is_word("if") || self.is_word("while");
        if needs_a_level && room == 1 {
            return self.deep();
        }
        if self.takes_word("if") {
            let test = self.condition(room - 1)?;
            let then_arm = self.arm(kind, room - 1)?;
            let has_else = self.takes_word("else");
            let else_arm = if has_else { self.arm(kind, room - 1)? } else { Items::new() };
            return Ok(Items::one(Stmt { line, act: Act::If { test, then_arm, else_arm } }));
        }
        if self.takes_word("while") {
            let test = self.condition(room - 1)?;
            let body = self.arm(kind, room - 1)?;
            return Ok(Items::one(Stmt { line, act: Act::While { test, body } }));
        }
        if self.takes_word("for") {
            return self.for_behind(kind, room, line);
        }
        if self.takes_word("int") {
            return self.declarators(room - 1);
        }
        if self.is_word("return") {
            return self.result(kind, room - 1, line);
        }
        if let Some(act) = self.library(room - 1)? {
            self.sign(";")?;
            return Ok(Items::one(Stmt { line, act }));
        }
        self.assignment(room - 1, line)
    }

    fn condition(&mut self, room: u32) -> Parsed<Expr> {
        self.sign("(")?;
        let test = self.expression(room)?;
        self.close(")", room, test.levels)?;
        Ok(test.tree)
    }

    fn for_behind(&mut self, kind: Kind, room: u32, line: u32) -> Parsed<Stmts> {
        self.sign("(")?;
        let first = self.first(room - 1)?;
        let test = if self.takes_sign(";") {
            Expr::Number(1)
        } else {
            let test = self.expression(room - 1)?;
            self.close(";", room - 1, test.levels)?;
            test.tree
        };
        let step = if self.takes_sign(")") { Items::new() } else { self.step(room - 1, ")")? };
        let body = self.arm(kind, room - 1)?;
        Ok(Items::one(Stmt { line, act: Act::For { first, test, step, body } }))
    }

    // The first part of a `for`, with its `;`.
    fn first(&mut self, room: u32) -> Parsed<Stmts> {
        if self.takes_sign(";") {
            return Ok(Items::new());
        }
        if !self.is_word("int") {
            return self.step(room, ";");
        }
        if room == 0 {
            return self.deep();
        }
        self.at += 1;
        let line = self.line();
        let name = owned(self.name()?);
        self.sign("=")?;
        let value = self.expression(room)?;
        self.close(";", room, value.levels)?;
        Ok(Items::one(Stmt { line, act: Act::Declare { name, value: Some(value.tree) } }))
    }

    // A step, with the sign behind it.
    fn step(&mut self, room: u32, end: &str) -> Parsed<Stmts> {
        let line = self.line();
        if self.is_sign("++") || self.is_sign("--") {
            let op = if self.is_sign("++") { Op::Add } else { Op::Sub };
            self.at += 1;
            let place = self.place(room)?;
            self.sign(end)?;
            return Ok(Items::one(Stmt { line, act: changed(place.tree, op, Expr::Number(1)) }));
        }
        let target = self.place(room)?.tree;
        let act = if self.is_sign("=") {
            if room == 0 {
                return self.deep();
            }
            self.at += 1;
            let value = self.expression(room)?;
            self.close(end, room, value.levels)?;
            Act::Assign { target, value: value.tree }
        } else {
            self.change(target, room, end)?
        };
        Ok(Items::one(Stmt { line, act }))
    }

    // What stands behind a place, if it isn't an `=`.
    fn change(&mut self, target: Place, room: u32, end: &str) -> Parsed<Act> {
        for (sign, op) in [("++", Op::Add), ("--", Op::Sub)] {
            if self.takes_sign(sign) {
                self.sign(end)?;
                return Ok(changed(target, op, Expr::Number(1)));
            }
        }
        let Some(What::Sign(sign)) = self.what_at(0) else { return self.syntax() };
        let Some(op) = changing(sign) else { return self.syntax() };
        if room == 0 {
            return self.deep();
        }
        self.at += 1;
        let by = self.expression(room)?;
        self.close(end, room, by.levels)?;
        Ok(changed(target, op, by.tree))
    }

    // A step or a call, with its `;`.
    fn assignment(&mut self, room: u32, line: u32) -> Parsed<Stmts> {
        if self.is_callable() && self.is_sign_at(1, "(") {
            let function = owned(self.name()?);
            self.at += 1;
            let args = self.arguments(room)?;
            self.sign(";")?;
            return Ok(Items::one(Stmt { line, act: Act::Call { target: None, function, args } }));
        }
        if self.is_sign("++") || self.is_sign("--") {
            return self.step(room, ";");
        }
        let target = self.place(room)?.tree;
        if !self.takes_sign("=") {
            let act = self.change(target, room, ";")?;
            return Ok(Items::one(Stmt { line, act }));
        }
        let act = match self.source(room, &[";"])? {
            Source::Value(value) => Act::Assign { target, value },
            Source::Call(function, args) => Act::Call { target: Some(target), function, args },
        };
        self.sign(";")?;
        Ok(Items::one(Stmt { line, act }))
    }

    /// An expression or a call; one of the ends has to follow.
    pub fn source(&mut self, room: u32, ends: &[&str]) -> Parsed<Source> {
        if self.is_callable() {
            let name = self.name()?;
            if self.takes_sign("(") {
                return Ok(Source::Call(owned(name), self.arguments(room)?));
            }
            let first = self.named(name, room)?;
            let value = self.operators(first, 1, room)?;
            return self.value(value, room, ends);
        }
        let value = self.expression(room)?;
        self.value(value, room, ends)
    }

    fn value(&self, value: Tall<Expr>, room: u32, ends: &[&str]) -> Parsed<Source> {
        if value.levels > room && ends.iter().any(|end| self.is_sign(end)) {
            return self.deep();
        }
        Ok(Source::Value(value.tree))
    }
}
