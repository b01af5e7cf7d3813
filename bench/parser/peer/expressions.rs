// Expressions, places, and the arguments of calls.

use crate::items::{Boxed, Items};
use crate::lexer::What;
use crate::parser::{owned, Parsed, Parser, Tall};
use crate::tree::{Expr, Op, Place};

fn operator(sign: &[u8]) -> Option<(Op, u32)> {
    Some(match sign {
        b"||" => (Op::Or, 1),
        b"&&" => (Op::And, 2),
        b"==" => (Op::Eq, 3),
        b"!=" => (Op::Ne, 3),
        b"<" => (Op::Lt, 4),
        b"<=" => (Op::Le, 4),
        b">" => (Op::Gt, 4),
        b">=" => (Op::Ge, 4),
        b"+" => (Op::Add, 5),
        b"-" => (Op::Sub, 5),
        b"*" => (Op::Mul, 6),
        b"/" => (Op::Div, 6),
        b"%" => (Op::Rem, 6),
        _ => return None,
    })
}

fn leaf(tree: Expr) -> Tall<Expr> {
    Tall { tree, levels: 1 }
}

fn below(levels: u32, tree: Expr) -> Tall<Expr> {
    Tall { tree, levels: levels + 1 }
}

impl<'t> Parser<'t> {
    pub fn expression(&mut self, room: u32) -> Parsed<Tall<Expr>> {
        let first = self.unary(room)?;
        self.operators(first, 1, room)
    }

    /// What follows an operand, with operators that bind at least so tightly.
    pub fn operators(&mut self, first: Tall<Expr>, least: u32, room: u32) -> Parsed<Tall<Expr>> {
        let mut left = first;
        loop {
            let Some(What::Sign(sign)) = self.what_at(0) else { return Ok(left) };
            let Some((op, strength)) = operator(sign) else { return Ok(left) };
            if strength < least {
                return Ok(left);
            }
            if left.levels + 1 > room {
                return self.deep();
            }
            self.at += 1;
            let operand = self.unary(room - 1)?;
            let right = self.operators(operand, strength + 1, room - 1)?;
            let levels = left.levels.max(right.levels);
            let (left_tree, right_tree) = (Boxed::new(left.tree), Boxed::new(right.tree));
            left = below(levels, Expr::Binary { op, left: left_tree, right: right_tree });
        }
    }

    /// Whether an expression begins here.
    fn begins(&self) -> bool {
        let starts = ["!", "-", "("].iter().any(|s| self.is_sign(s));
        starts || self.name_ahead(0).is_some() || matches!(self.what_at(0), Some(What::Number(_)))
    }

    pub fn unary(&mut self, room: u32) -> Parsed<Tall<Expr>> {
        if !self.begins() {
            return self.syntax();
        }
        if room == 0 {
            return self.deep();
        }
        if self.is_sign("(") {
            return self.parenthesis(room);
        }
        if self.is_sign("!") || self.is_sign("-") {
            if room == 1 {
                return self.deep();
            }
            let is_not = self.is_sign("!");
            self.at += 1;
            let operand = self.unary(room - 1)?;
            let inner = Boxed::new(operand.tree);
            let tree = if is_not { Expr::Not(inner) } else { Expr::Minus(inner) };
            return Ok(below(operand.levels, tree));
        }
        if let Some(What::Number(value)) = self.what_at(0) {
            self.at += 1;
            return Ok(leaf(Expr::Number(value)));
        }
        let name = self.name()?;
        self.named(name, room)
    }

    /// What a name begins that was read.
    pub fn named(&mut self, name: &[u8], room: u32) -> Parsed<Tall<Expr>> {
        if !self.is_sign("[") {
            return Ok(leaf(Expr::Name(owned(name))));
        }
        if room <= 1 {
            return self.deep();
        }
        let index = self.index(room - 1)?;
        let tree = Expr::Element { name: owned(name), index: Boxed::new(index.tree) };
        Ok(below(index.levels, tree))
    }

    /// An index in brackets, the first of which comes.
    pub fn index(&mut self, room: u32) -> Parsed<Tall<Expr>> {
        if room == 0 {
            return self.deep();
        }
        self.at += 1;
        let index = self.expression(room)?;
        self.close("]", room, index.levels)?;
        Ok(index)
    }

    // The name behind a cast.
    fn cast_name(&mut self) -> Parsed<Tall<Expr>> {
        let name = self.name()?;
        Ok(leaf(Expr::Arg(owned(name))))
    }

    // What a `(` begins.
    fn parenthesis(&mut self, room: u32) -> Parsed<Tall<Expr>> {
        if room == 1 && !self.casts() {
            return self.deep();
        }
        self.at += 1;
        if self.is_word("int") && self.casts() {
            self.at += 1;
            self.sign(")")?;
            self.sign("(")?;
            if !self.takes_word("long") {
                self.word("intptr_t")?;
            }
            self.sign(")")?;
            return self.cast_name();
        }
        if self.takes_word("long") {
            self.sign(")")?;
            return self.cast_name();
        }
        if self.is_word("intptr_t") && self.is_sign_at(1, ")") {
            self.at += 2;
            if self.name_ahead(0).is_some() {
                return self.cast_name();
            }
            return Ok(below(1, Expr::Name(owned(b"intptr_t"))));
        }
        let inside = if self.is_word("intptr_t") {
            let name = self.name()?;
            let first = self.named(name, room - 1)?;
            self.operators(first, 1, room - 1)?
        } else {
            self.expression(room - 1)?
        };
        self.close(")", room - 1, inside.levels)?;
        Ok(below(inside.levels, inside.tree))
    }

    pub fn place(&mut self, room: u32) -> Parsed<Tall<Place>> {
        let name = owned(self.name()?);
        if !self.is_sign("[") {
            return Ok(Tall { tree: Place { name, index: None }, levels: 0 });
        }
        let index = self.index(room)?;
        Ok(Tall { tree: Place { name, index: Some(index.tree) }, levels: index.levels })
    }

    pub fn address(&mut self, room: u32) -> Parsed<Tall<Place>> {
        self.sign("&")?;
        self.place(room)
    }

    /// Arguments, and the `)` behind them.
    pub fn arguments(&mut self, room: u32) -> Parsed<Items<Expr>> {
        let mut all = Items::new();
        if self.takes_sign(")") {
            return Ok(all);
        }
        loop {
            let one = self.expression(room)?;
            all.push(one.tree);
            if !self.is_sign(",") {
                self.close(")", room, one.levels)?;
                return Ok(all);
            }
            self.close(",", room, one.levels)?;
        }
    }

    /// The argument of a new thread.
    pub fn argument(&mut self, room: u32) -> Parsed<Tall<Expr>> {
        if self.takes_word("NULL") {
            return Ok(Tall { tree: Expr::Number(0), levels: 0 });
        }
        if self.is_sign("(") && room == 0 && !self.defined.void {
            return self.deep();
        }
        if self.defined.void {
            return self.syntax();
        }
        self.sign("(")?;
        self.word("void")?;
        self.sign("*")?;
        self.sign(")")?;
        if self.is_sign("(") {
            if self.is_word_at(1, "long") {
                self.at += 2;
                self.sign(")")?;
            } else if self.is_word_at(1, "intptr_t") && self.is_sign_at(2, ")") {
                self.at += 3;
            }
        }
        self.unary(room)
    }
}
