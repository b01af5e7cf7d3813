// What stands outside functions.

use crate::items::Items;
use crate::lexer::{tokens, What};
use crate::parser::{owned, Defined, Failure, Parsed, Parser};
use crate::tree::{Array, Cell, Function, Kind, Name, Object, Program, Slot};

pub const LEVELS: u32 = 64;

fn define(defined: &mut Defined, name: &[u8]) {
    match name {
        b"int" => defined.int = true,
        b"void" => defined.void = true,
        b"long" => defined.long = true,
        b"intptr_t" => defined.int_pointer = true,
        b"NULL" => defined.null = true,
        b"pthread_t" => defined.threads = true,
        b"pthread_mutex_t" => defined.mutexes = true,
        b"pthread_cond_t" => defined.conditions = true,
        b"PTHREAD_MUTEX_INITIALIZER" => defined.ready_mutexes = true,
        b"PTHREAD_COND_INITIALIZER" => defined.ready_conditions = true,
        _ => {}
    }
}

pub fn parse(text: &[u8]) -> Result<Program, Failure> {
    let (tokens, end) = tokens(text);
    let last_line = 1 + text.iter().filter(|b| **b == b'\n').count() as u32;
    let mut parser = Parser { tokens, at: 0, end, last_line, defined: Defined::default() };
    let mut program = Program {
        ints: Items::new(),
        arrays: Items::new(),
        mutexes: Items::new(),
        conds: Items::new(),
        threads: Items::new(),
        monitors: Items::new(),
        functions: Items::new(),
        cap_len: 0,
        cap_line: 0,
        end_line: last_line,
    };
    while parser.at < parser.tokens.len() {
        parser.outer(&mut program)?;
    }
    match parser.end {
        crate::lexer::End::Text => Ok(program),
        _ => parser.syntax(),
    }
}

impl<'t> Parser<'t> {
    fn outer(&mut self, program: &mut Program) -> Parsed<()> {
        if let Some(What::Define(name)) = self.what_at(0) {
            define(&mut self.defined, name);
            self.at += 1;
            return Ok(());
        }
        let is_first = self.at == 0 && self.is_word("int");
        let d = self.defined;
        if self.is_word("static") {
            if d.int && d.void && d.threads && d.mutexes && d.conditions {
                return self.syntax();
            }
            self.at += 1;
        }
        let line = self.line();
        if self.takes_word("int") {
            return self.behind_int(program, line, is_first);
        }
        if self.takes_word("void") {
            return self.behind_void(program, line);
        }
        if self.takes_word("pthread_mutex_t") {
            let all = self.objects("PTHREAD_MUTEX_INITIALIZER", d.ready_mutexes)?;
            program.mutexes.extend(all);
        } else if self.takes_word("pthread_cond_t") {
            let all = self.objects("PTHREAD_COND_INITIALIZER", d.ready_conditions)?;
            program.conds.extend(all);
        } else if self.takes_word("pthread_t") {
            program.threads.append(&mut self.slots()?.0);
        } else {
            return self.syntax();
        }
        Ok(())
    }

    fn behind_int(&mut self, program: &mut Program, line: u32, is_first: bool) -> Parsed<()> {
        let name_line = self.line();
        let name = self.name()?;
        if name == b"gd_cap" && is_first && self.is_sign("[") {
            return self.capacities(program, name_line);
        }
        if self.takes_sign("(") {
            let (kind, params) = if name == b"main" {
                self.takes_word("void");
                (Kind::Main, Items::new())
            } else {
                (Kind::Int, self.parameters()?)
            };
            self.sign(")")?;
            return self.function(program, line, kind, name, params);
        }
        if name == b"gd_cap" {
            return self.syntax();
        }
        self.cell(program, name, name_line)?;
        while self.takes_sign(",") {
            let name_line = self.line();
            if self.is_word("gd_cap") {
                return self.syntax();
            }
            let name = self.name()?;
            self.cell(program, name, name_line)?;
        }
        self.sign(";")
    }

    fn first_value(&mut self) -> Parsed<i32> {
        let is_negative = self.takes_sign("-");
        let value = self.number()? as i32;
        Ok(if is_negative { -value } else { value })
    }

    // A scalar or an array, behind its name.
    fn cell(&mut self, program: &mut Program, name: &[u8], line: u32) -> Parsed<()> {
        let name = owned(name);
        if !self.is_sign("[") {
            let value = if self.takes_sign("=") { self.first_value()? } else { 0 };
            program.ints.push(Cell { name, value, line });
            return Ok(());
        }
        let len = self.length()?.unwrap_or(0);
        let mut values = Items::new();
        if self.takes_sign("=") {
            self.sign("{")?;
            values.push(self.first_value()?);
            while self.takes_sign(",") {
                values.push(self.first_value()?);
            }
            self.sign("}")?;
        }
        program.arrays.push(Array { name, len, values, line });
        Ok(())
    }

    // A length in brackets, if there is one.
    fn length(&mut self) -> Parsed<Option<u32>> {
        if !self.takes_sign("[") {
            return Ok(None);
        }
        let len = self.number()?;
        self.sign("]")?;
        Ok(Some(len))
    }

    fn objects(&mut self, initial: &str, is_defined: bool) -> Parsed<Vec<Object>> {
        let mut all = Vec::new();
        loop {
            let line = self.line();
            let name = owned(self.name()?);
            let len = self.length()?;
            let ready = self.is_sign("=") && !is_defined;
            let mut given = 0;
            if ready {
                self.at += 1;
                given = self.initials(initial, len.is_some())?;
            }
            all.push(Object { name, len, ready, given, line });
            if !self.takes_sign(",") {
                self.sign(";")?;
                return Ok(all);
            }
        }
    }

    fn initials(&mut self, initial: &str, is_array: bool) -> Parsed<u32> {
        if !is_array {
            self.word(initial)?;
            return Ok(1);
        }
        self.sign("{")?;
        self.word(initial)?;
        let mut given = 1;
        while self.takes_sign(",") {
            self.word(initial)?;
            given += 1;
        }
        self.sign("}")?;
        Ok(given)
    }

    /// Threads behind their type, with the `;`.
    pub fn slots(&mut self) -> Parsed<Items<Slot>> {
        let mut all = Items::new();
        loop {
            let line = self.line();
            let name = owned(self.name()?);
            let len = self.length()?;
            all.push(Slot { name, len, line });
            if !self.takes_sign(",") {
                self.sign(";")?;
                return Ok(all);
            }
        }
    }

    fn capacities(&mut self, program: &mut Program, line: u32) -> Parsed<()> {
        program.cap_line = line;
        program.cap_len = self.length()?.unwrap_or(0);
        self.sign("=")?;
        self.sign("{")?;
        program.monitors.push(self.number()?);
        while self.takes_sign(",") {
            program.monitors.push(self.number()?);
        }
        self.sign("}")?;
        self.sign(";")?;
        for word in ["gd_take", "gd_give"] {
            self.word("void")?;
            self.word(word)?;
            self.sign("(")?;
            self.word("int")?;
            self.word("k")?;
            self.sign(")")?;
            self.sign(";")?;
        }
        Ok(())
    }

    fn parameters(&mut self) -> Parsed<Items<Name>> {
        let mut all = Items::new();
        if self.takes_word("void") || self.is_sign(")") {
            return Ok(all);
        }
        loop {
            self.word("int")?;
            all.push(owned(self.name()?));
            if !self.takes_sign(",") {
                return Ok(all);
            }
        }
    }

    fn behind_void(&mut self, program: &mut Program, line: u32) -> Parsed<()> {
        let is_thread = self.takes_sign("*");
        if self.is_word("main") {
            return self.syntax();
        }
        let name = self.name()?;
        self.sign("(")?;
        let (kind, params) = if is_thread {
            self.word("void")?;
            self.sign("*")?;
            (Kind::Thread, Items::one(owned(self.name()?)))
        } else {
            (Kind::Void, self.parameters()?)
        };
        self.sign(")")?;
        self.function(program, line, kind, name, params)
    }

    fn function(
        &mut self,
        program: &mut Program,
        line: u32,
        kind: Kind,
        name: &[u8],
        params: Items<Name>,
    ) -> Parsed<()> {
        self.sign("{")?;
        let (body, mut slots) = if kind == Kind::Main {
            self.main_body(LEVELS)?
        } else {
            (self.list(kind, LEVELS)?, Items::new())
        };
        let end_line = self.line();
        self.sign("}")?;
        program.threads.append(&mut slots);
        let name = owned(name);
        program.functions.push(Function { name, kind, params, body, line, end_line });
        Ok(())
    }
}
