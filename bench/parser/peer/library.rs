// Local declarations, results, and the calls of the library.

use crate::items::Items;
use crate::lexer::What;
use crate::parser::{owned, Parsed, Parser};
use crate::statements::Source;
use crate::tree::{Act, Kind, Place, Stmt, Stmts};

impl<'t> Parser<'t> {
    /// What stands behind `int` in a function, with its `;`.
    pub fn declarators(&mut self, room: u32) -> Parsed<Stmts> {
        let mut all = Items::new();
        loop {
            let line = self.line();
            let name = self.name()?;
            let mut value = None;
            let mut call = None;
            if self.takes_sign("=") {
                match self.source(room, &[",", ";"])? {
                    Source::Value(tree) => value = Some(tree),
                    Source::Call(function, args) => {
                        let target = Some(Place { name: owned(name), index: None });
                        call = Some(Act::Call { target, function, args });
                    }
                }
            }
            all.push(Stmt { line, act: Act::Declare { name: owned(name), value } });
            all.extend(call.map(|act| Stmt { line, act }));
            if !self.takes_sign(",") {
                self.sign(";")?;
                return Ok(all);
            }
        }
    }

    /// A `return`, with its `;`.
    pub fn result(&mut self, kind: Kind, room: u32, line: u32) -> Parsed<Stmts> {
        let mut value = None;
        match kind {
            Kind::Main | Kind::Int => {
                if room == 0 {
                    return self.deep();
                }
                self.at += 1;
                let result = self.expression(room)?;
                self.close(";", room, result.levels)?;
                value = Some(result.tree);
            }
            Kind::Void => {
                self.at += 1;
                self.sign(";")?;
            }
            Kind::Thread => {
                self.at += 1;
                let is_zero = self.what_at(0) == Some(What::Number(0));
                if !is_zero && !self.is_word("NULL") {
                    return self.syntax();
                }
                self.at += 1;
                self.sign(";")?;
            }
        }
        Ok(Items::one(Stmt { line, act: Act::Return { value } }))
    }

    /// A call of the library without its `;`, if one comes.
    pub fn library(&mut self, room: u32) -> Parsed<Option<Act>> {
        let Some(What::Word(word)) = self.what_at(0) else { return Ok(None) };
        if !self.is_sign_at(1, "(") {
            return Ok(None);
        }
        let needs_null: [&[u8]; 4] =
            [b"pthread_create", b"pthread_join", b"pthread_mutex_init", b"pthread_cond_init"];
        if needs_null.contains(&word) && self.defined.null {
            self.at += 1;
            return self.syntax();
        }
        let start = self.at;
        self.at += 2;
        let act = match word {
            b"scanf" => self.scanf(room)?,
            b"printf" => return self.printf(room).map(Some),
            b"pthread_create" => self.create(room)?,
            b"pthread_join" => {
                let slot = self.place(room)?.tree;
                self.null()?;
                Act::Join { slot }
            }
            b"pthread_mutex_init" => {
                let place = self.address(room)?.tree;
                self.null()?;
                Act::InitMutex { place }
            }
            b"pthread_cond_init" => {
                let place = self.address(room)?.tree;
                self.null()?;
                Act::InitCond { place }
            }
            b"pthread_mutex_lock" => Act::Lock { place: self.address(room)?.tree },
            b"pthread_mutex_unlock" => Act::Unlock { place: self.address(room)?.tree },
            b"pthread_cond_wait" => {
                let cond = self.address(room)?.tree;
                self.sign(",")?;
                Act::Wait { cond, mutex: self.address(room)?.tree }
            }
            b"pthread_cond_signal" => Act::Signal { cond: self.address(room)?.tree },
            b"pthread_cond_broadcast" => Act::Broadcast { cond: self.address(room)?.tree },
            b"gd_take" => Act::Take { monitor: self.number()? },
            b"gd_give" => Act::Give { monitor: self.number()? },
            _ => {
                self.at = start;
                return Ok(None);
            }
        };
        self.sign(")")?;
        Ok(Some(act))
    }

    fn null(&mut self) -> Parsed<()> {
        self.sign(",")?;
        self.word("NULL")
    }

    fn scanf(&mut self, room: u32) -> Parsed<Act> {
        if self.what_at(0) != Some(What::Text(b"%d")) {
            return self.syntax();
        }
        self.at += 1;
        self.sign(",")?;
        Ok(Act::Read { target: self.address(room)?.tree })
    }

    fn printf(&mut self, room: u32) -> Parsed<Act> {
        let Some(What::Text(text)) = self.what_at(0) else { return self.syntax() };
        self.at += 1;
        let format = owned(text);
        if self.is_sign(",") && room == 0 {
            return self.deep();
        }
        if !self.takes_sign(",") {
            self.sign(")")?;
            return Ok(Act::Print { format, args: Items::new() });
        }
        if self.is_sign(")") {
            return self.syntax();
        }
        Ok(Act::Print { format, args: self.arguments(room)? })
    }

    fn create(&mut self, room: u32) -> Parsed<Act> {
        let slot = self.address(room)?.tree;
        self.null()?;
        self.sign(",")?;
        let function = owned(self.name()?);
        self.sign(",")?;
        let arg = self.argument(room)?;
        if self.is_sign(")") && arg.levels > room {
            return self.deep();
        }
        Ok(Act::Create { slot, function, arg: arg.tree })
    }
}
