// The tokens of a text, and what a parser asks of them.

use crate::items::Items;
use crate::lexer::{End, Token, What};
use crate::tree::Name;

#[derive(Clone, Copy, Debug, PartialEq)]
pub enum Failure {
    Lex(&'static str, u32),
    Syntax(u32),
    TooDeep(u32),
    TooManyTokens,
}

pub type Parsed<T> = Result<T, Failure>;

/// A value with the number of levels that it takes.
pub struct Tall<T> {
    pub tree: T,
    pub levels: u32,
}

/// Which words of the grammar are defined.
#[derive(Clone, Copy, Default)]
pub struct Defined {
    pub int: bool,
    pub void: bool,
    pub long: bool,
    pub int_pointer: bool,
    pub null: bool,
    pub threads: bool,
    pub mutexes: bool,
    pub conditions: bool,
    pub ready_mutexes: bool,
    pub ready_conditions: bool,
}

pub struct Parser<'t> {
    pub tokens: Vec<Token<'t>>,
    pub at: usize,
    pub end: End,
    pub last_line: u32,
    pub defined: Defined,
}

const KEYWORDS: [&str; 37] = [
    "auto", "break", "case", "char", "const", "continue", "default", "do", "double", "else", "enum",
    "extern", "float", "for", "goto", "if", "inline", "int", "long", "register", "restrict", "return",
    "short", "signed", "sizeof", "static", "struct", "switch", "typedef", "union", "unsigned", "void",
    "volatile", "while", "_Bool", "_Complex", "_Imaginary",
];

// The names that the grammar spells out, but for `main` and `k`: none of them is called.
const SPELLED: [&str; 21] = [
    "NULL", "intptr_t", "printf", "scanf", "pthread_t", "pthread_mutex_t", "pthread_cond_t",
    "PTHREAD_MUTEX_INITIALIZER", "PTHREAD_COND_INITIALIZER", "pthread_create", "pthread_join",
    "pthread_mutex_init", "pthread_cond_init", "pthread_mutex_lock", "pthread_mutex_unlock",
    "pthread_cond_wait", "pthread_cond_signal", "pthread_cond_broadcast", "gd_cap", "gd_take", "gd_give",
];

// Whether some word of a table is spelled so; most words aren't as long as any of it.
fn is_in(table: &[&str], word: &[u8]) -> bool {
    table.iter().any(|w| w.len() == word.len() && w.as_bytes() == word)
}

pub fn name_of<'t>(what: What<'t>) -> Option<&'t [u8]> {
    match what {
        What::Word(word) if !is_in(&KEYWORDS, word) => Some(word),
        _ => None,
    }
}

pub fn owned(name: &[u8]) -> Name {
    Items(name.to_vec())
}

impl<'t> Parser<'t> {
    pub fn what_at(&self, ahead: usize) -> Option<What<'t>> {
        self.tokens.get(self.at + ahead).map(|t| t.what)
    }

    /// A fault of the next token, or of the end of the text.
    pub fn fault(&self, deep: bool) -> Failure {
        match self.tokens.get(self.at) {
            Some(token) if deep => Failure::TooDeep(token.line),
            Some(token) => Failure::Syntax(token.line),
            None => match self.end {
                End::Text => Failure::Syntax(self.last_line),
                End::Refused(error, line) => Failure::Lex(error, line),
                End::Longer => Failure::TooManyTokens,
            },
        }
    }

    pub fn syntax<T>(&self) -> Parsed<T> {
        Err(self.fault(false))
    }

    pub fn deep<T>(&self) -> Parsed<T> {
        Err(self.fault(true))
    }

    pub fn is_sign_at(&self, ahead: usize, sign: &str) -> bool {
        matches!(self.what_at(ahead), Some(What::Sign(s)) if s == sign.as_bytes())
    }

    pub fn is_sign(&self, sign: &str) -> bool {
        self.is_sign_at(0, sign)
    }

    pub fn is_word_at(&self, ahead: usize, word: &str) -> bool {
        matches!(self.what_at(ahead), Some(What::Word(w)) if w == word.as_bytes())
    }

    pub fn is_word(&self, word: &str) -> bool {
        self.is_word_at(0, word)
    }

    pub fn line(&self) -> u32 {
        self.tokens.get(self.at).map_or(self.last_line, |t| t.line)
    }

    pub fn sign(&mut self, sign: &str) -> Parsed<()> {
        if !self.is_sign(sign) {
            return self.syntax();
        }
        self.at += 1;
        Ok(())
    }

    pub fn word(&mut self, word: &str) -> Parsed<()> {
        if !self.is_word(word) {
            return self.syntax();
        }
        self.at += 1;
        Ok(())
    }

    pub fn takes_sign(&mut self, sign: &str) -> bool {
        let is = self.is_sign(sign);
        self.at += usize::from(is);
        is
    }

    pub fn takes_word(&mut self, word: &str) -> bool {
        let is = self.is_word(word);
        self.at += usize::from(is);
        is
    }

    /// The sign behind an expression, which may take so many levels and takes these.
    pub fn close(&mut self, sign: &str, room: u32, levels: u32) -> Parsed<()> {
        if self.is_sign(sign) && levels > room {
            return self.deep();
        }
        self.sign(sign)
    }

    /// The next token as a name, which is not read yet.
    pub fn name_ahead(&self, ahead: usize) -> Option<&'t [u8]> {
        self.what_at(ahead).and_then(name_of)
    }

    pub fn name(&mut self) -> Parsed<&'t [u8]> {
        match self.name_ahead(0) {
            Some(name) => {
                self.at += 1;
                Ok(name)
            }
            None => self.syntax(),
        }
    }

    pub fn number(&mut self) -> Parsed<u32> {
        match self.what_at(0) {
            Some(What::Number(value)) => {
                self.at += 1;
                Ok(value)
            }
            _ => self.syntax(),
        }
    }

    /// Whether the next token is a name that may be called.
    pub fn is_callable(&self) -> bool {
        self.name_ahead(0).is_some_and(|name| !is_in(&SPELLED, name))
    }

    pub fn casts(&self) -> bool {
        !self.defined.long || !self.defined.int_pointer
    }
}
