// A text to tokens. A defined name is a number from its definition on.

use std::collections::HashMap;

pub const MOST_TOKENS: usize = 65536;

#[derive(Clone, Copy, Debug, PartialEq)]
pub enum What<'t> {
    Word(&'t [u8]),
    Number(u32),
    Text(&'t [u8]),
    Sign(&'t [u8]),
    Define(&'t [u8]),
    Again,
}

#[derive(Clone, Copy, Debug)]
pub struct Token<'t> {
    pub line: u32,
    pub what: What<'t>,
}

#[derive(Clone, Copy, Debug, PartialEq)]
pub enum End {
    Text,
    Refused(&'static str, u32),
    Longer,
}

pub struct Lexer<'t> {
    text: &'t [u8],
    at: usize,
    line: u32,
    defined: HashMap<&'t [u8], u32>,
}

fn is_letter(b: u8) -> bool {
    b.is_ascii_alphabetic() || b == b'_'
}

fn is_word(b: u8) -> bool {
    is_letter(b) || b.is_ascii_digit()
}

fn is_space(b: u8) -> bool {
    b == b' ' || b == b'\t'
}

// The length of the front whose bytes are all so.
fn front(text: &[u8], so: impl Fn(u8) -> bool) -> usize {
    text.iter().position(|b| !so(*b)).unwrap_or(text.len())
}

// The place behind the next `*/`.
fn close(text: &[u8]) -> Option<usize> {
    text.windows(2).position(|w| w == b"*/").map(|k| k + 2)
}

fn number(word: &[u8]) -> Result<u32, &'static str> {
    if word.is_empty() || !word.iter().all(u8::is_ascii_digit) || (word[0] == b'0' && word.len() > 1) {
        return Err("BadNumber");
    }
    let mut value = 0u64;
    for b in word {
        value = (10 * value + u64::from(b - b'0')).min(1 << 40);
    }
    if value > 2147483647 {
        return Err("NumberTooLarge");
    }
    Ok(value as u32)
}

// The length of a text from its quote on.
fn quoted(text: &[u8]) -> Option<usize> {
    let mut at = 1;
    loop {
        let b = *text.get(at)?;
        let c = text.get(at + 1).copied().unwrap_or(0);
        match b {
            b'"' => return if at <= 121 { Some(at + 1) } else { None },
            b'\\' if b"nt\\\"".contains(&c) => at += 2,
            b'%' if c == b'd' || c == b'%' => at += 2,
            b'\\' | b'%' => return None,
            b' '..=b'~' => at += 1,
            _ => return None,
        }
    }
}

fn sign_len(text: &[u8]) -> usize {
    const TWO: [&[u8]; 13] =
        [b"==", b"!=", b"<=", b">=", b"+=", b"-=", b"*=", b"/=", b"%=", b"++", b"--", b"&&", b"||"];
    if TWO.iter().any(|s| text.starts_with(s)) {
        2
    } else if b"(){}[];,&*=<>+-/%!".contains(&text[0]) {
        1
    } else {
        0
    }
}

type Found<'t> = Result<Option<Token<'t>>, (&'static str, u32)>;

impl<'t> Lexer<'t> {
    pub fn new(text: &'t [u8]) -> Lexer<'t> {
        Lexer { text, at: 0, line: 1, defined: HashMap::new() }
    }

    fn rest(&self) -> &'t [u8] {
        &self.text[self.at..]
    }

    fn skip(&mut self, len: usize) {
        self.line += self.rest()[..len].iter().filter(|b| **b == b'\n').count() as u32;
        self.at += len;
    }

    // Steps over blanks and comments.
    fn blanks(&mut self) -> Result<(), (&'static str, u32)> {
        loop {
            let rest = self.rest();
            if rest.starts_with(b"/*") {
                let len = close(&rest[2..]).ok_or(("OpenComment", self.line))?;
                self.skip(2 + len);
            } else if rest.starts_with(b"//") {
                self.skip(front(rest, |b| b != b'\n'));
            } else {
                let len = front(rest, |b| is_space(b) || b == b'\r' || b == b'\n');
                if len == 0 {
                    return Ok(());
                }
                self.skip(len);
            }
        }
    }

    fn stands_first(&self) -> bool {
        let before = &self.text[..self.at];
        let spaces = before.iter().rev().take_while(|b| is_space(**b)).count();
        spaces == before.len() || before[before.len() - spaces - 1] == b'\n'
    }

    // The name, the number and the length of a definition, or what is wrong.
    fn definition(rest: &'t [u8]) -> Result<(&'t [u8], u32, usize), &'static str> {
        const BAD: &str = "BadLine";
        let text = rest.strip_prefix(b"#define").ok_or(BAD)?;
        let gap = front(text, is_space);
        let name = &text[gap..][..front(&text[gap..], is_word)];
        if gap == 0 || name.is_empty() || name.len() > 63 || !is_letter(name[0]) {
            return Err(BAD);
        }
        let mut at = gap + name.len();
        let space = front(&text[at..], is_space);
        at += space;
        let word = &text[at..][..front(&text[at..], is_word)];
        let value = number(word).map_err(|_| BAD)?;
        if space == 0 {
            return Err(BAD);
        }
        at += word.len();
        while at < text.len() && text[at] != b'\n' {
            if is_space(text[at]) || text[at] == b'\r' {
                at += 1;
            } else if text[at..].starts_with(b"//") {
                at += front(&text[at..], |b| b != b'\n');
            } else if text[at..].starts_with(b"/*") {
                let len = close(&text[at + 2..]).ok_or("OpenComment")?;
                if text[at..at + 2 + len].contains(&b'\n') {
                    return Err(BAD);
                }
                at += 2 + len;
            } else {
                return Err(BAD);
            }
        }
        Ok((name, value, 7 + at))
    }

    fn include_len(rest: &[u8]) -> Option<usize> {
        let text = rest.strip_prefix(b"#include")?;
        let gap = front(text, is_space);
        let headers: [&[u8]; 5] =
            [b"<pthread.h>", b"<stdio.h>", b"<stdlib.h>", b"<stdint.h>", b"<unistd.h>"];
        let header = headers.iter().find(|h| text[gap..].starts_with(h))?;
        Some(8 + gap + header.len())
    }

    fn word(&self, word: &'t [u8]) -> What<'t> {
        match self.defined.get(word) {
            Some(value) => What::Number(*value),
            None => What::Word(word),
        }
    }

    pub fn next(&mut self) -> Found<'t> {
        loop {
            self.blanks()?;
            if !self.rest().starts_with(b"#") {
                break;
            }
            let line = self.line;
            if !self.stands_first() {
                return Err(("BadLine", line));
            }
            if let Some(len) = Self::include_len(self.rest()) {
                self.skip(len);
                continue;
            }
            let (name, value, len) = Self::definition(self.rest()).map_err(|e| (e, line))?;
            self.skip(len);
            let again = self.defined.insert(name, value).is_some();
            let what = if again { What::Again } else { What::Define(name) };
            return Ok(Some(Token { line, what }));
        }
        let (rest, line) = (self.rest(), self.line);
        let Some(first) = rest.first() else { return Ok(None) };
        let (what, len) = if is_letter(*first) {
            let len = front(rest, is_word);
            if len > 63 {
                return Err(("LongName", line));
            }
            (self.word(&rest[..len]), len)
        } else if first.is_ascii_digit() {
            let len = front(rest, is_word);
            (What::Number(number(&rest[..len]).map_err(|e| (e, line))?), len)
        } else if *first == b'"' {
            let len = quoted(rest).ok_or(("BadText", line))?;
            (What::Text(&rest[1..len - 1]), len)
        } else {
            let len = sign_len(rest);
            if len == 0 {
                return Err(("BadByte", line));
            }
            (What::Sign(&rest[..len]), len)
        };
        self.skip(len);
        Ok(Some(Token { line, what }))
    }
}

pub fn tokens(text: &[u8]) -> (Vec<Token<'_>>, End) {
    let mut lexer = Lexer::new(text);
    let mut tokens = Vec::new();
    loop {
        match lexer.next() {
            Ok(Some(_)) if tokens.len() == MOST_TOKENS => return (tokens, End::Longer),
            Ok(Some(token)) => tokens.push(token),
            Ok(None) => return (tokens, End::Text),
            Err((error, line)) => return (tokens, End::Refused(error, line)),
        }
    }
}
