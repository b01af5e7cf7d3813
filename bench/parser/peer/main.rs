// The same parser written without proofs, to measure and to compare with.
//
//   peer answers FILE          the answer to each text of FILE; texts are parted by bytes 0
//   peer time FILE COUNT       parses the whole FILE so often, and prints the microseconds for one time
//   peer deep COUNT            writes texts at the innermost levels, each with so many changes of it
//   peer mutate COUNT FILE..   writes so many changed texts of each FILE, parted by bytes 0
//   peer ordinary BYTES        writes an ordinary program of so many bytes

mod deep;
mod expressions;
mod items;
mod lexer;
mod library;
mod mutate;
mod ordinary;
mod outer;
mod parser;
mod statements;
mod tree;

use outer::parse;
use parser::Failure;
use std::io::Write;
use std::time::Instant;

fn answer(text: &[u8]) -> String {
    match parse(text) {
        Ok(program) => format!("Ok({program:?})"),
        Err(Failure::Lex(kind, line)) => format!("Err(Lex({kind} {{ line: {line} }}))"),
        Err(Failure::Syntax(line)) => format!("Err(Syntax {{ line: {line} }})"),
        Err(Failure::TooDeep(line)) => format!("Err(TooDeep {{ line: {line} }})"),
        Err(Failure::TooManyTokens) => "Err(TooManyTokens)".to_string(),
    }
}

fn time(text: &[u8], count: u32) -> u128 {
    let mut read = 0;
    let start = Instant::now();
    for _ in 0..count {
        read += u32::from(std::hint::black_box(parse(std::hint::black_box(text))).is_ok());
    }
    let microseconds = start.elapsed().as_micros() / u128::from(count);
    assert!(read == count || read == 0);
    microseconds
}

fn main() -> std::io::Result<()> {
    let words: Vec<String> = std::env::args().skip(1).collect();
    let mut out = std::io::stdout().lock();
    match words[0].as_str() {
        "answers" => {
            for text in std::fs::read(&words[1])?.split(|b| *b == 0) {
                writeln!(out, "{}", answer(text))?;
            }
        }
        "time" => {
            let text = std::fs::read(&words[1])?;
            writeln!(out, "{}", time(&text, words[2].parse().unwrap()))?;
        }
        "deep" => deep::write(&mut out, words[1].parse().unwrap())?,
        "mutate" => {
            let count = words[1].parse().unwrap();
            for file in &words[2..] {
                mutate::write(&mut out, &std::fs::read(file)?, count)?;
            }
        }
        _ => out.write_all(&ordinary::program(words[1].parse().unwrap()))?,
    }
    Ok(())
}
