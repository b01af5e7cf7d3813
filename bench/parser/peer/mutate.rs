// Changes of a text: one or two of its tokens are deleted, doubled or exchanged for another.

use std::io::{Result, Write};

pub struct Random(pub u64);

impl Random {
    pub fn below(&mut self, bound: usize) -> usize {
        self.0 = self.0.wrapping_mul(6364136223846793005).wrapping_add(1442695040888963407);
        ((self.0 >> 33) as usize) % bound
    }
}

// What may stand in place of a token beside the tokens of the text.
const OTHERS: [&str; 40] = [
    "int", "void", "static", "if", "else", "while", "for", "return", "break", "long", "intptr_t", "NULL",
    "main", "k", "gd_cap", "gd_take", "printf", "pthread_t", "pthread_mutex_t", "(", ")", "{", "}", "[",
    "]", ";", ",", "=", "++", "--", "+", "-", "*", "!", "&", "&&", "0", "\"%d\"", "@", "\n#define x 1\n",
];

fn is_word(b: u8) -> bool {
    b.is_ascii_alphanumeric() || b == b'_'
}

// The text in pieces: words, blanks, texts in quotes, and single bytes.
fn pieces(text: &[u8]) -> Vec<&[u8]> {
    let mut all = Vec::new();
    let mut rest = text;
    while let Some(first) = rest.first() {
        let len = if is_word(*first) {
            rest.iter().position(|b| !is_word(*b)).unwrap_or(rest.len())
        } else if first.is_ascii_whitespace() {
            rest.iter().position(|b| !b.is_ascii_whitespace()).unwrap_or(rest.len())
        } else if *first == b'"' {
            rest[1..].iter().position(|b| *b == b'"').map_or(1, |k| k + 2)
        } else {
            1
        };
        let (piece, more) = rest.split_at(len);
        all.push(piece);
        rest = more;
    }
    all
}

fn changed<'t>(pieces: &[&'t [u8]], random: &mut Random) -> Vec<&'t [u8]> {
    let mut all = pieces.to_vec();
    for _ in 0..1 + random.below(2) {
        let place = random.below(all.len());
        match random.below(4) {
            0 => {
                all.remove(place);
            }
            1 => all.insert(place, all[place]),
            2 => all[place] = pieces[random.below(pieces.len())],
            _ => all[place] = OTHERS[random.below(OTHERS.len())].as_bytes(),
        }
    }
    if random.below(8) == 0 {
        all.truncate(1 + random.below(all.len()));
    }
    all
}

pub fn write(out: &mut impl Write, text: &[u8], count: usize) -> Result<()> {
    let all = pieces(text);
    let mut random = Random(text.len() as u64);
    out.write_all(text)?;
    out.write_all(b"\0")?;
    for _ in 0..count {
        out.write_all(&changed(&all, &mut random).concat())?;
        out.write_all(b"\0")?;
    }
    Ok(())
}
