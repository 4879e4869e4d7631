//! The same tokens by a plain loop: lexes standard input several times, and prints how many tokens it has, their bytes,
//! and the least time in µs.

use std::error::Error;
use std::io::{self, Read};
use std::time::Instant;

const RUNS: u32 = 10;

#[derive(Clone, Copy)]
#[allow(dead_code)]
enum Kind {
    Word,
    Number,
    Text,
    Sign,
}

#[allow(dead_code)]
struct Token {
    kind: Kind,
    at: u32,
    len: u32,
}

enum Fault {
    BadChar(usize),
    OpenText(usize),
}

fn is_word(byte: u8) -> bool {
    byte.is_ascii_alphanumeric() || byte == b'_'
}

/// The end of the quoted text whose opening quote stands at this place.
fn end_of_text(bytes: &[u8], at: usize) -> Result<usize, Fault> {
    let (mut end, mut is_plain) = (at + 1, true);
    while end < bytes.len() {
        match bytes[end] {
            b'\'' if bytes.get(end + 1) == Some(&b'\'') => end += 2,
            b'\'' if is_plain => return Ok(end + 1),
            b'\'' => return Err(Fault::BadChar(at)),
            byte => {
                is_plain &= byte >= 0x20 && byte != 0x7f;
                end += 1;
            }
        }
    }
    Err(Fault::OpenText(at))
}

fn lex(text: &str) -> Result<Vec<Token>, Fault> {
    let bytes = text.as_bytes();
    let mut tokens = Vec::new();
    let mut at = 0;
    while at < bytes.len() {
        let mut end = at + 1;
        let kind = match bytes[at] {
            b' ' | b'\t' | b'\n' => {
                at += 1;
                continue;
            }
            byte if byte.is_ascii_alphabetic() || byte == b'_' => {
                while end < bytes.len() && is_word(bytes[end]) {
                    end += 1;
                }
                Kind::Word
            }
            byte if byte.is_ascii_digit() => {
                while end < bytes.len() && bytes[end].is_ascii_digit() {
                    end += 1;
                }
                Kind::Number
            }
            b'\'' => {
                end = end_of_text(bytes, at)?;
                Kind::Text
            }
            b'-' if bytes.get(end) == Some(&b'-') => {
                while at < bytes.len() && bytes[at] != b'\n' {
                    at += 1;
                }
                continue;
            }
            byte => {
                match (byte, bytes.get(end)) {
                    (b'<', Some(b'>' | b'=')) | (b'!' | b'>', Some(b'=')) => end += 1,
                    (b'(' | b')' | b',' | b';' | b'.' | b'*' | b'+' | b'-' | b'/', _) => {}
                    (b'=' | b'<' | b'>' | b'?' | b':', _) => {}
                    _ => return Err(Fault::BadChar(at)),
                }
                Kind::Sign
            }
        };
        tokens.push(Token { kind, at: at as u32, len: (end - at) as u32 });
        at = end;
    }
    Ok(tokens)
}

fn main() -> Result<(), Box<dyn Error>> {
    let mut text = String::new();
    io::stdin().read_to_string(&mut text)?;
    let (mut least, mut count, mut bytes) = (u128::MAX, 0, 0);
    for _ in 0..RUNS {
        let began = Instant::now();
        let tokens = lex(&text);
        let micros = began.elapsed().as_micros();
        match tokens {
            Ok(tokens) => {
                count = tokens.len();
                bytes = tokens.iter().map(|token| u64::from(token.len)).sum();
                least = least.min(micros);
            }
            Err(Fault::BadChar(at)) => return Err(format!("bad character at {at}").into()),
            Err(Fault::OpenText(at)) => return Err(format!("open text at {at}").into()),
        }
    }
    println!("{count} tokens, {bytes} bytes, {least} us");
    Ok(())
}
