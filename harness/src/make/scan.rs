//! A line of a chart as words and signs.

use super::Error;
use crate::package::Lit;
use crate::show::exprs::literal;
use crate::show::words::reserved;

#[derive(Debug, Clone, PartialEq)]
pub enum Token {
    Name(String),
    /// A reserved word or a sign.
    Word(String),
    Literal(Lit),
}

impl Token {
    pub fn is(&self, word: &str) -> bool {
        matches!(self, Token::Word(w) if w == word)
    }

    /// As an error quotes it.
    pub fn text(&self) -> String {
        match self {
            Token::Name(n) => format!("the name {n}"),
            Token::Word(w) => format!("`{w}`"),
            Token::Literal(lit) => literal(*lit),
        }
    }
}

/// Longer signs first.
const SIGNS: [&str; 24] = [
    "=>", "<>", "<=", ">=", "->", ":>", "=", "<", ">", "+", "-", "*", "/", "(", ")", "[", "]", "{", "}", ",", ";", ":",
    ".", "^",
];

/// The tokens of a line; `--` begins a comment.
pub fn tokens(line: &str, number: usize) -> Result<Vec<Token>, Error> {
    let mut rest = line.trim_start();
    let mut tokens = Vec::new();
    while !rest.is_empty() && !rest.starts_with("--") {
        // After an operand a minus is an operation, elsewhere it may belong to a number.
        let operand = tokens.last().is_some_and(ends_operand);
        let (token, length) = token(rest, operand).map_err(|says| Error { line: number, says })?;
        tokens.push(token);
        rest = rest[length..].trim_start();
    }
    Ok(tokens)
}

fn ends_operand(token: &Token) -> bool {
    match token {
        Token::Name(_) | Token::Literal(_) => true,
        Token::Word(w) => matches!(w.as_str(), ")" | "]" | "}"),
    }
}

/// The first token and its length.
fn token(text: &str, operand: bool) -> Result<(Token, usize), String> {
    let bytes = text.as_bytes();
    let negative = !operand && bytes[0] == b'-' && bytes.get(1).is_some_and(u8::is_ascii_digit);
    match bytes[0] {
        b if b.is_ascii_digit() || negative => number(text),
        b if b.is_ascii_alphabetic() || b == b'_' => {
            let word = &text[..word_length(text)];
            let token = if reserved(word) { Token::Word(word.into()) } else { Token::Name(word.into()) };
            Ok((token, word.len()))
        }
        b'`' => quoted_name(text),
        b'\'' => character(text),
        b'#' => bits(text),
        _ => match SIGNS.iter().find(|sign| text.starts_with(**sign)) {
            Some(sign) => Ok((Token::Word(sign.to_string()), sign.len())),
            None => Err(format!("expected a name, a number or a sign, found {:?}", text.chars().next().unwrap())),
        },
    }
}

fn word_length(text: &str) -> usize {
    text.bytes().take_while(|b| b.is_ascii_alphanumeric() || *b == b'_').count()
}

fn quoted_name(text: &str) -> Result<(Token, usize), String> {
    let length = word_length(&text[1..]);
    if length == 0 || text.as_bytes().get(1 + length) != Some(&b'`') {
        return Err("expected letters, digits, underscores and a closing backquote after a backquote".into());
    }
    Ok((Token::Name(text[1..1 + length].into()), length + 2))
}

/// An integer, or with a point or an exponent a float.
fn number(text: &str) -> Result<(Token, usize), String> {
    let digits = |from: usize| text[from..].bytes().take_while(u8::is_ascii_digit).count();
    let mut end = text.starts_with('-') as usize;
    end += digits(end);
    let whole = end;
    if text[end..].starts_with('.') && digits(end + 1) > 0 {
        end += 1 + digits(end + 1);
    }
    if text[end..].starts_with(['e', 'E']) {
        let sign = text[end + 1..].starts_with(['-', '+']) as usize;
        end += 1 + sign + digits(end + 1 + sign);
    }
    let word = &text[..end];
    if word_length(&text[end..]) > 0 {
        return Err(format!("expected a number, found {}; a name that begins with a digit stands in backquotes", text));
    }
    let literal = if end == whole {
        word.parse().ok().map(Lit::Int)
    } else {
        word.parse().ok().map(|f: f64| Lit::Float(f.to_bits()))
    };
    literal.map(|lit| (Token::Literal(lit), end)).ok_or(format!("expected a number of 64 bits, found {word}"))
}

/// `'a'` or `'\x1f'`.
fn character(text: &str) -> Result<(Token, usize), String> {
    let inside = text[1..].split_once('\'').map(|(inside, _)| inside);
    let value = inside.and_then(|inside| match inside.as_bytes() {
        [b] if b.is_ascii_graphic() => Some(*b),
        [b'\\', b'x', ..] if inside.len() == 4 => u8::from_str_radix(&inside[2..], 16).ok(),
        _ => None,
    });
    let token = value.map(|value| (Token::Literal(Lit::Char(value)), inside.map_or(0, str::len) + 2));
    token.ok_or("expected a character as 'a' or '\\x1f'".into())
}

/// `#` and 16 hexadecimal digits: a float by its bits.
fn bits(text: &str) -> Result<(Token, usize), String> {
    let value = text.get(1..17).and_then(|digits| u64::from_str_radix(digits, 16).ok());
    let token = value.map(|bits| (Token::Literal(Lit::Float(bits)), 17));
    token.ok_or("expected 16 hexadecimal digits after #".into())
}
