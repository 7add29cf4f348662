//! The tokens of a rules text, with their lines.

#[derive(Clone, Copy, Debug, PartialEq)]
pub enum Token<'a> {
    Mark(u8),
    Quoted(&'a str),
    Word(&'a str),
    LineEnd,
    End,
    Bad,
}

pub struct Piece<'a> {
    pub token: Token<'a>,
    pub line: u64,
}

const MARKS: &[u8] = b"{}()<>,!=";
/// Which bytes words are made of.
const WORDS: [bool; 256] = word_bytes();

const fn word_bytes() -> [bool; 256] {
    let mut found = [false; 256];
    let mut byte = 33;
    while byte <= 126 {
        found[byte] = !matches!(byte as u8, b'{' | b'}' | b'(' | b')' | b'<' | b'>' | b',' | b'!' | b'=' | b'#' | b'"' | b'\\');
        byte += 1;
    }
    found
}

/// How many bytes from the first one on are of a kind.
fn run(bytes: &[u8], is_part: impl Fn(u8) -> bool) -> usize {
    bytes.iter().position(|it| !is_part(*it)).unwrap_or(bytes.len())
}

/// The token at the front of the bytes that are left, which are no blanks, and how many bytes it has.
fn front(left: &str) -> (Token<'_>, usize) {
    let bytes = left.as_bytes();
    let first = bytes[0];
    if WORDS[usize::from(first)] {
        let length = run(bytes, |it| WORDS[usize::from(it)]);
        return (Token::Word(&left[..length]), length);
    }
    if MARKS.contains(&first) {
        return (Token::Mark(first), 1);
    }
    if first == b'"' {
        let length = run(&bytes[1..], |it| it != b'"' && it != b'\n');
        if bytes.get(length + 1) == Some(&b'"') {
            return (Token::Quoted(&left[1..=length]), length + 2);
        }
    }
    (Token::Bad, left.chars().next().map_or(1, char::len_utf8))
}

/// All tokens of a text; the last is its end.
pub fn split(text: &str) -> Vec<Piece<'_>> {
    let bytes = text.as_bytes();
    let (mut found, mut place, mut line, mut is_busy) = (Vec::new(), 0, 1, false);
    while let Some(byte) = bytes.get(place) {
        match byte {
            b' ' | b'\t' | b'\r' => place += 1,
            b'#' => place += run(&bytes[place..], |it| it != b'\n'),
            b'\\' if bytes.get(place + 1) == Some(&b'\n') => {
                place += 2;
                line += 1;
            }
            b'\n' => {
                found.push(Piece { token: Token::LineEnd, line });
                place += 1;
                line += 1;
                is_busy = false;
            }
            _ => {
                let (token, length) = front(&text[place..]);
                found.push(Piece { token, line });
                place += length;
                is_busy = true;
            }
        }
    }
    if is_busy {
        found.push(Piece { token: Token::LineEnd, line });
    }
    found.push(Piece { token: Token::End, line });
    found
}
