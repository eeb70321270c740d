//! A model of document 01's text reader, written from the document alone: tokens first, then one expression after another.
use judge::formula::{HEADS, Sort, has_dimension, part_count};

#[derive(Clone, PartialEq, Debug)]
pub enum Token {
    Open,
    Close,
    Word(Vec<u8>),
}

/// Parentheses and runs of other bytes; bytes 32 and 10 separate.
pub fn tokens(text: &[u8]) -> Vec<Token> {
    let mut found = vec![];
    let mut word = vec![];
    for b in text.iter().copied().chain([b' ']) {
        if !matches!(b, b' ' | b'\n' | b'(' | b')') {
            word.push(b);
            continue;
        }
        if !word.is_empty() {
            found.push(Token::Word(std::mem::take(&mut word)));
        }
        match b {
            b'(' => found.push(Token::Open),
            b')' => found.push(Token::Close),
            _ => {}
        }
    }
    found
}

/// What was read, or the number of the refusal.
pub type Outcome<T> = Result<T, u8>;

const NOT_ACCEPTED: u8 = 11;
const MOST_NODES: usize = 511;
const LAST_DIMENSION: usize = 254;

struct Reader {
    tokens: Vec<Token>,
    next: usize,
}

impl Reader {
    fn token(&mut self) -> Outcome<Token> {
        let found = self.tokens.get(self.next).cloned().ok_or(NOT_ACCEPTED);
        self.next += 1;
        found
    }
    fn close(&mut self) -> Outcome<()> {
        if self.token()? == Token::Close { Ok(()) } else { Err(NOT_ACCEPTED) }
    }
    fn number(&mut self, most: usize) -> Outcome<usize> {
        let mut successors = 0;
        let mut lists = 0;
        loop {
            match self.token()? {
                Token::Word(w) if w == b"z" => break,
                Token::Open => {}
                _ => return Err(NOT_ACCEPTED),
            }
            lists += 1;
            match self.token()? {
                Token::Word(w) if w == b"z" => break,
                Token::Word(w) if w == b"s" => successors += 1,
                _ => return Err(NOT_ACCEPTED),
            }
            if successors > most {
                return Err(4);
            }
        }
        for _ in 0..lists {
            self.close()?;
        }
        Ok(successors)
    }
    fn formula(&mut self, sort: Sort, nodes: &mut usize, out: &mut Vec<u8>) -> Outcome<()> {
        let (token, bare) = match self.token()? {
            Token::Open => (self.token()?, false),
            other => (other, true),
        };
        let Token::Word(word) = token else { return Err(NOT_ACCEPTED) };
        let known = HEADS.iter().find(|(kind, head)| sort.has(*kind) && head.as_bytes() == word);
        let Some(&(kind, _)) = known else { return Err(NOT_ACCEPTED) };
        let constant = part_count(kind) == 0 && !has_dimension(kind);
        if bare && !constant {
            return Err(NOT_ACCEPTED);
        }
        *nodes += 1;
        if *nodes > MOST_NODES {
            return Err(3);
        }
        out.push(kind);
        if has_dimension(kind) {
            out.push(self.number(LAST_DIMENSION)? as u8);
        }
        for _ in 0..part_count(kind) {
            self.formula(sort, nodes, out)?;
        }
        if bare { Ok(()) } else { self.close() }
    }
    fn end(&self) -> Outcome<()> {
        if self.next == self.tokens.len() { Ok(()) } else { Err(NOT_ACCEPTED) }
    }
}

/// The bytes of the formula that the text is.
pub fn formula(sort: Sort, text: &[u8]) -> Outcome<Vec<u8>> {
    let mut reader = Reader { tokens: tokens(text), next: 0 };
    let mut out = vec![];
    reader.formula(sort, &mut 0, &mut out)?;
    reader.end()?;
    Ok(out)
}

/// d and the bytes of both faces.
pub type Claim = (usize, Vec<u8>, Vec<u8>);

/// The claim that the text is.
pub fn claim(text: &[u8]) -> Outcome<Claim> {
    let mut reader = Reader { tokens: tokens(text), next: 0 };
    if reader.token()? != Token::Word(b"entails".to_vec()) {
        return Err(NOT_ACCEPTED);
    }
    let d = reader.number(LAST_DIMENSION + 1)?;
    let (mut a, mut b) = (vec![], vec![]);
    reader.formula(Sort::Face, &mut 0, &mut a)?;
    reader.formula(Sort::Face, &mut 0, &mut b)?;
    reader.end()?;
    Ok((d, a, b))
}
