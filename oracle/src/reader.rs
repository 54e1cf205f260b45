//! Reader of a line: one token ahead, with the pieces SHAPE, LAYOUT, POINT, LIST, WAY and numbers.

use crate::layout::Layout;
use crate::shape::Shape;
use crate::token::{token_at, Placed, Token};

/// The column, counted from 1, of the first token that the grammar does not accept.
#[derive(Clone, Copy, Debug, PartialEq, Eq)]
pub struct Unreadable {
    pub column: usize,
}

pub struct Reader<'a> {
    pub line: &'a [u8],
    pub ahead: Placed<'a>,
}

impl<'a> Reader<'a> {
    pub fn new(line: &'a [u8]) -> Reader<'a> {
        let ahead = token_at(line, 0);
        Reader { line, ahead }
    }

    /// The column of the token ahead; at the end of the line its length + 1.
    pub fn column(&self) -> usize {
        self.ahead.start + 1
    }

    pub fn at_end(&self) -> bool {
        self.ahead.token == Token::End
    }

    pub fn end(&self) -> Result<(), Unreadable> {
        if self.at_end() {
            return Ok(());
        }
        self.unreadable()
    }

    pub fn word(&mut self) -> Result<&'a [u8], Unreadable> {
        if let Token::Word(word) = self.ahead.token {
            self.advance();
            return Ok(word);
        }
        self.unreadable()
    }

    /// A number for an unsigned place: a negative one is handed on as 2^64 - 1.
    pub fn unsigned(&mut self) -> Result<u64, Unreadable> {
        if let Token::Number(number) = self.ahead.token {
            self.advance();
            return Ok(u64::try_from(number).unwrap_or(u64::MAX));
        }
        self.unreadable()
    }

    /// A number that is unreadable outside 0 .. largest.
    pub fn at_most(&mut self, largest: i64) -> Result<u64, Unreadable> {
        match self.ahead.token {
            Token::Number(number) if (0..=largest).contains(&number) => self.unsigned(),
            _ => self.unreadable(),
        }
    }

    pub fn shape(&mut self) -> Result<Shape, Unreadable> {
        let sizes = self.list(b'[', b']')?;
        Ok(Shape { sizes })
    }

    pub fn point(&mut self) -> Result<Vec<u64>, Unreadable> {
        self.list(b'(', b')')
    }

    /// A list of dimension numbers.
    pub fn dimensions(&mut self) -> Result<Vec<u64>, Unreadable> {
        self.list(b'{', b'}')
    }

    /// The way ahead: a run of letters and `-` that starts with a letter.
    pub fn way(&self) -> Option<&'a [u8]> {
        if !matches!(self.ahead.token, Token::Word(_)) {
            return None;
        }
        let behind = &self.line[self.ahead.start..];
        let part_of_it = |byte: &&u8| byte.is_ascii_alphabetic() || **byte == b'-';
        Some(&behind[..behind.iter().take_while(part_of_it).count()])
    }

    pub fn go_past_way(&mut self) {
        let length = self.way().map_or(0, <[u8]>::len);
        self.ahead = token_at(self.line, self.ahead.start + length);
    }

    pub fn layout(&mut self) -> Result<Layout, Unreadable> {
        self.symbol(b'{')?;
        let minor_to_major = self.numbers()?;
        let mut tiles = Vec::new();
        if self.ahead.token == Token::Symbol(b':') {
            self.advance();
            self.tile_mark()?;
            tiles.push(self.list(b'(', b')')?);
            while self.ahead.token == Token::Symbol(b'(') {
                tiles.push(self.list(b'(', b')')?);
            }
        }
        self.symbol(b'}')?;
        Ok(Layout {
            minor_to_major,
            tiles,
        })
    }

    /// The word T that stands before the tiles.
    fn tile_mark(&mut self) -> Result<(), Unreadable> {
        if self.ahead.token == Token::Word(b"T") {
            self.advance();
            return Ok(());
        }
        self.unreadable()
    }

    fn list(&mut self, open: u8, close: u8) -> Result<Vec<u64>, Unreadable> {
        self.symbol(open)?;
        let numbers = self.numbers()?;
        self.symbol(close)?;
        Ok(numbers)
    }

    /// No number, or numbers with commas between them.
    fn numbers(&mut self) -> Result<Vec<u64>, Unreadable> {
        let mut numbers = Vec::new();
        if !matches!(self.ahead.token, Token::Number(_)) {
            return Ok(numbers);
        }
        numbers.push(self.unsigned()?);
        while self.ahead.token == Token::Symbol(b',') {
            self.advance();
            numbers.push(self.unsigned()?);
        }
        Ok(numbers)
    }

    pub fn is_ahead(&self, symbol: u8) -> bool {
        self.ahead.token == Token::Symbol(symbol)
    }

    /// Whether a number is ahead and the token behind it is the symbol.
    pub fn is_number_before(&self, symbol: u8) -> bool {
        let behind = token_at(self.line, self.ahead.end);
        matches!(self.ahead.token, Token::Number(_)) && behind.token == Token::Symbol(symbol)
    }

    /// Goes past the symbol if it is ahead, and says so.
    pub fn skip(&mut self, symbol: u8) -> bool {
        let ahead = self.is_ahead(symbol);
        if ahead {
            self.advance();
        }
        ahead
    }

    pub fn symbol(&mut self, symbol: u8) -> Result<(), Unreadable> {
        if self.ahead.token == Token::Symbol(symbol) {
            self.advance();
            return Ok(());
        }
        self.unreadable()
    }

    pub fn advance(&mut self) {
        self.ahead = token_at(self.line, self.ahead.end);
    }

    pub fn unreadable<T>(&self) -> Result<T, Unreadable> {
        Err(Unreadable {
            column: self.column(),
        })
    }
}
