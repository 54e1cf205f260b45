//! Reader of a line: the tokens that only maps have, and signed numbers.

use crate::map::Variable;
use crate::reader::{Reader, Unreadable};
use crate::token::{token_at, Token};

impl Reader<'_> {
    /// A number with its sign.
    pub fn signed(&mut self) -> Result<i128, Unreadable> {
        if let Token::Number(number) = self.ahead.token {
            self.advance();
            return Ok(i128::from(number));
        }
        self.unreadable()
    }

    /// A number without a sign.
    pub fn digits(&mut self) -> Result<i128, Unreadable> {
        if self.byte(0) == Some(b'-') {
            return self.unreadable();
        }
        self.signed()
    }

    /// No number, or signed numbers with commas between them, in brackets.
    pub fn signed_list(&mut self, open: u8, close: u8) -> Result<Vec<i128>, Unreadable> {
        let mut numbers = Vec::new();
        self.symbol(open)?;
        if self.skip(close) {
            return Ok(numbers);
        }
        loop {
            numbers.push(self.signed()?);
            if !self.skip(b',') {
                self.symbol(close)?;
                return Ok(numbers);
            }
        }
    }

    pub fn is_word_ahead(&self, word: &[u8]) -> bool {
        self.ahead.token == Token::Word(word)
    }

    /// Goes past the word if it is ahead, and says so.
    pub fn skip_word(&mut self, word: &[u8]) -> bool {
        let ahead = self.is_word_ahead(word);
        if ahead {
            self.advance();
        }
        ahead
    }

    pub fn exact_word(&mut self, word: &[u8]) -> Result<(), Unreadable> {
        if self.skip_word(word) {
            return Ok(());
        }
        self.unreadable()
    }

    /// Goes past a minus between two operands: any `-`, also one with a digit behind it.
    pub fn skip_minus(&mut self) -> bool {
        let ahead = self.byte(0) == Some(b'-');
        if ahead {
            self.ahead = token_at(self.line, self.ahead.start + 1);
        }
        ahead
    }

    /// Goes past a sign before an operand: a `-` that is no part of a number.
    pub fn skip_sign(&mut self) -> bool {
        let digit_behind = matches!(self.byte(1), Some(b'0'..=b'9'));
        !digit_behind && self.skip_minus()
    }

    /// Goes past `->`, whose two bytes stand together.
    pub fn arrow(&mut self) -> Result<(), Unreadable> {
        if self.byte(0) == Some(b'-') && self.byte(1) == Some(b'>') {
            self.ahead = token_at(self.line, self.ahead.start + 2);
            return Ok(());
        }
        self.unreadable()
    }

    /// Goes past a variable: the word d or s and the digits directly behind it.
    pub fn skip_variable(&mut self) -> Option<Variable> {
        let (variable, end) = self.variable_ahead()?;
        self.ahead = token_at(self.line, end);
        Some(variable)
    }

    pub fn exact_variable(&mut self, variable: Variable) -> Result<(), Unreadable> {
        match self.variable_ahead() {
            Some((ahead, end)) if ahead == variable => {
                self.ahead = token_at(self.line, end);
                Ok(())
            }
            _ => self.unreadable(),
        }
    }

    /// The variable ahead, and the place behind its last digit.
    fn variable_ahead(&self) -> Option<(Variable, usize)> {
        let kind = match self.ahead.token {
            Token::Word(b"d") => Variable::Dimension,
            Token::Word(b"s") => Variable::Range,
            _ => return None,
        };
        let behind = &self.line[self.ahead.end..];
        let digits = behind.iter().take_while(|byte| byte.is_ascii_digit());
        let mut length = 0;
        let mut number: usize = 0;
        for digit in digits {
            length += 1;
            // Past any count of variables the exact number no longer matters.
            number = (number * 10 + usize::from(digit - b'0')).min(1 << 32);
        }
        (length > 0).then_some((kind(number), self.ahead.end + length))
    }

    /// The byte at a distance from the start of the token ahead.
    fn byte(&self, distance: usize) -> Option<u8> {
        self.line.get(self.ahead.start + distance).copied()
    }
}
