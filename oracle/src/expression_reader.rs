//! Reader of an expression of a map into a tree in postfix order, without recursion.

use crate::map::{Node, Tree};
use crate::reader::{Reader, Unreadable};

/// What waits for the operand that is being read, with the place in the tree where that operand starts.
enum Waiting {
    Parenthesis,
    Sign(usize),
    Plus,
    Minus(usize),
}

struct Expression {
    tree: Tree,
    waiting: Vec<Waiting>,
}

/// Reads an expression up to the first token that cannot go on with it.
pub fn read_expression(reader: &mut Reader) -> Result<Tree, Unreadable> {
    let mut expression = Expression {
        tree: Tree::new(),
        waiting: Vec::new(),
    };
    loop {
        expression.operand(reader)?;
        loop {
            expression.close_signs();
            expression.multiplications(reader)?;
            expression.close_sum();
            if expression.operator(reader) {
                break;
            }
            if expression.waiting.is_empty() {
                return Ok(expression.tree);
            }
            // Only an open parenthesis can wait here; what it holds is an operand now.
            reader.symbol(b')')?;
            expression.waiting.pop();
        }
    }
}

impl Expression {
    /// Reads signs and open parentheses, and the variable or number behind them.
    fn operand(&mut self, reader: &mut Reader) -> Result<(), Unreadable> {
        loop {
            if reader.skip(b'(') {
                self.waiting.push(Waiting::Parenthesis);
            } else if reader.skip_sign() {
                self.waiting.push(Waiting::Sign(self.tree.len()));
            } else if let Some(variable) = reader.skip_variable() {
                self.tree.push(Node::Variable(variable));
                return Ok(());
            } else {
                self.tree.push(Node::Constant(reader.signed()?));
                return Ok(());
            }
        }
    }

    /// Takes the opposite of the operand just read, for every sign before it.
    fn close_signs(&mut self) {
        while let Some(Waiting::Sign(start)) = self.waiting.last() {
            let start = *start;
            self.waiting.pop();
            self.take_opposite(start);
        }
    }

    /// Reads products, floordivs and mods behind an operand.
    fn multiplications(&mut self, reader: &mut Reader) -> Result<(), Unreadable> {
        loop {
            if reader.skip(b'*') {
                self.tree.push(Node::Product(reader.signed()?));
            } else if reader.skip_word(b"floordiv") {
                self.tree.push(Node::Floordiv(reader.digits()?));
            } else if reader.skip_word(b"mod") {
                self.tree.push(Node::Mod(reader.digits()?));
            } else {
                return Ok(());
            }
        }
    }

    /// Adds the product just read to the sum before it, if one waits.
    fn close_sum(&mut self) {
        match self.waiting.last() {
            Some(Waiting::Plus) => {}
            Some(Waiting::Minus(start)) => {
                let start = *start;
                self.take_opposite(start);
            }
            _ => return,
        }
        self.waiting.pop();
        self.tree.push(Node::Sum);
    }

    /// Reads a plus or a minus between two products.
    fn operator(&mut self, reader: &mut Reader) -> bool {
        if reader.skip(b'+') {
            self.waiting.push(Waiting::Plus);
        } else if reader.skip_minus() {
            self.waiting.push(Waiting::Minus(self.tree.len()));
        } else {
            return false;
        }
        true
    }

    /// -k for a constant k, else a product by -1, of the nodes from a place on.
    fn take_opposite(&mut self, start: usize) {
        match &mut self.tree[start..] {
            [Node::Constant(number)] => *number = -*number,
            _ => self.tree.push(Node::Product(-1)),
        }
    }
}
