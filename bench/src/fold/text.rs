// Maps as text, as document 000 prints them: to compare the ordinary version's answers with another program's.
use crate::record::*;

/// The place of a variable that its map does not have.
const UNKNOWN: i64 = 99;

/// A tree as its nodes in postfix order.
type Tree = Vec<(u8, i64)>;

struct Reader<'a> {
    rest: &'a str,
}

impl Reader<'_> {
    fn skip(&mut self, token: &str) -> bool {
        match self.rest.trim_start().strip_prefix(token) {
            Some(rest) => {
                self.rest = rest;
                true
            }
            None => false,
        }
    }

    fn need(&mut self, token: &str) -> Option<()> {
        self.skip(token).then_some(())
    }

    /// A number without a sign; one past 127 bits is the largest of them.
    fn size(&mut self) -> Option<i128> {
        let text = self.rest.trim_start();
        let end = text.find(|c: char| !c.is_ascii_digit()).unwrap_or(text.len());
        self.rest = &text[end..];
        (end > 0).then(|| text[..end].parse().unwrap_or(i128::MAX))
    }

    fn number(&mut self) -> Option<i64> {
        let minus = self.skip("-");
        let size = self.size()?;
        i64::try_from(if minus { -size } else { size }).ok()
    }

    /// The names of one kind of variable up to the closing token: how many there are.
    fn names(&mut self, letter: &str, close: &str) -> Option<usize> {
        let mut count = 0;
        while !self.skip(close) {
            if count > 0 {
                self.need(",")?;
            }
            self.need(letter)?;
            if self.size()? != count as i128 {
                return None;
            }
            count += 1;
        }
        Some(count)
    }

    fn interval(&mut self) -> Option<(i64, i64)> {
        self.need("in")?;
        self.need("[")?;
        let lower = self.number()?;
        self.need(",")?;
        let upper = self.number()?;
        self.need("]")?;
        Some((lower, upper))
    }

    fn primary(&mut self, m: &Record) -> Option<Tree> {
        if self.skip("(") {
            let tree = self.sum(m)?;
            self.need(")")?;
            return Some(tree);
        }
        let minus = self.rest.trim_start().strip_prefix('-').map(str::trim_start);
        if minus.is_some_and(|rest| !rest.starts_with(|c: char| c.is_ascii_digit())) {
            self.skip("-");
            return Some(opposite(self.primary(m)?));
        }
        let dimension = self.skip("d");
        if dimension || self.skip("s") {
            let (first, count) = if dimension { (0, m.dims) } else { (8, m.ranges) };
            let number = self.size()?;
            return Some(vec![(VARIABLE, if number < count.min(8) as i128 { first + number as i64 } else { UNKNOWN })]);
        }
        Some(vec![(CONSTANT, self.number()?)])
    }

    fn product(&mut self, m: &Record) -> Option<Tree> {
        let mut tree = self.primary(m)?;
        loop {
            let kind = if self.skip("*") {
                PRODUCT
            } else if self.skip("floordiv") {
                FLOORDIV
            } else if self.skip("mod") {
                MOD
            } else {
                return Some(tree);
            };
            tree.push((kind, self.number()?));
        }
    }

    fn sum(&mut self, m: &Record) -> Option<Tree> {
        let mut tree = self.product(m)?;
        loop {
            let right = if self.skip("+") {
                self.product(m)?
            } else if self.skip("-") {
                opposite(self.product(m)?)
            } else {
                return Some(tree);
            };
            tree.extend(right);
            tree.push((SUM, 0));
        }
    }
}

fn opposite(mut tree: Tree) -> Tree {
    match tree[..] {
        [(CONSTANT, k)] => vec![(CONSTANT, k.wrapping_neg())],
        _ => {
            tree.push((PRODUCT, -1));
            tree
        }
    }
}

/// Puts a tree's nodes after the first `at`, as far as there is a place for them.
fn put(m: &mut Record, at: &mut usize, tree: &Tree) {
    for &(kind, value) in tree {
        if *at < 256 {
            (m.kinds[*at], m.values[*at]) = (kind, value);
        }
        *at += 1;
    }
}

/// The map of a line, or nothing where it cannot be read.
pub fn read(line: &str) -> Option<Record> {
    let mut r = Reader { rest: line };
    let mut m = Record::EMPTY;
    let mut at = 0;
    r.need("(")?;
    m.dims = r.names("d", ")")?;
    if r.skip("[") {
        m.ranges = r.names("s", "]")?;
    }
    r.need("->")?;
    r.need("(")?;
    while !r.skip(")") {
        if m.results > 0 {
            r.need(",")?;
        }
        let tree = r.sum(&m)?;
        if m.results < 8 {
            m.result_nodes[m.results] = tree.len();
            put(&mut m, &mut at, &tree);
        }
        m.results += 1;
    }
    let mut first = true;
    if r.skip(",") {
        r.need("domain")?;
        r.need(":")?;
    }
    for v in 0..m.dims + m.ranges {
        if !std::mem::take(&mut first) {
            r.need(",")?;
        }
        let (letter, first, number) = if v < m.dims { ("d", 0, v) } else { ("s", 8, v - m.dims) };
        r.need(letter)?;
        if r.size()? != number as i128 {
            return None;
        }
        let (lower, upper) = r.interval()?;
        if number < 8 {
            (m.lower[first + number], m.upper[first + number]) = (lower, upper);
        }
    }
    while !r.rest.trim().is_empty() {
        if !std::mem::take(&mut first) {
            r.need(",")?;
        }
        let tree = r.sum(&m)?;
        let (lower, upper) = r.interval()?;
        let k = m.constraints;
        if k < 32 {
            m.constraint_nodes[k] = tree.len();
            (m.constraint_lower[k], m.constraint_upper[k]) = (lower, upper);
            put(&mut m, &mut at, &tree);
        }
        m.constraints += 1;
    }
    Some(m)
}

/// A printed tree, and how it prints inside another.
enum Printed {
    Bare(String),
    Negative(i64),
    Sum(String),
    Product(String, i64),
    Divided(String),
}

impl Printed {
    fn whole(&self) -> String {
        match self {
            Printed::Bare(s) | Printed::Sum(s) | Printed::Divided(s) => s.clone(),
            Printed::Negative(k) => k.to_string(),
            Printed::Product(s, -1) => format!("-{s}"),
            Printed::Product(s, k) => format!("{s} * {k}"),
        }
    }

    fn operand(&self) -> String {
        match self {
            Printed::Bare(s) => s.clone(),
            _ => format!("({})", self.whole()),
        }
    }

    fn added(&self) -> String {
        match self {
            Printed::Negative(k) => format!(" - {}", k.unsigned_abs()),
            Printed::Product(s, -1) => format!(" - {s}"),
            Printed::Product(s, k) if *k < 0 => format!(" - {s} * {}", k.unsigned_abs()),
            Printed::Sum(s) => format!(" + ({s})"),
            _ => format!(" + {}", self.whole()),
        }
    }
}

fn printed(m: &Record, nodes: std::ops::Range<usize>) -> String {
    let mut stack: Vec<Printed> = Vec::new();
    for i in nodes {
        let value = m.values[i];
        let next = match m.kinds[i] {
            VARIABLE if value < 8 => Printed::Bare(format!("d{value}")),
            VARIABLE => Printed::Bare(format!("s{}", value - 8)),
            CONSTANT if value < 0 => Printed::Negative(value),
            CONSTANT => Printed::Bare(value.to_string()),
            SUM => {
                let (b, a) = (stack.pop().unwrap(), stack.pop().unwrap());
                Printed::Sum(a.whole() + &b.added())
            }
            PRODUCT => Printed::Product(stack.pop().unwrap().operand(), value),
            FLOORDIV => Printed::Divided(format!("{} floordiv {value}", stack.pop().unwrap().operand())),
            _ => Printed::Divided(format!("{} mod {value}", stack.pop().unwrap().operand())),
        };
        stack.push(next);
    }
    stack.pop().unwrap().whole()
}

/// The text of an accepted map.
pub fn print(m: &Record) -> String {
    let names = |letter: &str, count: usize| (0..count).map(|k| format!("{letter}{k}")).collect::<Vec<_>>().join(", ");
    let mut at = 0;
    let mut run = |count: usize| {
        at += count;
        printed(m, at - count..at)
    };
    let results: Vec<String> = m.result_nodes[..m.results].iter().map(|&n| run(n)).collect();
    let mut text = format!("({})", names("d", m.dims));
    if m.ranges > 0 {
        text += &format!("[{}]", names("s", m.ranges));
    }
    text += &format!(" -> ({})", results.join(", "));
    let dims = (0..m.dims).map(|k| format!("d{k} in [{}, {}]", m.lower[k], m.upper[k]));
    let ranges = (0..m.ranges).map(|k| format!("s{k} in [{}, {}]", m.lower[8 + k], m.upper[8 + k]));
    let constraints = (0..m.constraints)
        .map(|k| format!("{} in [{}, {}]", run(m.constraint_nodes[k]), m.constraint_lower[k], m.constraint_upper[k]));
    let domain: Vec<String> = dims.chain(ranges).chain(constraints).collect();
    if !domain.is_empty() {
        text += &format!(",\ndomain:\n{}", domain.join(",\n"));
    }
    text
}
