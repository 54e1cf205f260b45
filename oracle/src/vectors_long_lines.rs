//! Vectors about long lines: 65,535 bytes, 65,536 bytes and more.

use crate::answer::MAX_LINE;
use crate::vectors::group;

/// Lines of 65,535 and 65,536 bytes, and longer ones.
pub fn long_lines(text: &mut String) {
    let table = "padded [3,5] {1,0}";
    let sizes = format!("padded [1{}] {{0}}", ",1".repeat((MAX_LINE - 14) / 2));
    let point = format!("number [3,5] (1{})", ",1".repeat((MAX_LINE - 16) / 2));
    let digits = format!("point [3,5] {}13", "0".repeat(MAX_LINE - 14));
    let title = "lines of 65,535 bytes";
    let lines = [
        filled(table, MAX_LINE),
        filled(&sizes, MAX_LINE),
        filled(&point, MAX_LINE),
        filled(&digits, MAX_LINE),
        filled("padded [3,5]", MAX_LINE),
        format!("{}x", filled(table, MAX_LINE - 1)),
    ];
    group(text, title, lines.iter());
    let title = "lines of 65,536 bytes and more";
    let lines = [
        filled(table, MAX_LINE + 1),
        format!("{}x", filled(table, MAX_LINE)),
        format!("]{}", filled(table, MAX_LINE)),
        filled(&digits, MAX_LINE + 20_000),
        filled(" #", MAX_LINE + 1),
    ];
    group(text, title, lines.iter());
    let title = "a blank line and a comment of 65,536 bytes, and a longer comment";
    let lines = [
        filled("", MAX_LINE + 1),
        filled("# long", MAX_LINE + 1),
        format!("#{}", " padded [3,5] {1,0}".repeat(4_000)),
    ];
    group(text, title, lines.iter());
    group(text, "the next line is read as ever", [table].iter());
}

/// A text with spaces behind it up to a length in bytes.
fn filled(text: &str, length: usize) -> String {
    let mut line = text.to_string();
    line.push_str(&" ".repeat(length - text.len()));
    line
}
