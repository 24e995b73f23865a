//! Labels of a drawing: HTML as Graphviz has it, short enough for a box.

use super::page::{equation, ports};
use crate::package::*;

/// Letters of a guard, a condition or an equation in a chart; what is longer is cut.
const MOST_LETTERS: usize = 60;

/// Rows below each other, from the left.
pub fn table(rows: &[String]) -> String {
    let rows: String = rows.iter().map(|row| format!("<tr><td align=\"left\">{row}</td></tr>")).collect();
    format!("<table border=\"0\" cellspacing=\"0\" cellpadding=\"1\">{rows}</table>")
}

/// A heading, and lines below it in smaller letters.
pub fn left(head: &str, lines: &[String]) -> String {
    let small = lines.iter().map(|line| format!("<font point-size=\"9\">{}</font>", html(line)));
    if lines.is_empty() {
        head.into()
    } else {
        table(&[head.to_string()].into_iter().chain(small).collect::<Vec<_>>())
    }
}

/// Variables, a line a list that is not empty.
pub fn listed(p: &Package, lists: &[(&str, &Vec<Port>)]) -> Vec<String> {
    let some = lists.iter().filter(|(_, all)| !all.is_empty());
    some.map(|(word, all)| cut(&format!("{word} {}", ports(p, all)))).collect()
}

/// Without the outermost parentheses, where they are one operation's.
pub fn bare(text: &str) -> String {
    let mut open = 0;
    let closes_last = text.bytes().enumerate().all(|(i, b)| {
        open += (b == b'(') as i32 - (b == b')') as i32;
        open > 0 || i + 1 == text.len()
    });
    let inner = text.strip_prefix('(').and_then(|t| t.strip_suffix(')')).filter(|_| closes_last && !text.contains(','));
    inner.unwrap_or(text).to_string()
}

/// An equation without the outermost parentheses of its right side.
pub fn bare_equation(p: &Package, e: &Equation) -> String {
    let text = equation(p, e);
    match text.split_once(" = ") {
        Some((left, right)) => format!("{left} = {}", bare(right)),
        None => text,
    }
}

/// The beginning of what is too long.
pub fn cut(text: &str) -> String {
    if text.len() <= MOST_LETTERS {
        text.to_string()
    } else {
        format!("{} ...", &text[..MOST_LETTERS])
    }
}

/// Text as HTML has it.
pub fn html(text: &str) -> String {
    text.replace('&', "&amp;").replace('<', "&lt;").replace('>', "&gt;")
}
