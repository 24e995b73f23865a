//! The benchmark's table: a row a set of packs, of each call the worst ratio first.

/// How large the packs of a row are, and whether they are built to be slow.
#[derive(Debug, Clone, Copy, PartialEq)]
pub enum Size {
    Small,
    Typical,
    Large,
    Worst,
}

pub struct Row {
    pub call: &'static str,
    pub size: Size,
    pub packs: String,
    pub count: usize,
    /// Of a pack.
    pub bytes: usize,
    pub rust: Option<f64>,
    pub rattle: Option<f64>,
    pub stack: Option<usize>,
}

impl Row {
    fn ratio(&self) -> Option<f64> {
        Some(self.rattle? / self.rust?)
    }

    fn text(&self) -> String {
        let size = format!("{:?}", self.size).to_lowercase();
        let time = |t: Option<f64>| t.map_or("-".into(), |t| format!("{t:.1}"));
        let ratio = self.ratio().map_or("-".into(), |r| format!("{r:.2}"));
        let stack = self.stack.map_or("-".into(), |s| (s / 1024).to_string());
        line(
            [self.call, &size, &self.packs, &self.count.to_string(), &self.bytes.to_string(), &time(self.rust)],
            [&time(self.rattle), &ratio, &stack],
        )
    }
}

fn line(left: [&str; 6], right: [&str; 3]) -> String {
    let [call, size, packs, count, bytes, rust] = left;
    let [rattle, ratio, stack] = right;
    format!("{call:<13}{size:<9}{packs:<46}{count:>5}{bytes:>7}{rust:>12}{rattle:>12}{ratio:>8}{stack:>9}\n")
}

/// The rows by call, in each by falling ratio, where there is none by falling stack.
pub fn table(rows: &mut [Row], calls: &[&str]) -> String {
    let place = |row: &Row| calls.iter().position(|call| *call == row.call);
    let falling = |row: &Row| (row.ratio().unwrap_or(0.0), row.stack.unwrap_or(0));
    rows.sort_by(|a, b| {
        let ((ratio_a, stack_a), (ratio_b, stack_b)) = (falling(a), falling(b));
        place(a).cmp(&place(b)).then(ratio_b.total_cmp(&ratio_a)).then(stack_b.cmp(&stack_a))
    });
    let mut out = line(["call", "size", "packs", "count", "bytes", "Rust us"], ["Rattle us", "ratio", "stack KB"]);
    for (i, row) in rows.iter().enumerate() {
        if i > 0 && rows[i - 1].call != row.call {
            out.push('\n');
        }
        out += &row.text();
    }
    out
}

/// Of each call the worst ratio and the most stack.
pub fn summary(rows: &[Row], calls: &[&str]) -> String {
    let of = |call: &str| {
        let own: Vec<&Row> = rows.iter().filter(|row| row.call == call).collect();
        let worst = own
            .iter()
            .filter(|row| row.ratio().is_some())
            .max_by(|a, b| a.ratio().unwrap().total_cmp(&b.ratio().unwrap()));
        let ratio = worst.map(|row| format!("worst ratio {:.2} ({})", row.ratio().unwrap(), row.packs));
        let stack = own.iter().filter_map(|row| row.stack).max().map(|s| format!("at most {} KB of stack", s / 1024));
        let said: Vec<String> = ratio.into_iter().chain(stack).collect();
        if said.is_empty() {
            String::new()
        } else {
            format!("{call}: {}\n", said.join(", "))
        }
    };
    calls.iter().map(|call| of(call)).collect()
}

#[cfg(test)]
mod tests {
    use super::*;

    fn row(call: &'static str, packs: &str, rust: f64, rattle: f64, stack: usize) -> Row {
        let (rust, rattle, stack) = (Some(rust), Some(rattle), Some(stack));
        Row { call, size: Size::Small, packs: packs.into(), count: 1, bytes: 12, rust, rattle, stack }
    }

    #[test]
    fn the_worst_ratio_of_a_call_comes_first() {
        let mut rows =
            vec![row("b", "third", 1.0, 1.0, 2048), row("a", "second", 2.0, 1.0, 1024), row("a", "first", 1.0, 3.0, 0)];
        let text = table(&mut rows, &["a", "b"]);
        let order: Vec<usize> = ["first", "second", "third"].map(|packs| text.find(packs).unwrap()).to_vec();
        assert!(order.is_sorted(), "{text}");
        assert!(text.contains("3.00"), "{text}");
        let said =
            "a: worst ratio 3.00 (first), at most 1 KB of stack\nb: worst ratio 1.00 (third), at most 2 KB of stack\n";
        assert_eq!(summary(&rows, &["a", "b"]), said);
    }
}
