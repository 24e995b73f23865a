//! `charts`: the charts of the specification with their answers, to standard output. `charts lines`: what the program
//! `charts` should print of them.

use harness::charts;
use std::io::Write;

fn main() {
    let all = charts::all();
    let args: Vec<String> = std::env::args().skip(1).collect();
    let out = match &args[..] {
        [] => all.iter().flat_map(charts::record).collect(),
        [lines] if lines == "lines" => lines_of(&all).into_bytes(),
        _ => {
            eprintln!("usage: charts [lines]");
            std::process::exit(2)
        }
    };
    std::io::stdout().write_all(&out).expect("standard output");
}

fn lines_of(all: &[charts::Chart]) -> String {
    let lines: String = all.iter().map(|c| format!("{} ok\n", c.name)).collect();
    format!("{lines}{} charts, 0 different\n", all.len())
}
