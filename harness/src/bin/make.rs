//! `make CHART`: the pack of a chart, to standard output.

use harness::make;
use std::io::Write;

fn main() {
    let args: Vec<String> = std::env::args().skip(1).collect();
    let [file] = &args[..] else { stop("usage: make CHART > PACK", 2) };
    let text = std::fs::read_to_string(file).unwrap_or_else(|e| stop(&format!("{file}: {e}"), 2));
    match make::pack(&text) {
        Ok(pack) => std::io::stdout().write_all(&pack).expect("standard output"),
        Err(e) => stop(&format!("{file}: {e}"), 1),
    }
}

fn stop(says: &str, status: i32) -> ! {
    eprintln!("{says}");
    std::process::exit(status)
}
