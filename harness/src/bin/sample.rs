//! `sample COUNT SEED` or `sample big`: stored answers of the check, to standard output.

use harness::sample;
use std::io::Write;

fn main() {
    let args: Vec<String> = std::env::args().skip(1).collect();
    let packs = match &args[..] {
        [big] if big == "big" => sample::big(),
        [count, seed] => match (count.parse(), seed.parse()) {
            (Ok(count), Ok(seed)) => sample::choose(count, seed),
            _ => usage(),
        },
        _ => usage(),
    };
    let out: Vec<u8> = packs.iter().flat_map(|p| sample::record(p)).collect();
    std::io::stdout().write_all(&out).expect("standard output");
}

fn usage() -> ! {
    eprintln!("usage: sample COUNT SEED | sample big");
    std::process::exit(2)
}
