//! `tables machines|activations`: the examples with their answers, as the rows of a table in antt. `tables pack`: the whole
//! page of the format's examples.

use harness::answer::Answer;
use harness::examples::{self, Example};
use harness::pack_page::{bytes, page};
use harness::package::MAX_PACK;
use harness::{activations, machines};

fn main() {
    let args: Vec<String> = std::env::args().skip(1).collect();
    let args: Vec<&str> = args.iter().map(|a| &a[..]).collect();
    let rows: Vec<String> = match args[..] {
        ["machines"] => examples::machines().iter().map(|e| row(e, machines::expected(&e.pack))).collect(),
        ["activations"] => examples::activations().iter().map(|e| row(e, activations::expected(&e.pack))).collect(),
        ["pack"] => vec![page()],
        _ => {
            eprintln!("usage: tables machines|activations|pack");
            std::process::exit(2)
        }
    };
    print!("{}", rows.concat());
}

fn row(e: &Example, outcome: Option<harness::answer::Outcome>) -> String {
    let answer = outcome.expect("nothing is skipped").answer(e.room, e.room);
    let room = if e.room == MAX_PACK { "max_bytes".into() } else { e.room.to_string() };
    let comment = e.says;
    format!(
        "    -- {comment}\n    ∷ record {{\n      pack =\n          {};\n      room = {room};\n      outcome = {};\n    }}\n",
        bytes(&e.pack),
        stated(&answer)
    )
}

fn stated(a: &Answer) -> String {
    match (&a.output, &a.report) {
        (Some(b), _) => format!("writes\n          ({})", bytes(b)),
        (_, Some(b)) => format!("reports\n          ({})", bytes(b)),
        _ => format!("answers {} {}", a.number, a.value),
    }
}
