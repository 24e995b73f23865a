//! `show PACK`: the package as text. `show --lower PACK`: also after both lowerings. `show --dot PACK`: a drawing for
//! Graphviz. `show --picture OUT PACK`: the drawing as .svg or .png. A pack that cannot be read is answered in words.

use harness::decode::decode;
use harness::package::Package;
use harness::show::{self, dot, page, steps};
use std::io::Write;
use std::process::{Command, Stdio};

fn main() {
    let args: Vec<String> = std::env::args().skip(1).collect();
    let args: Vec<&str> = args.iter().map(|a| a.as_str()).collect();
    match args[..] {
        ["--lower", file] => {
            let (pack, p) = read(file);
            eprintln!("{}", lowered_by());
            print(&steps::text(&pack, p));
        }
        ["--dot", file] => print(&drawing(file)),
        ["--picture", out, file] => picture(out, &drawing(file)),
        [file] if !file.starts_with("--") => print(&page::package(&read(file).1)),
        _ => stop("usage: show PACK | show --lower PACK | show --dot PACK | show --picture OUT.svg PACK (or .png)", 2),
    }
}

fn stop(says: &str, status: i32) -> ! {
    eprintln!("{says}");
    std::process::exit(status)
}

/// A reader that stops early, as `head` does, is no fault.
fn print(text: &str) {
    let _ = std::io::stdout().write_all(text.as_bytes());
}

/// The pack and its package; a refused one is answered, with exit status 1.
fn read(file: &str) -> (Vec<u8>, Package) {
    let pack = std::fs::read(file).unwrap_or_else(|e| stop(&format!("{file}: {e}"), 2));
    match decode(&pack) {
        Ok(p) => (pack, p),
        Err(_) => {
            print(&show::unreadable(&pack).unwrap_or_default());
            std::process::exit(1)
        }
    }
}

/// Who lowers.
fn lowered_by() -> &'static str {
    let nobody = "there is neither the proved library (harness/library) nor the reference (OL_IR_SRC) to lower by";
    steps::by().unwrap_or_else(|| stop(nobody, 2))
}

fn drawing(file: &str) -> String {
    let (pack, p) = read(file);
    lowered_by();
    let drawn = dot::picture(&steps::steps(&pack, p));
    drawn.unwrap_or_else(|| stop("too many states, branches and nodes for a picture: `show PACK` prints them", 1))
}

fn picture(out: &str, drawing: &str) {
    let kind = match out.rsplit_once('.') {
        Some((_, kind @ ("svg" | "png"))) => kind,
        _ => stop(&format!("{out}: expected a name that ends with .svg or .png"), 2),
    };
    // Some releases of dot fail where an arrow is to end at a cluster's border: then it ends inside.
    if !dot(kind, out, drawing, "true") && !dot(kind, out, drawing, "false") {
        stop("dot could not draw it", 1);
    }
}

fn dot(kind: &str, out: &str, drawing: &str, compound: &str) -> bool {
    let drawing = drawing.replacen("compound=true", &format!("compound={compound}"), 1);
    let args = [&format!("-T{kind}"), "-Gdpi=96", "-o", out];
    let child = Command::new("dot").args(args).stdin(Stdio::piped()).stderr(Stdio::null()).spawn();
    let mut child = child.unwrap_or_else(|e| stop(&format!("dot (Debian's package graphviz): {e}"), 2));
    let written = child.stdin.take().expect("piped").write_all(drawing.as_bytes()).is_ok();
    child.wait().is_ok_and(|status| status.success()) && written
}
