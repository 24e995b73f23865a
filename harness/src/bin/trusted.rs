//! `trusted`: what has to be believed, as docs/TRUSTED.md has it, to standard output.

fn main() {
    let root = std::path::Path::new(env!("CARGO_MANIFEST_DIR")).join("..");
    print!("{}", harness::trusted::page(&root));
}
