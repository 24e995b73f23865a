//! The samples: each chart makes the pack, the text and the drawing that stand beside it.

use harness::answer::Answer;
use harness::decode::decode;
use harness::package::MAX_PACK;
use harness::show::{dot, page, steps};
use harness::{activations, machines, make};
use std::path::PathBuf;

fn folder() -> PathBuf {
    PathBuf::from(env!("CARGO_MANIFEST_DIR")).join("../samples")
}

/// The names of all samples.
fn names() -> Vec<String> {
    let files = std::fs::read_dir(folder()).unwrap().map(|f| f.unwrap().file_name().into_string().unwrap());
    let mut names: Vec<String> = files.filter_map(|f| f.strip_suffix(".chart").map(str::to_string)).collect();
    names.sort();
    names
}

fn file(name: &str, kind: &str) -> Vec<u8> {
    let path = folder().join(format!("{name}.{kind}"));
    std::fs::read(&path).unwrap_or_else(|e| panic!("{}: {e}", path.display()))
}

fn text(name: &str, kind: &str) -> String {
    String::from_utf8(file(name, kind)).unwrap()
}

#[test]
fn every_chart_makes_its_pack() {
    assert_eq!(names(), ["airlock", "duress", "fire", "keys", "misdrawn", "strongroom", "visits"]);
    for name in names() {
        let pack = make::pack(&text(&name, "chart")).unwrap_or_else(|e| panic!("{name}.chart: {e}"));
        assert_eq!(pack, file(&name, "pack"), "{name}.pack");
        // What is shown of it makes it again.
        assert_eq!(make::pack(&page::package(&decode(&pack).unwrap())).unwrap(), pack, "{name}");
    }
}

#[test]
fn every_sample_is_shown_as_it_stands() {
    for name in names() {
        let pack = file(&name, "pack");
        let p = decode(&pack).unwrap();
        assert_eq!(steps::text(&pack, p.clone()), text(&name, "txt"), "{name}.txt, {:?}", steps::by());
        assert_eq!(dot::picture(&steps::steps(&pack, p)).unwrap(), text(&name, "dot"), "{name}.dot");
        assert!(text(&name, "svg").contains("</svg>"), "{name}.svg");
    }
}

/// The library, where it is linked, lowers the samples as the reference does.
#[test]
fn library_and_reference_agree() {
    for name in names() {
        let pack = file(&name, "pack");
        let steps = steps::steps(&pack, decode(&pack).unwrap());
        let first = machines::expected(&pack).unwrap().answer(MAX_PACK, MAX_PACK);
        let second = first.output.as_ref().map(|p| activations::expected(p).unwrap().answer(MAX_PACK, MAX_PACK));
        let read = |answer: Answer| answer.output.clone().map(|p| decode(&p).unwrap()).ok_or(answer);
        assert_eq!((steps.machines, steps.activations), (read(first), second.map(read)), "{name}");
    }
}

#[test]
fn all_are_lowered_but_one() {
    for name in names() {
        let pack = file(&name, "pack");
        let steps = steps::steps(&pack, decode(&pack).unwrap());
        let lowered =
            matches!(&steps.activations, Some(Ok(made)) if made.machines.is_empty() && made.activations.is_empty());
        assert_eq!(lowered, name != "misdrawn", "{name}");
    }
    let refused = text("misdrawn", "txt");
    for kind in [
        "3 UnknownTarget (Lost, Shut, Ajar)",
        "4 OutputUnassigned (Half, open, Open)",
        "7 RefineCycle",
        "8 UnknownOwner",
    ] {
        assert!(refused.contains(kind), "{kind}");
    }
}
