//! The drawings: what is in a chart is in its picture.

use harness::charts;
use harness::decode::decode;
use harness::encode::encode_any;
use harness::package::*;
use harness::show::{dot, steps};
use harness::{make, special};

fn drawn(p: &Package) -> Option<String> {
    let pack = encode_any(p).0;
    dot::picture(&steps::steps(&pack, decode(&pack).unwrap()))
}

fn drawn_chart(text: &str) -> String {
    drawn(&make::package(text).unwrap()).unwrap()
}

/// Lines that have all of these.
fn lines(drawing: &str, all: &[&str]) -> usize {
    drawing.lines().filter(|line| all.iter().all(|part| line.contains(part))).count()
}

#[test]
fn regions_are_clusters_and_history_is_marked() {
    for history in [false, true] {
        let drawing = drawn(&charts::nested(history)).unwrap();
        // M, the state On, and its region.
        assert_eq!(lines(&drawing, &["subgraph cluster_"]), 3, "{drawing}");
        assert_eq!(lines(&drawing, &["label=\"H\""]), history as usize, "{drawing}");
        assert_eq!(lines(&drawing, &["region with history"]), history as usize, "{drawing}");
        // On to Off and back at the cluster's border, and P to Q.
        assert_eq!(lines(&drawing, &["swap", "ltail=cluster_s1"]), 2, "{drawing}");
        assert_eq!(lines(&drawing, &["swap", "dir=back"]), 1, "{drawing}");
        assert_eq!(lines(&drawing, &[" -> ", "label=< true >"]), 1, "{drawing}");
        assert_eq!(lines(&drawing, &["_begin -> "]) - lines(&drawing, &["_begin -> ", "invis"]), 2, "{drawing}");
        // Braces and quotes are closed.
        assert_eq!(drawing.matches('{').count(), drawing.matches('}').count());
        assert_eq!(drawing.matches('"').count() % 2, 0);
    }
}

#[test]
fn refinement_is_a_dashed_arrow() {
    let two = "machine A\n  initial S\n  state S\n    refines B\nmachine B\n  initial T\n  state T\n";
    let drawing = drawn_chart(two);
    assert_eq!(lines(&drawing, &["s1 -> m1_begin", "lhead=cluster_m1", "style=dashed"]), 1, "{drawing}");
    assert_eq!(lines(&drawing, &["after lowering"]), 2, "{drawing}");
    // To itself there is only the word, and the refusal.
    let drawing = drawn(&charts::cycle()).unwrap();
    assert_eq!((lines(&drawing, &["dashed"]), lines(&drawing, &["refines M"])), (0, 1), "{drawing}");
    assert_eq!(lines(&drawing, &["7 RefineCycle (M, M)", "color=red"]), 1, "{drawing}");
}

/// In preorder, a refinement after the state's own regions, with what is inside it.
#[test]
fn regions_have_the_ids_of_their_variables() {
    let region = |deep: usize, state: &str| {
        let at = " ".repeat(deep);
        format!("{at}region\n{at}  initial {state}\n{at}  state {state}\n")
    };
    let first = format!("{}{}", region(4, "T"), region(8, "U"));
    let one = format!("machine A\n  initial S\n  state S\n{first}    refines B\n  state V\n{}", region(4, "W"));
    let two = format!("machine B\n  initial X\n  state X\n{}", region(4, "Y"));
    let drawing = drawn_chart(&format!("{one}{two}"));
    for (label, count) in
        [("r1: region", 2), ("r2: region", 1), ("refines B as r3", 1), ("r4: region", 0), ("r5: region", 1)]
    {
        assert_eq!(lines(&drawing, &[label]), count, "{label}: {drawing}");
    }
    for made in ["__sm_r3_active = (__sm_state = S)", "(__sm_r3_state = S_X)", "__sm_r5_active = (__sm_state = V)"] {
        assert!(drawing.contains(made), "{made}: {drawing}");
    }
}

#[test]
fn an_activation_is_a_tree_of_its_branches() {
    let drawing = drawn(&charts::two_branches()).unwrap();
    assert_eq!(lines(&drawing, &["shape=diamond", "c ?"]) + lines(&drawing, &["shape=diamond", "d ?"]), 2, "{drawing}");
    assert_eq!((lines(&drawing, &["label=\" yes \""]), lines(&drawing, &["label=\" no\""])), (2, 2), "{drawing}");
    for value in ["o = 1", "o = 2", "o = 3"] {
        assert_eq!(lines(&drawing, &["a0_", value]), 1, "{value}: {drawing}");
    }
    // The node before, and after with the equations made.
    assert_eq!(lines(&drawing, &["n0 [", "operator N"]), 1, "{drawing}");
    assert_eq!(lines(&drawing, &["made0 [", "__act_A_b1 = c", "o = merge("]), 1, "{drawing}");
}

#[test]
fn missing_states_are_drawn_and_signs_are_escaped() {
    let text = "machine M\n  initial S\n  state S\n    until a < b then T\n";
    let drawing = drawn_chart(text);
    assert_eq!(lines(&drawing, &["T is not there", "color=red"]), 1, "{drawing}");
    assert_eq!(lines(&drawing, &["a &lt; b"]), 1, "{drawing}");
}

#[test]
fn what_is_too_large_is_not_drawn() {
    assert!(drawn(&special::wide(390, None)).is_some());
    assert!(drawn(&special::wide(410, None)).is_none());
}
