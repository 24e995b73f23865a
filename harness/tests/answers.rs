//! Answers in words: those of README.md, and the reports of all kinds of error.

use harness::report::{report, Refused};
use harness::show::answers::{self, ANSWERS};
use reference::state_machine::LowerError;
use reference::ActLowerError;

#[test]
fn the_words_are_those_of_the_readme() {
    let readme = include_str!("../../README.md");
    for (number, m) in ANSWERS.iter().enumerate() {
        let row = format!("| {number} | {} | {} | {} |", m.value, m.says, m.remedy);
        let row = row.replace("|  |", "| |");
        assert!(readme.lines().any(|line| line == row), "README.md has no row {row:?}");
        let text = answers::answer(number as u32, 77);
        assert!(text.contains(m.says) && text.contains("77") && text.contains(m.remedy), "{text}");
    }
}

fn names<const N: usize>() -> [String; N] {
    let mut i = 0;
    [(); N].map(|_| {
        i += 1;
        format!("Name{i}")
    })
}

#[test]
fn every_kind_of_error_is_worded() {
    let ([a], [b, c], [d, e, f]) = (names::<1>(), names::<2>(), names::<3>());
    let machine = [
        LowerError::NoStates(a.clone()),
        LowerError::UnknownInitialState(b.clone(), c.clone()),
        LowerError::UnknownTarget(d.clone(), e.clone(), f.clone()),
        LowerError::OutputUnassigned(d.clone(), e.clone(), f.clone()),
        LowerError::DuplicateState(b.clone(), c.clone()),
        LowerError::UnknownRefine(d.clone(), e.clone(), f.clone()),
        LowerError::RefineCycle(b.clone(), c.clone()),
        LowerError::UnknownOwner(b.clone(), c.clone()),
    ];
    let activation = [
        ActLowerError::NoBranches(a.clone()),
        ActLowerError::NoOutputs(a.clone()),
        ActLowerError::OutputUnassigned(d, e, f),
        ActLowerError::DuplicateBranch(b.clone(), c.clone()),
        ActLowerError::UnknownOwner(b.clone(), c.clone()),
        ActLowerError::LastArgs(a.clone()),
        ActLowerError::LastUnknown(b.clone(), c.clone()),
        ActLowerError::LastNeedsInit(b, c),
    ];
    let mut all: Vec<(String, Refused)> = machine.iter().map(|e| (format!("{e:?}"), e.into())).collect();
    all.extend(activation.iter().map(|e| (format!("{e:?}"), e.into())));
    all.push((format!("TooLarge({a:?})"), Refused::too_large(&a)));
    all.push((format!("EmptyLeft({a:?})"), Refused::empty_left(&a)));
    let refused: Vec<Refused> = all.iter().map(|(_, r)| r.clone()).collect();
    let lines = answers::report(&report(&refused));
    assert_eq!(lines.len(), 18);
    for (i, (line, (error, refused))) in lines.iter().zip(&all).enumerate() {
        // `Kind("A", "B")` in Rust is `N Kind (A, B): ..` here.
        let begins = format!("{} {}: ", i + 1, error.replace('"', "").replace('(', " ("));
        let rest = line.strip_prefix(&begins).unwrap_or_else(|| panic!("{line:?} does not begin with {begins:?}"));
        assert!(refused.names.iter().all(|name| rest.contains(name)) && !rest.contains('@'), "{line}");
    }
}
