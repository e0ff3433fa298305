//! How many kinds a run of each comparison must meet.

mod common;
use common::*;
use second::compare::{archives, margins, statements};
use second::kinds::{calls, merges, orders, texts};
use second::tally::names;

/// All that a whole round demands, by run, each kind with its name.
fn demanded() -> Vec<(&'static str, Vec<String>)> {
    let of_days = [Met::all(), Met::of_close_outs(), Met::of_explanations()].concat();
    let none = Tally::default();
    let archived = none.missed("archived: ", archives::kinds());
    let versions = none.missed("a book ", ["of version 1"]);
    vec![
        ("days", Tally::default().missed("", of_days)),
        ("books", [archived, versions].concat()),
        ("calls", calls::Met::default().missed()),
        ("margins", margins::Met::default().missed()),
        ("merges", none.missed("", names(merges::KINDS))),
        ("orders", none.missed("", names(orders::KINDS))),
        ("statements", statements::Met::default().missed()),
        ("texts", none.missed("", texts::all_kinds())),
    ]
}

#[test]
fn as_many_as_ever() {
    let many: Vec<usize> = demanded().iter().map(|(_, kinds)| kinds.len()).collect();
    assert_eq!(many, [617, 13, 1244, 19, 34, 13, 96, 96]);
    if let Ok(path) = std::env::var("SECOND_KINDS") {
        let line = |run: &str, kind: &String| format!("{run}\t{kind}\n");
        let lines = demanded()
            .into_iter()
            .map(|(run, kinds)| kinds.iter().map(|kind| line(run, kind)).collect::<String>());
        fs::write(path, lines.collect::<String>()).unwrap();
    }
}
