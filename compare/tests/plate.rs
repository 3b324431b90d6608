//! The plate has no 25 (F22) and no 28, and a run tells of every refusal that is not on it.

use compare::generate::case;
use compare::reference::plate::PLATE;
use compare::request::answer;
use compare::table::{agree, off_plate, Table};

#[test]
fn the_plate_has_no_25_and_no_28() {
    let used = |number: &u8| !matches!(number, 25 | 28);
    let numbers: Vec<u8> = (1..=29).filter(used).collect();
    assert_eq!(PLATE[..], numbers);
}

/// `refused`, number and place, and on 5 a third figure.
fn said(number: u8, place: u64) -> String {
    let lacking = if number == 5 { " 7" } else { "" };
    format!("refused {number} {place}{lacking}")
}

#[test]
fn a_number_off_the_plate_is_found() {
    for number in 0..=255 {
        let wanted = (!PLATE.contains(&number)).then_some(number);
        let said = |place| said(number, place);
        assert_eq!(off_plate(&format!("{} x030a", said(0))), wanted);
        // behind accepted steps and other refusals
        for before in ["refused 1 16 16", "refused 5 16 28 16"] {
            let walk = format!("walk packet 253 16 16 {before} {} 16", said(16));
            assert_eq!(off_plate(&walk), wanted);
        }
    }
    for line in ["length 25 x25", "packet 25 16", "ok 25", "walk"] {
        assert_eq!(off_plate(line), None);
    }
}

/// Both sides may be wrong in the same way.
#[test]
fn a_number_off_the_plate_is_a_difference() {
    assert!(agree("refused 24 0 x\n", Some("refused 24 0 x\n")));
    assert!(!agree("refused 24 0 x\n", Some("refused 10 0 x\n")));
    assert!(!agree("refused 24 0 x\n", None));
    assert!(!agree("refused 25 0 x\n", Some("refused 25 0 x\n")));
    assert!(!agree("refused 28 0\n", Some("refused 28 0\n")));
}

#[test]
fn a_table_knows_what_was_missed_and_what_is_strange() {
    let mut table = Table::default();
    assert_eq!(table.missed(), PLATE);
    for number in PLATE.iter().filter(|number| **number != 13) {
        table.count("one", &said(*number, 0));
    }
    table.count("two", "ok 13");
    assert_eq!((table.missed(), table.strange()), (vec![13], vec![]));
    table.count("two", "refused 25 0");
    table.count("two", "walk refused 1 0 0 refused 28 0 0");
    assert_eq!((table.missed(), table.strange()), (vec![13], vec![25, 28]));
}

#[test]
fn a_run_reaches_the_plate_and_nothing_else() {
    for seed in 1..=8 {
        let mut table = Table::default();
        for index in 0..5_000 {
            let case = case(seed, index);
            table.count(case.kind, &answer(&case.request));
        }
        assert_eq!((table.missed(), table.strange()), (vec![], vec![]));
    }
}
