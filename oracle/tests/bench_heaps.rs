//! The bench heaps (P1 to P10) on the model, word for word, and on the originals where
//! they have the call.

use oracle::case::{Answer, Case, Engine, Outcome};
use oracle::compare::meaning;
use oracle::model::Model;
use oracle::notation::{parse_call, parse_cells, show_cells};
use oracle::rust::Originals;

/// Value, cells and trail that the model answers.
fn model(cells: &str, call: &str) -> (usize, String, Vec<usize>) {
    match run(&Model, cells, call) {
        (
            Outcome::Answered(Answer {
                value,
                cells: Ok(c),
                trail,
            }),
            _,
        ) => (value, show_cells(&c), trail),
        other => panic!("{other:?}"),
    }
}

fn run(engine: &dyn Engine, cells: &str, call: &str) -> (Outcome, String) {
    let cells = parse_cells(cells).expect("cells");
    let words: Vec<&str> = call.split(' ').collect();
    let call = parse_call(&words).expect("a call");
    let case = Case {
        cells: &cells,
        call,
    };
    let outcome = engine.run(case);
    let text = meaning(case, &outcome);
    (outcome, text)
}

/// The originals mean the same as the model.
fn same(cells: &str, call: &str) {
    let originals = Originals { budget: 10_000 };
    assert_eq!(
        run(&originals, cells, call).1,
        run(&Model, cells, call).1,
        "{cells} | {call}"
    );
}

const B: &str = "0, Str 2, g/1, Var 3";
const B_BOUND: &str = "0, Str 2, g/1, Str 2";

#[test]
fn p1_plain_binds_a_variable_to_its_own_term() {
    assert_eq!(model(B, "plain 1 3"), (1, B_BOUND.into(), vec![3]));
    same(B, "plain 1 3");
}

#[test]
fn p2_p3_the_bound_term_is_cyclic_and_checked_refuses_it() {
    assert_eq!(model(B_BOUND, "cyclic 1").0, 1);
    same(B_BOUND, "cyclic 1");
    assert_eq!(run(&Model, B_BOUND, "checked 1 3").0, Outcome::Refused(6));
}

#[test]
fn p4_checked_finds_no_unifier() {
    assert_eq!(model(B, "checked 1 3"), (0, B.into(), vec![]));
    same(B, "checked 1 3");
}

#[test]
fn p5_copy_of_a_structure() {
    assert_eq!(
        model(B, "copy 1"),
        (4, format!("{B}, Str 5, g/1, Var 6"), vec![])
    );
    same(B, "copy 1");
}

#[test]
fn p6_the_higher_variable_names_the_lower() {
    let cells = "0, Var 1, Var 2";
    for call in ["plain 1 2", "plain 2 1"] {
        assert_eq!(model(cells, call), (1, "0, Var 1, Var 1".into(), vec![2]));
        same(cells, call);
    }
}

#[test]
fn p7_arguments_are_bound_first_to_last() {
    let cells = "0, Str 2, f/2, Var 3, a, Str 6, f/2, Fixnum 7, Var 8";
    let bound = "0, Str 2, f/2, Fixnum 7, a, Str 6, f/2, Fixnum 7, a";
    assert_eq!(model(cells, "plain 1 5"), (1, bound.into(), vec![3, 8]));
    same(cells, "plain 1 5");
    same(cells, "checked 1 5");
}

#[test]
fn p8_a_dot_structure_is_a_pair() {
    let cells = "0, Str 2, '.'/2, a, [], Lis 6, a, []";
    assert_eq!(model(cells, "plain 1 5"), (1, cells.into(), vec![]));
    // The other order meets a fault of the originals; see the tests of their faults.
    same(cells, "plain 5 1");
}

#[test]
fn p9_a_structure_of_arity_0_is_its_atom() {
    let cells = "0, Str 2, a, a";
    assert_eq!(model(cells, "plain 1 3"), (1, cells.into(), vec![]));
    same(cells, "plain 1 3");
    same(cells, "plain 3 1");
}

#[test]
fn p10_a_shared_pair_is_copied_once() {
    let cells = "0, Str 2, h/2, Lis 5, Lis 5, a, []";
    let copied = format!("{cells}, Str 8, h/2, Lis 11, Lis 11, a, []");
    assert_eq!(model(cells, "copy 1"), (7, copied, vec![]));
    same(cells, "copy 1");
}
