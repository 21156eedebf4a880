//! What must hold of the model and of the canonical form whatever the store, on random ones: the
//! comparison with the originals stands on both.

use oracle::canon;
use oracle::case::{Answer, Call, Case, Engine, Outcome};
use oracle::heaps::{Random, made, random_calls, random_store, random_twins};
use oracle::model::{Model, cyclic};
use oracle::notation::{parse_cells, show_cells};
use oracle::store::{root_cells, well_formed};

fn answer(cells: &[u64], call: Call) -> Option<(usize, Vec<u64>)> {
    match Model.run(Case { cells, call }) {
        Outcome::Answered(Answer {
            value,
            cells: Ok(c),
            ..
        }) => Some((value, c)),
        _ => None,
    }
}

/// The text of one root's term, without the root's own number.
fn term(cells: &[u64], root: usize) -> String {
    let text = canon::form(cells, cells.len(), &[root]);
    text.split_once(':').expect("a root").1.into()
}

fn each_pair(mut visit: impl FnMut(&[u64], usize, usize)) {
    let mut random = Random::new(2026);
    for _ in 0..3000 {
        let cells = random_store(&mut random, 16);
        for call in random_calls(&mut random, &cells) {
            if let Call::Plain(a, b) = call {
                visit(&cells, a, b);
            }
        }
        if let Some((cells, a, b)) = random_twins(&mut random, 12) {
            visit(&cells, a, b);
        }
    }
}

#[test]
fn stores_are_well_formed_and_stay_so() {
    assert!(made().iter().all(|(cells, _, _)| well_formed(cells)));
    each_pair(|cells, a, b| {
        assert!(well_formed(cells), "{}", show_cells(cells));
        for call in [Call::Plain(a, b), Call::Checked(a, b), Call::Copy(a)] {
            if let Some((_, after)) = answer(cells, call) {
                assert!(well_formed(&after), "{}", show_cells(&after));
            }
        }
    });
}

#[test]
fn yes_makes_the_roots_equal() {
    each_pair(|cells, a, b| {
        for call in [Call::Plain(a, b), Call::Checked(a, b)] {
            if let Some((1, after)) = answer(cells, call) {
                assert_eq!(term(&after, a), term(&after, b), "{}", show_cells(cells));
            }
        }
    });
}

/// The two orders bind in different directions and by different words, but mean the same.
#[test]
fn the_order_of_the_roots_does_not_matter() {
    each_pair(|cells, a, b| {
        let roots = root_cells(cells);
        let meaning = |call| {
            let (value, after) = answer(cells, call)?;
            Some((value, canon::form(&after, after.len(), &roots)))
        };
        assert_eq!(meaning(Call::Plain(a, b)), meaning(Call::Plain(b, a)));
        assert_eq!(meaning(Call::Checked(a, b)), meaning(Call::Checked(b, a)));
    });
}

/// Checked says yes exactly when plain does and the roots stay free of cycles.
#[test]
fn checked_is_plain_without_a_new_cycle() {
    each_pair(|cells, a, b| {
        let Some((checked, _)) = answer(cells, Call::Checked(a, b)) else {
            return;
        };
        let (plain, after) = answer(cells, Call::Plain(a, b)).expect("plain always answers");
        let wanted = plain == 1 && !cyclic(&after, a);
        assert_eq!(checked == 1, wanted, "{}", show_cells(cells));
    });
}

#[test]
fn a_copy_means_the_same_term_with_new_variables() {
    each_pair(|cells, a, _| {
        let (at, after) = answer(cells, Call::Copy(a)).expect("a copy is always made");
        assert!(after.starts_with(cells));
        assert_eq!(term(&after, a), term(&after, at), "{}", show_cells(cells));
        // No variable is shared, so together the two have twice the names of one.
        let both = canon::form(&after, after.len(), &[a, at]);
        let one = term(&after, a);
        assert_eq!(
            variables(&both),
            2 * variables(&one),
            "{}",
            show_cells(cells)
        );
    });
}

/// How many variables a text names.
fn variables(text: &str) -> usize {
    let numbers = text.split('_').skip(1).map(|rest| {
        let digits: String = rest.chars().take_while(char::is_ascii_digit).collect();
        digits.parse().expect("a number after an underscore")
    });
    numbers.max().unwrap_or(0)
}

/// A cyclic list of a's, told by one pair, by two pairs, and by '.'/2 with arity-0 Str and Var.
#[test]
fn canonical_form_merges_what_means_the_same() {
    let text = "0, Lis 2, a, Var 1, Lis 5, a, Lis 5, Str 8, '.'/2, Str 11, Var 7, a";
    let cells = parse_cells(text).expect("cells");
    let form = canon::form(&cells, cells.len(), &[1, 4, 7]);
    assert_eq!(form, "1:'.'('a',#1) 4:#1 7:#1");
}

#[test]
fn canonical_form_takes_any_words() {
    let cells =
        parse_cells("0, Var 9, Var 3, Var 2, Str 1, f/2, 0x0d00000000000001").expect("cells");
    let form = canon::form(&cells, cells.len(), &[1, 2, 4, 5, 6, 40]);
    let bad =
        ["800000000000001", "1000000200000066", "d00000000000001"].map(|w| format!("bad0x{w}"));
    let wanted = format!(
        "1:nowhere 2:nowhere 4:{} 5:{} 6:{} 40:nowhere",
        bad[0], bad[1], bad[2]
    );
    assert_eq!(form, wanted);
}
