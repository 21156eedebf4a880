//! The faults of the originals on well-formed cells, each on the smallest store found for it (and
//! some on a plainer one): what the originals do, what the rules say, and that the input alone
//! foretells the difference.

use oracle::case::{Case, Engine, Outcome};
use oracle::compare::{Finding, cells_added, judge, meaning};
use oracle::expect::{Cause, causes};
use oracle::model::Model;
use oracle::notation::{parse_call, parse_cells};
use oracle::rust::Originals;

const BUDGET: u64 = 100_000;

struct Fault<'a> {
    cells: &'a str,
    call: &'a str,
    cause: Cause,
    model: &'a str,
    originals: &'a str,
}

/// Both outcomes on a case, and what comes of comparing them.
struct Run {
    texts: [String; 2],
    added: [Option<usize>; 2],
    causes: Vec<Cause>,
    finding: Finding,
}

fn run(cells: &str, call: &str) -> Run {
    let cells = parse_cells(cells).expect("cells");
    let words: Vec<&str> = call.split(' ').collect();
    let call = parse_call(&words).expect("a call");
    let case = Case {
        cells: &cells,
        call,
    };
    let both: [Outcome; 2] = [Model.run(case), Originals { budget: BUDGET }.run(case)];
    let causes = causes(case);
    Run {
        texts: both.each_ref().map(|o| meaning(case, o)),
        added: both.each_ref().map(|o| cells_added(case, o)),
        finding: judge(case, &causes, &both[0], &both[1]),
        causes,
    }
}

fn check(fault: Fault) {
    let run = run(fault.cells, fault.call);
    assert_eq!(run.texts, [fault.model, fault.originals]);
    assert!(run.causes.contains(&fault.cause), "{:?}", run.causes);
    assert_eq!(run.finding, Finding::Differed);
}

mod unify {
    use super::*;

    /// A Str of '.'/2 on the left of a Lis is compared with the two cells after the pair's first.
    fn dot_and_lis(cells: &str, call: &str, model: &str, originals: &str) {
        let cause = Cause::DotAndLis;
        check(Fault {
            cells,
            call,
            cause,
            model,
            originals,
        });
    }

    #[test]
    fn says_no_to_equal_lists() {
        dot_and_lis(
            "0, '.'/2, Lis 2, Str 1, a",
            "plain 3 2",
            "yes, 2:'.'(#1,#1) 3:#1 4:'a'",
            "no",
        );
        dot_and_lis(
            "0, Str 2, '.'/2, a, [], Lis 6, a, []",
            "plain 1 5",
            "yes, 1:'.'('a',[]) 3:'a' 4:[] 5:#1 6:'a' 7:[]",
            "no",
        );
        dot_and_lis(
            "0, '.'/2, [], [], Lis 2, Str 1",
            "checked 5 4",
            "yes, 2:[] 3:[] 4:'.'([],[]) 5:#1",
            "no",
        );
    }

    #[test]
    fn says_yes_to_different_lists() {
        dot_and_lis(
            "0, '.'/2, Str 1, a, Lis 3, a",
            "plain 2 4",
            "no",
            "yes, 2:'.'(#1,'a') 3:'a' 4:'.'('a',#2) 5:'a'",
        );
        dot_and_lis(
            "0, Str 2, '.'/2, a, b, Lis 6, [], a, b",
            "plain 1 5",
            "no",
            "yes, 1:'.'('a','b') 3:'a' 4:'b' 5:'.'([],'a') 6:[] 7:'a' 8:'b'",
        );
    }

    #[test]
    fn reads_past_the_store() {
        dot_and_lis(
            "0, '.'/2, Lis 2, Str 1",
            "plain 3 2",
            "yes, 2:'.'(#1,#1) 3:#1",
            "index 4 out of range",
        );
    }

    #[test]
    fn binds_a_variable_to_a_header() {
        dot_and_lis(
            "0, Str 3, Lis 1, '.'/2, Lis 1, Var 5",
            "plain 1 4",
            "yes, 1:'.'(#1,#1) 2:#1 4:#1 5:#1",
            "yes, 1:'.'('.'(#1,#2),bad0x100000020000002e) 2:#2 4:#2 5:bad0x100000020000002e",
        );
    }

    #[test]
    fn binds_a_variable_that_the_roots_do_not_reach() {
        dot_and_lis(
            "0, '.'/2, Lis 2, Str 1, Var 4",
            "plain 3 2",
            "yes, 2:'.'(#1,#1) 3:#1 4:_1",
            "yes, 2:'.'(#1,#1) 3:#1 4:#1",
        );
    }

    /// Pairs whose two cells name the next pair: the occurs check takes 2^levels ways.
    fn doubled(levels: usize) -> String {
        let mut cells = String::from("0, Var 1, Lis 3");
        for level in 1..levels {
            let next = 2 * level + 3;
            cells += &format!(", Lis {next}, Lis {next}");
        }
        cells + ", a, a"
    }

    #[test]
    fn occurs_check_walks_a_shared_term_once_for_each_way() {
        assert_eq!(run(&doubled(8), "checked 1 2").finding, Finding::Agreed);
        let long = run(&doubled(20), "checked 1 2");
        assert_eq!(long.texts[1], "budget spent");
        assert_eq!(long.finding, Finding::NoAnswer);
        assert_eq!(run(&doubled(20), "plain 1 2").finding, Finding::Agreed);
    }
}

mod copy {
    use super::*;

    fn copied(cause: Cause, cells: &str, call: &str, model: &str, originals: &str) {
        check(Fault {
            cells,
            call,
            cause,
            model,
            originals,
        });
    }

    #[test]
    fn overlapping_pairs_give_another_term() {
        copied(
            Cause::OverlappingPairs,
            "0, Lis 2, Lis 1, a",
            "copy 1",
            "1:'.'('.'(#1,#2),'a') 4:#1, cells as before",
            "1:'.'('.'(#1,#2),'a') 4:'.'('.'(#4,#4),'a'), cells as before",
        );
    }

    #[test]
    fn overlapping_pairs_give_a_cyclic_copy_of_a_finite_term() {
        copied(
            Cause::OverlappingPairs,
            "0, Lis 2, Lis 3, a, b",
            "copy 1",
            "1:'.'('.'('a','b'),'a') 5:#1, cells as before",
            "1:'.'('.'('a','b'),'a') 5:'.'(#3,'a'), cells as before",
        );
    }

    #[test]
    fn a_pair_in_arguments_leaves_bits_in_new_cells() {
        copied(
            Cause::PairInArguments,
            "0, '.'/2, Lis 2, Str 1",
            "copy 2",
            "2:'.'(#1,#1) 4:#1, cells as before",
            "2:'.'(#1,#1) 4:'.'(#2,'.'(#2,bad0xf00000000000005)), cells as before",
        );
        copied(
            Cause::PairInArguments,
            "0, Lis 2, Lis 5, Str 4, f/2, a, Var 6",
            "copy 1",
            "1:'.'('.'('a',_1),'f'('a',_1)) 7:'.'('.'('a',_2),'f'('a',_2)), cells as before",
            "1:'.'('.'('a',_1),'f'('a',_1)) \
             7:'.'('.'('a',_2),'f'(bad0xd0000000000000a,_2)), cells as before",
        );
    }

    #[test]
    fn an_atom_cell_reached_twice_never_ends() {
        copied(
            Cause::AtomCellReached,
            "0, Lis 2, Str 4, Var 4, a",
            "copy 1",
            "1:'.'('a','a') 5:#1, cells as before",
            "budget spent",
        );
    }

    #[test]
    fn an_atom_cell_reached_twice_panics() {
        copied(
            Cause::AtomCellReached,
            "0, Lis 2, Str 3, a",
            "copy 1",
            "1:'.'('a','a') 4:#1, cells as before",
            "panicked: internal error: entered unreachable code",
        );
    }

    #[test]
    fn an_atom_cell_reached_twice_changes_an_old_cell() {
        copied(
            Cause::AtomCellReached,
            "0, Str 4, Lis 3, Lis 1, a",
            "copy 3",
            "3:'.'('a','.'(#1,'a')) 5:#1, cells as before",
            "3:'.'(bad0x800000000000004,'.'(#1,'a')) 5:'.'('a','.'(#3,'a')), cells changed",
        );
    }

    #[test]
    fn a_shared_pair_of_unbound_variables_is_copied_twice() {
        let run = run("0, Lis 2, Lis 4, Var 2, Var 4, Var 4", "copy 1");
        assert_eq!(run.texts[0], run.texts[1]);
        assert_eq!(run.added, [Some(5), Some(7)]);
        assert_eq!(run.causes, [Cause::PairCopiedTwice]);
        assert_eq!(run.finding, Finding::Differed);
    }
}

mod cyclic {
    use super::*;

    /// The verdict is right; the cells are not put back.
    fn left(cause: Cause, cells: &str, call: &str, originals: &str) {
        let model = "yes, cells as before";
        check(Fault {
            cells,
            call,
            cause,
            model,
            originals,
        });
    }

    #[test]
    fn overlapping_pairs_leave_a_cell_changed() {
        left(
            Cause::OverlappingPairs,
            "0, Lis 2, a, Lis 1",
            "cyclic 1",
            "yes, cells changed",
        );
    }

    #[test]
    fn a_pair_in_arguments_leaves_a_cell_changed() {
        left(
            Cause::PairInArguments,
            "0, f/3, Lis 2, a, Var 2, Str 1",
            "cyclic 5",
            "yes, cells changed",
        );
    }

    #[test]
    fn dropping_the_search_leaves_the_store() {
        left(
            Cause::OverlappingPairs,
            "0, Lis 4, Var 1, Lis 1, a, Lis 3",
            "cyclic 3",
            "yes, cells not put back: index 6 out of range",
        );
    }

    #[test]
    fn dropping_the_search_never_ends() {
        left(
            Cause::PairInArguments,
            "0, Lis 2, Var 3, Str 4, f/3, Lis 6, Lis 1, Var 1",
            "cyclic 5",
            "yes, cells not put back: budget spent",
        );
    }
}
