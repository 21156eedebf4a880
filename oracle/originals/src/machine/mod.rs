//! Written here. Stands in for src/machine/mod.rs: it holds the three originals and the parts of
//! the machine that they are handed.

pub mod heap;
pub mod machine_state;

pub mod machine_indices {
    //! The standard order's kinds of term, which types.rs names; nothing here compares by it.
    #[derive(Clone, Copy, Debug, PartialEq, Eq, PartialOrd, Ord)]
    pub enum TermOrderCategory {
        Variable,
        FloatingPoint,
        Integer,
        Atom,
        Compound,
    }
}

pub mod stack {
    //! The stack of the machine. Stack variables are left out, so it has no cells.
    use crate::left_out::absent;
    use crate::types::HeapCellValue;

    #[derive(Debug)]
    pub struct Stack;

    impl std::ops::Index<usize> for Stack {
        type Output = HeapCellValue;
        fn index(&self, _: usize) -> &HeapCellValue {
            absent()
        }
    }

    impl std::ops::IndexMut<usize> for Stack {
        fn index_mut(&mut self, _: usize) -> &mut HeapCellValue {
            absent()
        }
    }
}

pub mod streams {
    //! Streams are left out; types.rs imports this module by name.
}

#[allow(warnings)]
pub mod copier {
    include!(concat!(env!("ORIGINALS"), "/copier.rs"));
}

#[allow(warnings)]
pub mod cycle_detection {
    include!(concat!(env!("ORIGINALS"), "/cycle_detection.rs"));
}

#[allow(warnings)]
pub mod unify {
    include!(concat!(env!("ORIGINALS"), "/unify.rs"));
}

// unify.rs finds these through its import of everything in this module.
use crate::atom_table::{Atom, Fixnum};
use crate::left_out::PStrSegmentCmpResult;
use crate::types::HeapCellValue;
use dashu::{Integer, Rational};

/// Index cells beside inlined goals are left out, so no cell is one.
pub(crate) fn get_structure_index(_: HeapCellValue) -> Option<()> {
    None
}
