//! The Rust originals, unchanged, with the parts of the machine that they lean on.
//!
//! unify.rs, copier.rs, cycle_detection.rs, types.rs and heap_iter.rs are taken from the folder
//! that the environment variable ORIGINALS names at build time. Everything else in this crate is
//! a helper written here; each file says in its first lines what it stands in for.
//! The module names follow the originals, which import by them.

extern crate registry as dashu;
extern crate registry as derive_more;
extern crate registry as fxhash;
extern crate registry as indexmap;
extern crate registry as modular_bitfield;
extern crate registry as num_order;
extern crate registry as ordered_float;

#[macro_use]
mod macros;
mod atom_table;
mod layout;
mod left_out;
mod machine;
mod run;

mod arena {
    pub use crate::left_out::{Arena, ArenaAllocated, ArenaHeader, ArenaHeaderTag, TypedArenaPtr};
    pub use registry::prelude::*;
}

mod forms {
    pub use crate::left_out::{GInteger, Number};
}

mod offset_table {
    pub use crate::left_out::{CodeIndexOffset, F64Offset, F64Table};
}

mod parser {
    pub mod ast {
        pub use crate::atom_table::Fixnum;
        pub use crate::left_out::Literal;
    }
    pub mod lexer {
        pub(crate) use crate::machine::machine_state::MachineState;
    }
}

#[allow(warnings)]
mod types {
    include!(concat!(env!("ORIGINALS"), "/types.rs"));
}

#[allow(warnings)]
mod heap_iter {
    include!(concat!(env!("ORIGINALS"), "/heap_iter.rs"));
}

pub use run::{Cyclic, Stop, copy, cyclic, unify};
