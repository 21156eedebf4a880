//! Written here. Stands in for the macros of src/macros.rs, src/arena.rs and the crate
//! static_assertions: how the originals read and build cells.

/// A check at build time.
macro_rules! const_assert {
    ($condition:expr) => {
        const _: () = assert!($condition);
    };
}

/// Branches on the tag of a cell and names what the cell holds.
macro_rules! read_heap_cell {
    ($cell:expr,
     $((HeapCellValueTag::$tag:ident $(| HeapCellValueTag::$more:ident)* $(, $held:pat)?)
       => $body:block)*
     _ => $rest:block $(,)?) => {{
        let cell = $cell;
        match cell.get_tag() {
            $(HeapCellValueTag::$tag $(| HeapCellValueTag::$more)* => {
                $(let $held = held_by_cell!($tag, cell);)?
                $body
            })*
            _ => $rest
        }
    }};
}

/// What a cell of this tag holds: for most kinds a cell number.
macro_rules! held_by_cell {
    (Atom, $cell:expr) => {
        cell_as_atom_cell!($cell).get_name_and_arity()
    };
    (Fixnum, $cell:expr) => {
        crate::parser::ast::Fixnum::from_bytes($cell.into_bytes())
    };
    (CutPoint, $cell:expr) => {
        crate::parser::ast::Fixnum::from_bytes($cell.into_bytes())
    };
    (Cons, $cell:expr) => {
        crate::types::UntypedArenaPtr::from_bytes($cell.into_bytes())
    };
    (F64Offset, $cell:expr) => {
        crate::offset_table::F64Offset::from_cell($cell)
    };
    (CodeIndexOffset, $cell:expr) => {
        crate::offset_table::CodeIndexOffset::from_cell($cell)
    };
    ($tag:ident, $cell:expr) => {
        $cell.get_value() as usize
    };
}

/// Branches on what an arena pointer points to; the engine has no arena values.
macro_rules! match_untyped_arena_ptr {
    ($ptr:expr,
     $((ArenaHeaderTag::$tag:ident, $held:ident) => $body:block)*
     _ => $rest:block $(,)?) => {
        match $ptr.get_tag() {
            $(ArenaHeaderTag::$tag => {
                let $held = crate::left_out::absent::<crate::left_out::pointer::$tag>();
                $body
            })*
            _ => $rest
        }
    };
}

macro_rules! atom {
    (".") => {
        crate::atom_table::Atom::DOT
    };
    ("[]") => {
        crate::atom_table::Atom::NIL
    };
    ($other:literal) => {
        crate::left_out::absent::<crate::atom_table::Atom>()
    };
}

macro_rules! cell_of {
    ($tag:ident, $value:expr) => {
        crate::types::HeapCellValue::build_with(
            crate::types::HeapCellValueTag::$tag,
            ($value) as u64,
        )
    };
}

macro_rules! heap_loc_as_cell {
    ($at:expr) => {
        cell_of!(Var, $at)
    };
}

macro_rules! str_loc_as_cell {
    ($at:expr) => {
        cell_of!(Str, $at)
    };
}

macro_rules! list_loc_as_cell {
    ($at:expr) => {
        cell_of!(Lis, $at)
    };
}

macro_rules! pstr_loc_as_cell {
    ($at:expr) => {
        cell_of!(PStrLoc, $at)
    };
}

macro_rules! attr_var_as_cell {
    ($at:expr) => {
        cell_of!(AttrVar, $at)
    };
}

macro_rules! stack_loc_as_cell {
    ($at:expr) => {
        cell_of!(StackVar, $at)
    };
}

macro_rules! atom_as_cell {
    ($name:expr) => {
        atom_as_cell!($name, 0)
    };
    ($name:expr, $arity:expr) => {
        crate::types::HeapCellValue::from_bytes(
            crate::atom_table::AtomCell::build($name, $arity).into_bytes(),
        )
    };
}

macro_rules! char_as_cell {
    ($c:expr) => {
        atom_as_cell!(crate::atom_table::Atom { index: $c as u64 })
    };
}

macro_rules! fixnum_as_cell {
    ($number:expr) => {
        crate::types::HeapCellValue::from_bytes($number.into_bytes())
    };
}

macro_rules! typed_arena_ptr_as_cell {
    ($ptr:expr) => {
        crate::types::HeapCellValue::from($ptr)
    };
}

macro_rules! untyped_arena_ptr_as_cell {
    ($ptr:expr) => {
        crate::types::HeapCellValue::from_bytes($ptr.into_bytes())
    };
}

macro_rules! cell_as_atom_cell {
    ($cell:expr) => {
        crate::atom_table::AtomCell::from_bytes($cell.into_bytes())
    };
}

macro_rules! cell_as_f64_offset {
    ($cell:expr) => {
        crate::offset_table::F64Offset::from_cell($cell)
    };
}

/// The cell without its mark and forwarding bits.
macro_rules! unmark_cell_bits {
    ($cell:expr) => {{
        let mut cell = $cell;
        cell.set_mark_bit(false);
        cell.set_forwarding_bit(false);
        cell
    }};
}

macro_rules! float_alloc {
    ($float:expr, $arena:expr) => {
        $arena.f64_tbl.build_with($float)
    };
}

/// The first byte of a cell.
macro_rules! heap_index {
    ($cell:expr) => {
        ($cell) * 8
    };
}

/// The cell that holds a byte.
macro_rules! cell_index {
    ($byte:expr) => {
        ($byte) / 8
    };
}
