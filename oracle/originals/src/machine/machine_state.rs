//! Written here. Stands in for src/machine/machine_state.rs and machine_state_impl.rs: the state
//! that unification works on, `bind`, and the heap as the copier sees it.

use crate::left_out::{Arena, F64Table, TypedArenaPtr, absent};
use crate::machine::copier::CopierTarget;
use crate::machine::heap::*;
use crate::machine::stack::Stack;
use crate::types::{HeapCellValue, Ref};
use dashu::Integer;
use fxhash::FxBuildHasher;
use indexmap::IndexSet;
use std::ops::{Index, IndexMut, Range};

pub struct MachineState {
    pub arena: Arena,
    pub heap: Heap,
    pub stack: Stack,
    pub pdl: Vec<(HeapCellValue, HeapCellValue)>,
    pub unify_tabu_list: IndexSet<(HeapCellValue, HeapCellValue), FxBuildHasher>,
    pub fail: bool,
}

impl MachineState {
    pub fn with_heap(heap: Heap) -> Self {
        MachineState {
            arena: Arena { f64_tbl: F64Table },
            heap,
            stack: Stack,
            pdl: vec![],
            unify_tabu_list: IndexSet::default(),
            fail: false,
        }
    }

    pub fn store(&self, cell: HeapCellValue) -> HeapCellValue {
        heap_bound_store(&self.heap, cell)
    }

    pub fn deref(&self, cell: HeapCellValue) -> HeapCellValue {
        heap_bound_deref(&self.heap, cell)
    }

    /// Binds as the rules say, since `bind` is not among the originals at hand: of two
    /// variables the higher names the lower, and else the variable gets the word.
    pub fn bind(&mut self, var: Ref, value: HeapCellValue) {
        match value.as_var() {
            Some(other) if other > var => {
                self.heap[other.get_value() as usize] = var.as_heap_cell_value();
            }
            _ => self.heap[var.get_value() as usize] = value,
        }
    }

    pub fn unify_big_int(&mut self, _: TypedArenaPtr<Integer>, _: HeapCellValue) {
        absent()
    }

    // Errors belong to the unifier that throws, which no case calls.

    pub fn representation_error(&mut self, _: RepFlag) -> ErrorTerm {
        absent()
    }

    pub fn error_form(&mut self, _: ErrorTerm, _: ErrorTerm) -> ErrorTerm {
        absent()
    }

    pub fn throw_exception(&mut self, _: ErrorTerm) {
        absent()
    }
}

pub struct ErrorTerm;

pub enum RepFlag {
    Term,
}

pub fn functor_stub(_: crate::atom_table::Atom, _: usize) -> ErrorTerm {
    absent()
}

/// The heap as the copier sees it: it reads and writes cells anywhere and adds them at the end.
pub struct CopyTarget<'a>(pub &'a mut MachineState);

impl Index<usize> for CopyTarget<'_> {
    type Output = HeapCellValue;
    fn index(&self, at: usize) -> &HeapCellValue {
        &self.0.heap[at]
    }
}

impl IndexMut<usize> for CopyTarget<'_> {
    fn index_mut(&mut self, at: usize) -> &mut HeapCellValue {
        &mut self.0.heap[at]
    }
}

impl CopierTarget for CopyTarget<'_> {
    fn store(&self, value: HeapCellValue) -> HeapCellValue {
        self.0.store(value)
    }
    fn deref(&self, value: HeapCellValue) -> HeapCellValue {
        self.0.deref(value)
    }
    fn push_attr_var_queue(&mut self, _: usize) {
        absent()
    }
    fn stack(&mut self) -> &mut Stack {
        &mut self.0.stack
    }
    fn threshold(&self) -> usize {
        self.0.heap.cell_len()
    }
    fn as_slice_from<'a>(&'a self, _: usize) -> Box<dyn Iterator<Item = u8> + 'a> {
        absent()
    }
    fn copy_pstr_to_threshold(&mut self, _: usize) -> Result<usize, AllocError> {
        absent()
    }
    fn reserve(&mut self, num_cells: usize) -> Result<HeapWriter<'_>, AllocError> {
        self.0.heap.reserve(num_cells)
    }
    fn copy_slice_to_end(&mut self, bounds: Range<usize>) -> Result<(), AllocError> {
        self.0.heap.copy_slice_to_end(bounds)
    }
}
