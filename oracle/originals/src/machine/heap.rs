//! Written here. Stands in for src/machine/heap.rs: a growing row of cells. It counts every
//! access and ends a run that passes its budget or leaves the row.

use crate::left_out::absent;
use crate::types::HeapCellValue;
use std::cell::Cell;
use std::ops::{Index, IndexMut, Range};

pub use crate::left_out::{HeapStringScan, PStrSegmentCmpResult};

/// Why the heap ended a run.
#[derive(Debug)]
pub enum HeapStop {
    BudgetSpent,
    OutOfRange(usize),
}

#[derive(Debug)]
pub struct Heap {
    cells: Vec<HeapCellValue>,
    sink: HeapCellValue,
    accesses: Cell<u64>,
    budget: u64,
}

#[derive(Debug)]
pub struct AllocError;

impl Heap {
    pub fn with_cells(cells: Vec<HeapCellValue>, budget: u64) -> Self {
        Heap {
            cells,
            sink: HeapCellValue::new(),
            accesses: Cell::new(0),
            budget,
        }
    }

    pub fn cells(&self) -> &[HeapCellValue] {
        &self.cells
    }

    pub fn cell_len(&self) -> usize {
        self.cells.len()
    }

    pub fn push_cell(&mut self, cell: HeapCellValue) {
        self.spend();
        self.cells.push(cell);
    }

    pub fn reserve(&mut self, _: usize) -> Result<HeapWriter<'_>, AllocError> {
        Ok(HeapWriter { heap: self })
    }

    pub fn copy_slice_to_end(&mut self, bounds: Range<usize>) -> Result<(), AllocError> {
        for at in bounds {
            let cell = self[at];
            self.push_cell(cell);
        }
        Ok(())
    }

    /// Counts one access. True while the budget lasts.
    fn spend(&self) -> bool {
        self.accesses.set(self.accesses.get() + 1);
        let within = self.accesses.get() <= self.budget;
        if !within {
            self.end(HeapStop::BudgetSpent);
        }
        within
    }

    /// Counts an access to a cell. True if the cell may be touched.
    fn may_touch(&self, at: usize) -> bool {
        let inside = at < self.cells.len();
        if !inside {
            self.end(HeapStop::OutOfRange(at));
        }
        self.spend() && inside
    }

    /// Unwinds out of the run. An iterator dropped on the way touches cells once more; a second
    /// panic there would end the process, so those accesses go to the sink.
    fn end(&self, why: HeapStop) {
        if !std::thread::panicking() {
            std::panic::resume_unwind(Box::new(why));
        }
    }
}

impl Index<usize> for Heap {
    type Output = HeapCellValue;

    fn index(&self, at: usize) -> &HeapCellValue {
        if self.may_touch(at) {
            &self.cells[at]
        } else {
            &self.sink
        }
    }
}

impl IndexMut<usize> for Heap {
    fn index_mut(&mut self, at: usize) -> &mut HeapCellValue {
        if self.may_touch(at) {
            &mut self.cells[at]
        } else {
            &mut self.sink
        }
    }
}

pub struct HeapWriter<'a> {
    heap: &'a mut Heap,
}

impl HeapWriter<'_> {
    pub fn write_with(&mut self, write: impl FnOnce(&mut Heap)) {
        write(self.heap);
    }
}

pub trait SizedHeap: Index<usize, Output = HeapCellValue> {
    fn scan_slice_to_str(&self, at: usize) -> HeapStringScan;
}

impl SizedHeap for Heap {
    fn scan_slice_to_str(&self, _: usize) -> HeapStringScan {
        absent()
    }
}

/// The word that a variable names, or the word itself.
pub fn heap_bound_store(heap: &impl SizedHeap, cell: HeapCellValue) -> HeapCellValue {
    match cell.as_var() {
        Some(var) => heap[var.get_value() as usize],
        None => cell,
    }
}

/// The last variable of a chain, or the word itself if it is no variable.
pub fn heap_bound_deref(heap: &impl SizedHeap, mut cell: HeapCellValue) -> HeapCellValue {
    loop {
        let next = heap_bound_store(heap, cell);
        if !next.is_var() || next == cell {
            return cell;
        }
        cell = next;
    }
}
