//! A case: everything lent for a marked run, as one case file (document 01's bench file) gives it.

use crate::register_size::RegisterSize;

/// "A variable has type, start byte and element count (at least 1)."
#[derive(Clone, Copy, Debug, Default, PartialEq, Eq)]
pub struct Variable {
    pub type_code: u8,
    pub start: u16,
    pub count: u16,
}

/// Document 02, request 3: "Each predicate's record gains a count from 1 to 32".
#[derive(Clone, Copy, Debug, Default, PartialEq, Eq)]
pub struct Predicate {
    pub bits: u32,
    /// How many elements it has; bits at or past the count may be anything.
    pub count: u8,
}

impl Predicate {
    /// One of all 32 elements.
    pub const fn of_32(bits: u32) -> Predicate {
        Predicate { bits, count: 32 }
    }
}

/// "Lent for a run: kernel bytes, register file, surface bytes, memory window with its 64-bit base,
/// three tables, a 32-bit execution mask EM."
///
/// Taint is document 01's mark: "one mark byte for each register, surface and memory byte; non-zero
/// is marked".
#[derive(Clone, Debug, Default, PartialEq, Eq)]
pub struct Case {
    /// Document 02, request 5: the size that the run chooses.
    pub register_size: RegisterSize,
    pub kernel: Vec<u8>,
    /// The register file.
    pub registers: Vec<u8>,
    pub variables: Vec<Variable>,
    pub predicates: Vec<Predicate>,
    pub surfaces: Vec<Vec<u8>>,
    /// The base of the memory window.
    pub base: u64,
    /// The bytes of the memory window.
    pub memory: Vec<u8>,
    /// EM.
    pub execution_mask: u32,
    pub register_taint: Vec<u8>,
    /// One buffer over all surfaces in their order.
    pub surface_taint: Vec<u8>,
    pub memory_taint: Vec<u8>,
}

impl Case {
    /// Where a surface's first byte stands in the taint of all surfaces.
    pub fn surface_taint_start(&self, surface: usize) -> usize {
        self.surfaces[..surface].iter().map(Vec::len).sum()
    }

    pub fn surface_bytes(&self) -> usize {
        self.surfaces.iter().map(Vec::len).sum()
    }
}
