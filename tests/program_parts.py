"""What the programs of `soak_program.py` and `refused_program.py` have in common."""

# A file of the program.
ORDER = """//! An order as its file has it.

ghost use Rattle.std.specs.Prelude.{IsTrue, IfOk, IfSome};
ghost use Rattle.store_files.specs.Order.{keeps_rules};

use order_file::{put_order, read_order};
use port_traits::MemSink;
use std::alloc::{AllocError, Global};
use store_types::Entry;

/// The order as it is read from its file, for so many lanes. None where the file has no reading, or another one.
#[tactic(auto, unfolding(store_files::specs::Order::order_of))]
pub fn read_again(
    alloc: Global,
    lanes: u32,
    order: &[Entry],
) -> Result<Option<Vec<Entry>>, AllocError>
    ensures { IfOk result (λ found. IfSome found (λ v. IsTrue (keeps_rules lanes v.items))) }
{
    let mut file = MemSink::new(alloc, Vec::new(alloc));
    if put_order(&mut file, order).is_err() {
        return Ok(None);
    }
    match read_order(alloc, lanes, file.as_bytes())? {
        Some(found) if found.as_slice() == order => Ok(Some(found)),
        _ => Ok(None),
    }
}
"""

# What is wrong where memory is wanting: the enum `Wrong` of a program has that as `NoMemory`.
FROM_MEMORY = """impl From<AllocError> for Wrong {
    fn from(_: AllocError) -> Wrong {
        Wrong::NoMemory
    }
}

impl<T: Drop> From<AllocFailed<T>> for Wrong {
    fn from(_: AllocFailed<T>) -> Wrong {
        Wrong::NoMemory
    }
}

impl From<DiskError> for Wrong {
    fn from(_: DiskError) -> Wrong {
        Wrong::NoMemory
    }
}

"""
