//! Growth of lists for which memory may be refused: that is answered, and doesn't end the program.

use crate::renderer::RenderError;

/// That there was no memory. A call that tells this alone tells it in a register.
pub(crate) struct NoMemory;

impl From<NoMemory> for RenderError {
    fn from(_: NoMemory) -> Self {
        RenderError::Memory
    }
}

/// Whether there was memory for what is written.
pub(crate) type Written = Result<(), NoMemory>;

/// Makes room for so many more members.
#[inline(always)]
pub(crate) fn reserve<T>(count: usize, out: &mut Vec<T>) -> Written {
    if count <= out.capacity() - out.len() {
        return Ok(());
    }
    grow(count, out)
}

#[cold]
#[inline(never)]
fn grow<T>(count: usize, out: &mut Vec<T>) -> Written {
    out.try_reserve(count).map_err(|_| NoMemory)
}

/// Appends these bytes.
#[inline(always)]
pub(crate) fn put(bytes: &[u8], out: &mut Vec<u8>) -> Written {
    reserve(bytes.len(), out)?;
    out.extend_from_slice(bytes);
    Ok(())
}
