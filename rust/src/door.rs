//! The calls of the proved library, whose header is `c/yaml_c.h`. All `unsafe` of the crate stands in this file.

use crate::error::{self, Error, Fault};
use crate::rows::Row;
use std::alloc::{alloc_zeroed, Layout};

#[repr(C)]
#[derive(Default)]
struct Sizes {
    rows: u64,
    texts: u64,
}

// The ABI that this file is written for, and the answers of the calls.
const VERSION: u32 = 1;
const OK: u32 = 0;
const NO_MEMORY: u32 = 1;
const MORE_ROOM: u32 = 2;

extern "C" {
    fn yaml_c_version() -> u32;
    fn yaml_c_load(
        text: *const u8,
        text_len: usize,
        rows: *mut Row,
        row_room: usize,
        texts: *mut u8,
        text_room: usize,
        sizes: *mut Sizes,
    ) -> u32;
    fn yaml_c_print(
        rows: *const Row,
        row_count: usize,
        source: *const u8,
        source_len: usize,
        texts: *const u8,
        texts_len: usize,
        out: *mut u8,
        out_room: usize,
        sizes: *mut Sizes,
    ) -> u32;
}

/// What zeros are a value of.
trait Zero: Copy {}
impl Zero for u8 {}
impl Zero for Row {}

// Zeros, or a fault where there is no memory for them.
fn zeros<T: Zero>(count: usize) -> Result<Vec<T>, Error> {
    let count = count.max(1);
    let layout = Layout::array::<T>(count).map_err(|_| error::new(Fault::Memory))?;
    // SAFETY: the layout is not of size 0, since the count is at least 1 and each `Zero` has a size.
    let start = unsafe { alloc_zeroed(layout) }.cast::<T>();
    if start.is_null() {
        return Err(error::new(Fault::Memory));
    }
    // SAFETY: `start` is from the allocator of `Vec`, for this many `T`, each of which is zeros, and so a `T`.
    Ok(unsafe { Vec::from_raw_parts(start, count, count) })
}

// Whether the archive that was linked is the one that this file is written for.
fn check_version() -> Result<(), Error> {
    // SAFETY: it takes nothing, and answers a constant.
    if unsafe { yaml_c_version() } == VERSION {
        return Ok(());
    }
    Err(error::new(Fault::Version))
}

/// The rows of a text's documents, and the texts that don't stand in it. So many rows are likely.
pub(crate) fn load(text: &[u8], likely_rows: usize) -> Result<(Vec<Row>, Vec<u8>), Error> {
    check_version()?;
    let (mut row_room, mut text_room) = (likely_rows, text.len() / 4 + 64);
    loop {
        let (mut rows, mut texts) = (zeros::<Row>(row_room)?, zeros::<u8>(text_room)?);
        let mut sizes = Sizes::default();
        // SAFETY: declaration and types are the header's. Each pointer with its length is that of a slice or a value,
        // which is aligned and initialized; the three that are written to are borrowed as mutable, so none overlaps.
        let answer = unsafe {
            yaml_c_load(
                text.as_ptr(),
                text.len(),
                rows.as_mut_ptr(),
                rows.len(),
                texts.as_mut_ptr(),
                texts.len(),
                &mut sizes,
            )
        };
        match answer {
            OK => {
                rows.truncate(sizes.rows as usize);
                texts.truncate(sizes.texts as usize);
                return Ok((rows, texts));
            }
            MORE_ROOM => (row_room, text_room) = (sizes.rows as usize, sizes.texts as usize),
            _ => return Err(error::new(Fault::Memory)),
        }
    }
}

/// The text of a stream of documents, whose texts and tags stand in `texts`.
pub(crate) fn print(rows: &[Row], texts: &[u8]) -> Result<Vec<u8>, Error> {
    check_version()?;
    let mut room = texts.len() + rows.len() * 4 + 64;
    loop {
        let mut out = zeros::<u8>(room)?;
        let mut sizes = Sizes::default();
        let source: &[u8] = &[];
        // SAFETY: as of `load`; `out` and `sizes` are written to.
        let answer = unsafe {
            yaml_c_print(
                rows.as_ptr(),
                rows.len(),
                source.as_ptr(),
                source.len(),
                texts.as_ptr(),
                texts.len(),
                out.as_mut_ptr(),
                out.len(),
                &mut sizes,
            )
        };
        match answer {
            OK => {
                out.truncate(sizes.texts as usize);
                return Ok(out);
            }
            MORE_ROOM => room = sizes.texts as usize,
            NO_MEMORY => return Err(error::new(Fault::Memory)),
            _ => return Err(error::new(Fault::NoDocument)),
        }
    }
}
