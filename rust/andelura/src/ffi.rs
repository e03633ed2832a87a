//! The functions of the proved library, and for each a safe one. All `unsafe` of the crate is in
//! this file.
//!
//! A slice passes as pointer and length. Each C function is total over all bytes, keeps no pointer,
//! and touches nothing but the slices that it is lent. A slice without bytes passes a pointer that
//! is not null and is not followed.

/// The state of a tape writer: phase, nodes, entries, names, source, inner, depth, and the length
/// that the last step gave.
pub(crate) type State = [u64; 8];

mod c {
    extern "C" {
        pub(super) fn andelura_serialize(
            file: *const u8,
            file_len: usize,
            out: *mut u8,
            out_len: usize,
            numbers: *mut u64,
            numbers_len: usize,
        ) -> u32;

        pub(super) fn andelura_window(
            file: *const u8,
            file_len: usize,
            from: usize,
            out: *mut u8,
            out_len: usize,
            numbers: *mut u64,
            numbers_len: usize,
        ) -> u32;

        pub(super) fn andelura_check(
            text: *const u8,
            text_len: usize,
            numbers: *mut u64,
            numbers_len: usize,
        ) -> u32;

        pub(super) fn andelura_find_names(
            file: *const u8,
            file_len: usize,
            numbers: *mut u64,
            numbers_len: usize,
        ) -> u32;

        pub(super) fn andelura_tape_start(
            state: *mut u64,
            state_len: usize,
            buf: *mut u8,
            buf_len: usize,
        ) -> u32;

        pub(super) fn andelura_tape_entry(
            state: *mut u64,
            state_len: usize,
            buf: *mut u8,
            buf_len: usize,
            names: *const u8,
            names_len: usize,
            start: u32,
            len: u16,
            category: u8,
            element: u8,
        ) -> u32;

        pub(super) fn andelura_tape_source(
            state: *mut u64,
            state_len: usize,
            buf: *mut u8,
            buf_len: usize,
            piece: *const u8,
            piece_len: usize,
        ) -> u32;

        pub(super) fn andelura_tape_open(
            state: *mut u64,
            state_len: usize,
            buf: *mut u8,
            buf_len: usize,
            flags: u8,
            marker: u16,
            start: u32,
            len: u32,
        ) -> u32;

        pub(super) fn andelura_tape_leaf(
            state: *mut u64,
            state_len: usize,
            buf: *mut u8,
            buf_len: usize,
            flags: u8,
            marker: u16,
            start: u32,
            len: u32,
        ) -> u32;

        pub(super) fn andelura_tape_close(
            state: *mut u64,
            state_len: usize,
            buf: *mut u8,
            buf_len: usize,
            block: u8,
            flags: u8,
            marker: u16,
            start: u32,
            len: u32,
        ) -> u32;

        pub(super) fn andelura_tape_text(
            state: *mut u64,
            state_len: usize,
            buf: *mut u8,
            buf_len: usize,
            flags: u8,
            start: u32,
            len: u32,
        ) -> u32;

        pub(super) fn andelura_tape_attribute(
            state: *mut u64,
            state_len: usize,
            buf: *mut u8,
            buf_len: usize,
            flags: u8,
            start: u32,
            len: u32,
        ) -> u32;

        pub(super) fn andelura_tape_error(
            state: *mut u64,
            state_len: usize,
            buf: *mut u8,
            buf_len: usize,
            flags: u8,
            start: u32,
            len: u32,
        ) -> u32;

        pub(super) fn andelura_tape_chapter(
            state: *mut u64,
            state_len: usize,
            buf: *mut u8,
            buf_len: usize,
            flags: u8,
            marker: u16,
            number: u32,
            start: u32,
            len: u32,
        ) -> u32;

        pub(super) fn andelura_tape_verse(
            state: *mut u64,
            state_len: usize,
            buf: *mut u8,
            buf_len: usize,
            flags: u8,
            marker: u16,
            number: u32,
            start: u32,
            len: u32,
        ) -> u32;

        pub(super) fn andelura_tape_finish(
            state: *mut u64,
            state_len: usize,
            buf: *mut u8,
            buf_len: usize,
        ) -> u32;
    }
}

/// Writes the text of a tape file.
pub(crate) fn serialize(file: &[u8], out: &mut [u8], numbers: &mut [u64]) -> u32 {
    // SAFETY: each pointer is valid for its length, and exclusive borrows do not overlap.
    unsafe {
        c::andelura_serialize(
            file.as_ptr(),
            file.len(),
            out.as_mut_ptr(),
            out.len(),
            numbers.as_mut_ptr(),
            numbers.len(),
        )
    }
}

/// Shows a window of the text of a tape file.
pub(crate) fn window(file: &[u8], from: usize, out: &mut [u8], numbers: &mut [u64]) -> u32 {
    // SAFETY: each pointer is valid for its length, and exclusive borrows do not overlap.
    unsafe {
        c::andelura_window(
            file.as_ptr(),
            file.len(),
            from,
            out.as_mut_ptr(),
            out.len(),
            numbers.as_mut_ptr(),
            numbers.len(),
        )
    }
}

/// Judges a finished text.
pub(crate) fn check(text: &[u8], numbers: &mut [u64]) -> u32 {
    // SAFETY: each pointer is valid for its length, and an exclusive borrow overlaps no other.
    unsafe {
        c::andelura_check(
            text.as_ptr(),
            text.len(),
            numbers.as_mut_ptr(),
            numbers.len(),
        )
    }
}

/// Looks for the first name that breaks the proviso.
pub(crate) fn find_names(file: &[u8], numbers: &mut [u64]) -> u32 {
    // SAFETY: each pointer is valid for its length, and an exclusive borrow overlaps no other.
    unsafe {
        c::andelura_find_names(
            file.as_ptr(),
            file.len(),
            numbers.as_mut_ptr(),
            numbers.len(),
        )
    }
}

/// Begins a tape.
pub(crate) fn start(state: &mut State, buf: &mut [u8]) -> u32 {
    // SAFETY: each pointer is valid for its length, and exclusive borrows do not overlap.
    unsafe { c::andelura_tape_start(state.as_mut_ptr(), state.len(), buf.as_mut_ptr(), buf.len()) }
}

/// Adds an entry.
pub(crate) fn entry(
    state: &mut State,
    buf: &mut [u8],
    names: &[u8],
    start: u32,
    len: u16,
    category: u8,
    element: u8,
) -> u32 {
    // SAFETY: each pointer is valid for its length, and exclusive borrows do not overlap.
    unsafe {
        c::andelura_tape_entry(
            state.as_mut_ptr(),
            state.len(),
            buf.as_mut_ptr(),
            buf.len(),
            names.as_ptr(),
            names.len(),
            start,
            len,
            category,
            element,
        )
    }
}

/// Adds a source piece.
pub(crate) fn source(state: &mut State, buf: &mut [u8], piece: &[u8]) -> u32 {
    // SAFETY: each pointer is valid for its length, and exclusive borrows do not overlap.
    unsafe {
        c::andelura_tape_source(
            state.as_mut_ptr(),
            state.len(),
            buf.as_mut_ptr(),
            buf.len(),
            piece.as_ptr(),
            piece.len(),
        )
    }
}

/// Opens a container.
pub(crate) fn open(
    state: &mut State,
    buf: &mut [u8],
    flags: u8,
    marker: u16,
    start: u32,
    len: u32,
) -> u32 {
    // SAFETY: each pointer is valid for its length, and exclusive borrows do not overlap.
    unsafe {
        c::andelura_tape_open(
            state.as_mut_ptr(),
            state.len(),
            buf.as_mut_ptr(),
            buf.len(),
            flags,
            marker,
            start,
            len,
        )
    }
}

/// Adds a MarkerOpen that links to itself.
pub(crate) fn leaf(
    state: &mut State,
    buf: &mut [u8],
    flags: u8,
    marker: u16,
    start: u32,
    len: u32,
) -> u32 {
    // SAFETY: each pointer is valid for its length, and exclusive borrows do not overlap.
    unsafe {
        c::andelura_tape_leaf(
            state.as_mut_ptr(),
            state.len(),
            buf.as_mut_ptr(),
            buf.len(),
            flags,
            marker,
            start,
            len,
        )
    }
}

/// Closes the innermost open container: by a BlockEnd where `block` is 1, else by a MarkerClose.
pub(crate) fn close(
    state: &mut State,
    buf: &mut [u8],
    block: u8,
    flags: u8,
    marker: u16,
    start: u32,
    len: u32,
) -> u32 {
    // SAFETY: each pointer is valid for its length, and exclusive borrows do not overlap.
    unsafe {
        c::andelura_tape_close(
            state.as_mut_ptr(),
            state.len(),
            buf.as_mut_ptr(),
            buf.len(),
            block,
            flags,
            marker,
            start,
            len,
        )
    }
}

/// Adds a Text.
pub(crate) fn text(state: &mut State, buf: &mut [u8], flags: u8, start: u32, len: u32) -> u32 {
    // SAFETY: each pointer is valid for its length, and exclusive borrows do not overlap.
    unsafe {
        c::andelura_tape_text(
            state.as_mut_ptr(),
            state.len(),
            buf.as_mut_ptr(),
            buf.len(),
            flags,
            start,
            len,
        )
    }
}

/// Adds an Attribute.
pub(crate) fn attribute(state: &mut State, buf: &mut [u8], flags: u8, start: u32, len: u32) -> u32 {
    // SAFETY: each pointer is valid for its length, and exclusive borrows do not overlap.
    unsafe {
        c::andelura_tape_attribute(
            state.as_mut_ptr(),
            state.len(),
            buf.as_mut_ptr(),
            buf.len(),
            flags,
            start,
            len,
        )
    }
}

/// Adds an Error.
pub(crate) fn error(state: &mut State, buf: &mut [u8], flags: u8, start: u32, len: u32) -> u32 {
    // SAFETY: each pointer is valid for its length, and exclusive borrows do not overlap.
    unsafe {
        c::andelura_tape_error(
            state.as_mut_ptr(),
            state.len(),
            buf.as_mut_ptr(),
            buf.len(),
            flags,
            start,
            len,
        )
    }
}

/// Adds a Chapter.
pub(crate) fn chapter(
    state: &mut State,
    buf: &mut [u8],
    flags: u8,
    marker: u16,
    number: u32,
    start: u32,
    len: u32,
) -> u32 {
    // SAFETY: each pointer is valid for its length, and exclusive borrows do not overlap.
    unsafe {
        c::andelura_tape_chapter(
            state.as_mut_ptr(),
            state.len(),
            buf.as_mut_ptr(),
            buf.len(),
            flags,
            marker,
            number,
            start,
            len,
        )
    }
}

/// Adds a Verse.
pub(crate) fn verse(
    state: &mut State,
    buf: &mut [u8],
    flags: u8,
    marker: u16,
    number: u32,
    start: u32,
    len: u32,
) -> u32 {
    // SAFETY: each pointer is valid for its length, and exclusive borrows do not overlap.
    unsafe {
        c::andelura_tape_verse(
            state.as_mut_ptr(),
            state.len(),
            buf.as_mut_ptr(),
            buf.len(),
            flags,
            marker,
            number,
            start,
            len,
        )
    }
}

/// Finishes the tape: the file is the front of the buffer.
pub(crate) fn finish(state: &mut State, buf: &mut [u8]) -> u32 {
    // SAFETY: each pointer is valid for its length, and exclusive borrows do not overlap.
    unsafe { c::andelura_tape_finish(state.as_mut_ptr(), state.len(), buf.as_mut_ptr(), buf.len()) }
}
