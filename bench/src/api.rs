//! The functions of libbench_api.a and libbench_words.a, and of libapi.a those that write a tape and the one that shows a window. A slice passes as pointer and length.

mod raw {
    extern "C" {
        pub fn bench_escape_xml(out: *mut u8, room: usize, at: usize, from: usize, s: *const u8, len: usize) -> usize;
        pub fn bench_escape_xml_attr(out: *mut u8, room: usize, at: usize, from: usize, s: *const u8, len: usize) -> usize;
        pub fn bench_admit(file: *const u8, len: usize) -> u32;
        pub fn bench_body(out: *mut u8, room: usize, at: usize, from: usize, s: *const u8, len: usize) -> usize;
        pub fn bench_is_utf8(s: *const u8, len: usize) -> usize;
        pub fn bench_last_word(s: *const u8, len: usize) -> usize;
        pub fn bench_trim(s: *const u8, len: usize) -> usize;
        pub fn bench_put_number(out: *mut u8, room: usize, at: usize, from: usize, n: u32) -> usize;
        pub fn andelura_check(text: *const u8, len: usize, numbers: *mut u64, count: usize) -> u32;
        pub fn andelura_serialize(file: *const u8, len: usize, out: *mut u8, room: usize, numbers: *mut u64, count: usize) -> u32;
        pub fn andelura_window(file: *const u8, len: usize, from: usize, out: *mut u8, room: usize, numbers: *mut u64, count: usize) -> u32;
        pub fn andelura_tape_start(state: *mut u64, states: usize, buf: *mut u8, room: usize) -> u32;
        pub fn andelura_tape_entry(state: *mut u64, states: usize, buf: *mut u8, room: usize, names: *const u8, size: usize, start: u32, len: u16, category: u8, element: u8) -> u32;
        pub fn andelura_tape_source(state: *mut u64, states: usize, buf: *mut u8, room: usize, piece: *const u8, size: usize) -> u32;
        pub fn andelura_tape_open(state: *mut u64, states: usize, buf: *mut u8, room: usize, flags: u8, marker: u16, start: u32, len: u32) -> u32;
        pub fn andelura_tape_close(state: *mut u64, states: usize, buf: *mut u8, room: usize, block: u8, flags: u8, marker: u16, start: u32, len: u32) -> u32;
        pub fn andelura_tape_text(state: *mut u64, states: usize, buf: *mut u8, room: usize, flags: u8, start: u32, len: u32) -> u32;
        pub fn andelura_tape_verse(state: *mut u64, states: usize, buf: *mut u8, room: usize, flags: u8, marker: u16, number: u32, start: u32, len: u32) -> u32;
        pub fn andelura_tape_finish(state: *mut u64, states: usize, buf: *mut u8, room: usize) -> u32;
    }
}

/// The text with its escapes behind `at` bytes, in a window that starts at `from`; the bytes written so far.
pub fn escape_xml(out: &mut [u8], at: usize, from: usize, s: &[u8]) -> usize {
    unsafe { raw::bench_escape_xml(out.as_mut_ptr(), out.len(), at, from, s.as_ptr(), s.len()) }
}

/// The same for an attribute's value.
pub fn escape_xml_attr(out: &mut [u8], at: usize, from: usize, s: &[u8]) -> usize {
    unsafe { raw::bench_escape_xml_attr(out.as_mut_ptr(), out.len(), at, from, s.as_ptr(), s.len()) }
}

/// The same for the body of a text.
pub fn body(out: &mut [u8], at: usize, from: usize, s: &[u8]) -> usize {
    unsafe { raw::bench_body(out.as_mut_ptr(), out.len(), at, from, s.as_ptr(), s.len()) }
}

/// The same for a number in decimal digits.
pub fn put_number(out: &mut [u8], at: usize, from: usize, n: u32) -> usize {
    unsafe { raw::bench_put_number(out.as_mut_ptr(), out.len(), at, from, n) }
}

/// Whether a text is UTF-8.
pub fn is_utf8(s: &[u8]) -> bool {
    unsafe { raw::bench_is_utf8(s.as_ptr(), s.len()) == 1 }
}

/// The length of a text's last word, behind all the others.
pub fn last_word(s: &[u8]) -> usize {
    unsafe { raw::bench_last_word(s.as_ptr(), s.len()) }
}

/// The length of a text without white space at both ends.
pub fn trim(s: &[u8]) -> usize {
    unsafe { raw::bench_trim(s.as_ptr(), s.len()) }
}

/// The number that a tape file is given, 0 where it is admitted.
pub fn admit(file: &[u8]) -> u32 {
    unsafe { raw::bench_admit(file.as_ptr(), file.len()) }
}

/// The number that a finished text is given, 0 where it is accepted.
pub fn check(text: &[u8]) -> u32 {
    let mut numbers = [0; 4];
    unsafe { raw::andelura_check(text.as_ptr(), text.len(), numbers.as_mut_ptr(), numbers.len()) }
}

/// What `serialize` answers for a file and a buffer: document 01's number, and the length given.
pub fn serialize(file: &[u8], out: &mut [u8]) -> (u8, usize) {
    let mut numbers = [0; 1];
    let number = unsafe { raw::andelura_serialize(file.as_ptr(), file.len(), out.as_mut_ptr(), out.len(), numbers.as_mut_ptr(), numbers.len()) };
    (number as u8, numbers[0] as usize)
}

/// What `window` answers for a file, a starting byte and a buffer: document 01's number, how many bytes are given, and the length of the whole text.
pub fn window(file: &[u8], from: usize, out: &mut [u8]) -> (u32, [u64; 2]) {
    let mut numbers = [0; 2];
    let number = unsafe { raw::andelura_window(file.as_ptr(), file.len(), from, out.as_mut_ptr(), out.len(), numbers.as_mut_ptr(), numbers.len()) };
    (number, numbers)
}

/// A tape that is written into a buffer; each step gives its number.
pub struct Tape<'a> {
    state: [u64; 8],
    buf: &'a mut [u8],
}

impl<'a> Tape<'a> {
    pub fn new(buf: &'a mut [u8]) -> Self {
        Tape { state: [0; 8], buf }
    }

    /// The length that the last step gave.
    pub fn length(&self) -> usize {
        self.state[7] as usize
    }

    pub fn start(&mut self) -> u32 {
        unsafe { raw::andelura_tape_start(self.state.as_mut_ptr(), 8, self.buf.as_mut_ptr(), self.buf.len()) }
    }

    pub fn entry(&mut self, names: &[u8], start: u32, len: u16, category: u8, element: u8) -> u32 {
        let (state, buf, room) = (self.state.as_mut_ptr(), self.buf.as_mut_ptr(), self.buf.len());
        unsafe { raw::andelura_tape_entry(state, 8, buf, room, names.as_ptr(), names.len(), start, len, category, element) }
    }

    pub fn source(&mut self, piece: &[u8]) -> u32 {
        unsafe { raw::andelura_tape_source(self.state.as_mut_ptr(), 8, self.buf.as_mut_ptr(), self.buf.len(), piece.as_ptr(), piece.len()) }
    }

    pub fn open(&mut self, marker: u16, start: u32, len: u32) -> u32 {
        unsafe { raw::andelura_tape_open(self.state.as_mut_ptr(), 8, self.buf.as_mut_ptr(), self.buf.len(), 0, marker, start, len) }
    }

    /// A BlockEnd.
    pub fn close(&mut self, marker: u16, start: u32) -> u32 {
        unsafe { raw::andelura_tape_close(self.state.as_mut_ptr(), 8, self.buf.as_mut_ptr(), self.buf.len(), 1, 0, marker, start, 0) }
    }

    pub fn text(&mut self, start: u32, len: u32) -> u32 {
        unsafe { raw::andelura_tape_text(self.state.as_mut_ptr(), 8, self.buf.as_mut_ptr(), self.buf.len(), 0, start, len) }
    }

    pub fn verse(&mut self, marker: u16, number: u32, start: u32, len: u32) -> u32 {
        unsafe { raw::andelura_tape_verse(self.state.as_mut_ptr(), 8, self.buf.as_mut_ptr(), self.buf.len(), 0, marker, number, start, len) }
    }

    pub fn finish(&mut self) -> u32 {
        unsafe { raw::andelura_tape_finish(self.state.as_mut_ptr(), 8, self.buf.as_mut_ptr(), self.buf.len()) }
    }
}
