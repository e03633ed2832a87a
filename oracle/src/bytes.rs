//! A stand-in for the crate memchr: the two functions span.rs calls.

pub fn memchr_iter(needle: u8, hay: &[u8]) -> impl Iterator<Item = usize> + '_ {
    hay.iter().enumerate().filter(move |&(_, &b)| b == needle).map(|(i, _)| i)
}

pub fn memrchr(needle: u8, hay: &[u8]) -> Option<usize> {
    hay.iter().rposition(|&b| b == needle)
}
