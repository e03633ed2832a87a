//! What was added to a tape so far, kept so that it can be written anew into a longer buffer.

use crate::ffi::{self, State};
use crate::{Category, Close, Element, Flags, Refusal, Span};

/// The most name bytes and source bytes that any step is done with.
const MOST_NAMES: usize = 16_384;
const MOST_SOURCE: usize = 4_194_304;

/// A step that adds something.
#[derive(Clone, Copy)]
pub(crate) enum Step<'a> {
    Entry(&'a [u8], Entry),
    Source(&'a [u8]),
    Node(Node),
}

/// An entry: where its name stands among all name bytes, and what it is.
#[derive(Clone, Copy, Debug)]
pub(crate) struct Entry {
    pub(crate) start: u32,
    pub(crate) len: u16,
    pub(crate) category: Category,
    pub(crate) element: Element,
}

/// A node; a marker or a number counts where its kind has one.
#[derive(Clone, Copy, Debug)]
pub(crate) struct Node {
    pub(crate) kind: Kind,
    pub(crate) flags: Flags,
    pub(crate) marker: u16,
    pub(crate) number: u32,
    pub(crate) span: Span,
}

/// By which step a node is added.
#[derive(Clone, Copy, Debug)]
pub(crate) enum Kind {
    Open,
    Leaf,
    Close(Close),
    Text,
    Attribute,
    Error,
    Chapter,
    Verse,
}

impl Step<'_> {
    /// Takes the step; gives the library's answer.
    pub(crate) fn take(self, state: &mut State, buf: &mut [u8]) -> Result<(), Refusal> {
        let number = match self {
            Step::Entry(names, entry) => entry.take(state, buf, names),
            Step::Source(piece) => ffi::source(state, buf, piece),
            Step::Node(node) => node.take(state, buf),
        };
        Refusal::answer(number, state[7])
    }
}

impl Entry {
    fn take(self, state: &mut State, buf: &mut [u8], names: &[u8]) -> u32 {
        let (category, element) = (self.category as u8, self.element as u8);
        ffi::entry(state, buf, names, self.start, self.len, category, element)
    }
}

impl Node {
    fn take(self, state: &mut State, buf: &mut [u8]) -> u32 {
        let Node {
            marker,
            number,
            span: Span { start, len },
            ..
        } = self;
        let flags = self.flags.bits();
        match self.kind {
            Kind::Open => ffi::open(state, buf, flags, marker, start, len),
            Kind::Leaf => ffi::leaf(state, buf, flags, marker, start, len),
            Kind::Close(Close::BlockEnd) => ffi::close(state, buf, 1, flags, marker, start, len),
            Kind::Close(Close::MarkerClose) => ffi::close(state, buf, 0, flags, marker, start, len),
            Kind::Text => ffi::text(state, buf, flags, start, len),
            Kind::Attribute => ffi::attribute(state, buf, flags, start, len),
            Kind::Error => ffi::error(state, buf, flags, start, len),
            Kind::Chapter => ffi::chapter(state, buf, flags, marker, number, start, len),
            Kind::Verse => ffi::verse(state, buf, flags, marker, number, start, len),
        }
    }
}

/// All that was added.
#[derive(Clone, Debug, Default)]
pub(crate) struct Draft {
    /// Each entry, and how many name bytes it brought.
    entries: Vec<(usize, Entry)>,
    names: Vec<u8>,
    source: Vec<u8>,
    nodes: Vec<Node>,
}

impl Draft {
    /// Room to keep a step, if it is done.
    pub(crate) fn reserve(&mut self, step: Step<'_>) -> Result<(), Refusal> {
        match step {
            Step::Entry(names, _) => {
                reserve(&mut self.names, names.len().min(MOST_NAMES))?;
                reserve(&mut self.entries, 1)
            }
            Step::Source(piece) => reserve(&mut self.source, piece.len().min(MOST_SOURCE)),
            Step::Node(_) => reserve(&mut self.nodes, 1),
        }
    }

    /// Keeps a step that is done.
    pub(crate) fn keep(&mut self, step: Step<'_>) {
        match step {
            Step::Entry(names, entry) => {
                self.names.extend_from_slice(names);
                self.entries.push((names.len(), entry));
            }
            Step::Source(piece) => self.source.extend_from_slice(piece),
            Step::Node(node) => self.nodes.push(node),
        }
    }

    /// Writes all of it into another buffer; gives the state behind it. The source comes whole
    /// before the nodes: spans that lay in a part of it lie in all of it.
    pub(crate) fn write(&self, buf: &mut [u8]) -> Result<State, Refusal> {
        let mut state = [0; 8];
        Refusal::answer(ffi::start(&mut state, buf), state[7])?;
        let mut names = self.names.as_slice();
        for &(len, entry) in &self.entries {
            let (own, rest) = names.split_at(len);
            Step::Entry(own, entry).take(&mut state, buf)?;
            names = rest;
        }
        Step::Source(&self.source).take(&mut state, buf)?;
        for &node in &self.nodes {
            Step::Node(node).take(&mut state, buf)?;
        }
        Ok(state)
    }
}

/// Room for so many more.
fn reserve<T>(list: &mut Vec<T>, more: usize) -> Result<(), Refusal> {
    let needed = (list.len() + more) * size_of::<T>();
    list.try_reserve(more)
        .map_err(|_| Refusal::NoRoom { needed })
}
