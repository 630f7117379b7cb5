//! Stands for the crate `winnow`, the parser library of the text reader, which Debian lacks. Only
//! the types that `lazy/encoding.rs` needs in order to compile; every parser here panics when it is
//! run, and no question runs one. It decodes nothing.

use std::marker::PhantomData;

/// What a parser reads from. `Error` is here so that the type of a literal's error is known.
pub trait Stream {
    type Slice;
    type Error;
}

pub trait Parser<I, O, E>: Sized {
    fn parse_next(&mut self, _input: &mut I) -> Result<O, E> {
        unreachable!("the text parser is stood in for")
    }

    fn map<G, O2>(self, _map: G) -> Unused<I, O2, E>
    where
        G: FnMut(O) -> O2,
    {
        Unused(PhantomData)
    }

    fn take(self) -> Unused<I, I::Slice, E>
    where
        I: Stream,
    {
        Unused(PhantomData)
    }

    fn context<C>(self, _context: C) -> Unused<I, O, E> {
        Unused(PhantomData)
    }
}

/// A parser that is never run.
pub struct Unused<I, O, E>(PhantomData<fn(I) -> (O, E)>);

impl<I, O, E> Unused<I, O, E> {
    pub fn new() -> Self {
        Unused(PhantomData)
    }
}

impl<I, O, E> Default for Unused<I, O, E> {
    fn default() -> Self {
        Unused::new()
    }
}

impl<I, O, E> Parser<I, O, E> for Unused<I, O, E> {}

impl<I, O, E, F> Parser<I, O, E> for F where F: FnMut(&mut I) -> Result<O, E> {}

impl<I: Stream> Parser<I, I::Slice, I::Error> for &str {}

impl<I, O1, O2, E, P1, P2> Parser<I, (O1, O2), E> for (P1, P2)
where
    P1: Parser<I, O1, E>,
    P2: Parser<I, O2, E>,
{
}

pub mod combinator {
    use crate::{Parser, Unused};

    pub fn opt<I, O, E>(_parser: impl Parser<I, O, E>) -> Unused<I, Option<O>, E> {
        Unused::new()
    }

    pub fn separated_pair<I, O1, O2, O3, E>(
        _first: impl Parser<I, O1, E>,
        _separator: impl Parser<I, O2, E>,
        _second: impl Parser<I, O3, E>,
    ) -> Unused<I, (O1, O3), E> {
        Unused::new()
    }
}
