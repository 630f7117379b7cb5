//! What a function answered, taken apart: its words, or its refusal.

use crate::raw::{self, Record, RECORD_SIZE};
use crate::refusal::Refusal;
use core::ops::Range;

// The header is for machines whose size_t has 64 bits; on these a word is a position as it stands.
#[cfg(not(target_pointer_width = "64"))]
compile_error!("ion_map is for machines whose usize has 64 bits");

/// Word 0 of a record.
pub(crate) mod kind {
    pub(crate) const END: u64 = 0;
    pub(crate) const MARKER: u64 = 1;
    pub(crate) const VALUE: u64 = 2;
    pub(crate) const FIELD: u64 = 3;
    pub(crate) const MORE: u64 = 4;
    pub(crate) const ANNOTATION: u64 = 5;
    pub(crate) const BODY: u64 = 6;
    pub(crate) const SCALAR: u64 = 7;
    pub(crate) const NUMBER: u64 = 8;
    pub(crate) const REFUSED: u64 = 9;
    pub(crate) const DECIMAL: u64 = 10;
    pub(crate) const TIMESTAMP: u64 = 11;
    pub(crate) const CHECKED: u64 = 12;
    #[cfg(feature = "alloc")]
    pub(crate) const WRITTEN: u64 = 17;
    pub(crate) const TEXT: u64 = 13;
    pub(crate) const SYMBOLS: u64 = 19;
    pub(crate) const PACKED_SIZE: u64 = 15;
    pub(crate) const PACKED: u64 = 16;
}

/// A record that is no refusal, once it was asked for. Its words are read as they are needed.
#[derive(Clone, Copy)]
pub(crate) struct Answer(Record);

impl Answer {
    /// Room for a record.
    pub(crate) const EMPTY: Answer = Answer([0; RECORD_SIZE]);

    /// Calls a function of `raw` with a new record.
    #[inline]
    pub(crate) fn of(call: impl FnOnce(&mut [u8]) -> u64) -> Result<Answer, Refusal> {
        let mut answer = Answer::EMPTY;
        answer.ask(call)?;
        Ok(answer)
    }

    /// Calls a function of `raw` with this record, of which nothing needs to be cleared before.
    #[inline]
    pub(crate) fn ask(&mut self, call: impl FnOnce(&mut [u8]) -> u64) -> Result<(), Refusal> {
        match call(&mut self.0) {
            0 => Ok(()),
            number => Err(Refusal {
                number,
                position: self.at::<2>(),
            }),
        }
    }

    #[inline]
    pub(crate) fn from_record(record: &Record) -> Result<Answer, Refusal> {
        let answer = Answer(*record);
        match answer.kind() {
            kind::REFUSED => Err(Refusal {
                number: answer.word::<1>(),
                position: answer.at::<2>(),
            }),
            _ => Ok(answer),
        }
    }

    #[inline]
    pub(crate) fn kind(&self) -> u64 {
        self.word::<0>()
    }

    #[inline]
    pub(crate) fn word<const I: usize>(&self) -> u64 {
        raw::word::<I>(&self.0)
    }

    /// A word that is a position or a length.
    #[inline]
    pub(crate) fn at<const I: usize>(&self) -> usize {
        self.word::<I>() as usize
    }

    /// Two words that are a span.
    #[inline]
    pub(crate) fn span<const I: usize, const J: usize>(&self) -> Range<usize> {
        self.at::<I>()..self.at::<J>()
    }

    /// A word that is a byte.
    #[inline]
    pub(crate) fn byte<const I: usize>(&self) -> Result<u8, Refusal> {
        u8::try_from(self.word::<I>()).map_err(|_| Refusal::unknown_answer())
    }
}

/// A part of the map that a record names. It always lies in the map; were it not so, this says so.
#[inline]
pub(crate) fn bytes(map: &[u8], span: Range<usize>) -> Result<&[u8], Refusal> {
    map.get(span).ok_or(Refusal::unknown_answer())
}
