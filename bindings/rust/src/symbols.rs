//! The texts of symbols.

use crate::answer::{bytes, kind, Answer};
use crate::limits::Limits;
use crate::raw;
use crate::refusal::Refusal;
use core::ops::Range;
use core::str;

/// The texts of the IDs 1 to 9, joined.
pub const SYSTEM_TEXT: &str = "$ion$ion_1_0$ion_symbol_tablenameversionimportssymbolsmax_id$ion_shared_symbol_table";

/// The symbols at a place of a map: the system's texts, and those of the symbol table that rules there.
///
/// ```
/// use ion_map::{Refusal, Symbols};
///
/// let map = [
///     0xE0, 0x01, 0x00, 0xEA, // a marker
///     0xEB, 0x81, 0x83, 0xD8, 0x87, 0xB6, 0x84, b't', b'r', b'e', b'e', 0x20, // a table: "tree", and no text for 11
///     0x71, 0x0A, // the symbol 10
/// ];
/// let symbols = Symbols::at(&map, 16)?; // where the symbol begins
/// assert_eq!(symbols.text(10)?, Some("tree"));
/// assert_eq!(symbols.text(4)?, Some("name"));
/// assert_eq!(symbols.text(11)?, None);
/// assert_eq!(symbols.text(12)?, None);
///
/// assert_eq!(Symbols::at(&map, 4)?.text(10)?, None); // no table rules before the first one's end
/// assert_eq!(Symbols::at(&map, 5).unwrap_err().number, Refusal::OUTSIDE); // no item begins there
/// # Ok::<(), Refusal>(())
/// ```
///
/// # All names of a map
///
/// [`Symbols::at`] steps through the map up to the place, and [`Symbols::text`] through the list up to the ID's entry: each
/// takes time that grows with what it steps through, so that to ask for each item or each name of a map takes the
/// square of its length. The map may come from anybody. Where all names are wanted, one walk keeps the texts of the table that
/// rules and takes time that grows with the map's length alone:
///
/// ```
#[doc = include_str!("../examples/names.rs")]
/// ```
#[derive(Clone, Debug, PartialEq, Eq, Hash)]
pub struct Symbols<'a> {
    map: &'a [u8],
    limits: Limits,
    list: Option<Range<usize>>,
}

impl<'a> Symbols<'a> {
    /// The symbols at `place`, which is where one of the map's top-level items begins, or the map's end. The map is
    /// stepped up to there, and the table that rules, once, in time that grows with how many items these are; refusals met
    /// on the way are given.
    pub fn at(map: &'a [u8], place: usize) -> Result<Symbols<'a>, Refusal> {
        Symbols::at_by(Limits::DEFAULT, map, place)
    }

    pub(crate) fn at_by(limits: Limits, map: &'a [u8], place: usize) -> Result<Symbols<'a>, Refusal> {
        let system = SYSTEM_TEXT.as_bytes();
        let answer = Answer::of(|out| raw::symbols(map, system, 0, map.len(), place, limits.annotations, out))?;
        match (answer.kind(), answer.word::<1>()) {
            (kind::SYMBOLS, 0) => Ok(Symbols {
                map,
                limits,
                list: None,
            }),
            (kind::SYMBOLS, 1) => Ok(Symbols {
                map,
                limits,
                list: Some(answer.span::<5, 6>()),
            }),
            _ => Err(Refusal::unknown_answer()),
        }
    }

    /// The body of the list that gives the texts of IDs from 10 up, in order; nothing where no list rules.
    pub fn list(&self) -> Option<Range<usize>> {
        self.list.clone()
    }

    /// The text of an ID, or nothing where it is unknown. The list is stepped up to the ID's entry, in time that grows with
    /// how many entries come before it; a refusal met on the way is given, and so is bad UTF-8 in the text itself.
    pub fn text(&self, id: u64) -> Result<Option<&'a str>, Refusal> {
        let system = SYSTEM_TEXT.as_bytes();
        let list = self.list.clone().unwrap_or(0..0);
        let (id, limit) = (id as usize, self.limits.annotations);
        let answer = Answer::of(|out| raw::symbol_text(self.map, system, list.start, list.end, id, limit, out))?;
        text_of(self.map, &answer)
    }
}

/// The text of a symbol's ID at a place of a map: [`Symbols::at`] and [`Symbols::text`] in one call, in the time of both.
///
/// ```
/// let map = [0xE7, 0x81, 0x83, 0xD4, 0x87, 0xB2, 0x81, 0x61]; // a symbol table with the text "a"
/// assert_eq!(ion_map::symbol_text(&map, 8, 10)?, Some("a"));
/// assert_eq!(ion_map::symbol_text(&map, 0, 10)?, None);
/// # Ok::<(), ion_map::Refusal>(())
/// ```
pub fn symbol_text(map: &[u8], place: usize, id: u64) -> Result<Option<&str>, Refusal> {
    symbol_text_by(Limits::DEFAULT, map, place, id)
}

pub(crate) fn symbol_text_by(limits: Limits, map: &[u8], place: usize, id: u64) -> Result<Option<&str>, Refusal> {
    let system = SYSTEM_TEXT.as_bytes();
    let limit = limits.annotations;
    let answer = Answer::of(|out| raw::text(map, system, 0, map.len(), place, id as usize, limit, out))?;
    text_of(map, &answer)
}

fn text_of<'a>(map: &'a [u8], answer: &Answer) -> Result<Option<&'a str>, Refusal> {
    let text = match (answer.kind(), answer.word::<1>()) {
        (kind::TEXT, 0) => return Ok(None),
        (kind::TEXT, 1) => bytes(map, answer.span::<5, 6>())?,
        (kind::TEXT, 2) => bytes(SYSTEM_TEXT.as_bytes(), answer.span::<5, 6>())?,
        _ => return Err(Refusal::unknown_answer()),
    };
    // The library tested it; were it not so, this says so.
    str::from_utf8(text).map(Some).map_err(|_| Refusal::unknown_answer())
}
