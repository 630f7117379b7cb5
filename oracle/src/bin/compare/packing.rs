//! Compares packed maps with those that `packed` makes by the Rust's readers.

use crate::judge::{written, Bench, Verdict, GUARD};
use crate::maps::hex;
use crate::ours::{words_of, Part, Reader, Record, CHECK, CHECK_WORDS, RECORD, WORDS};
use oracle::asking::Asked;
use oracle::checks::{self, Stop};
use oracle::packed::packed;
use oracle::requests::Request;

/// The kinds of the records.
const SIZE: u64 = 15;
const PACKED: u64 = 16;
const REFUSED: u64 = 9;

impl<'a, R: Reader> Bench<'a, R> {
    /// The part, cut out, as a map that is packed, and before that its packed size.
    pub fn pack(&mut self, part: Part) -> Verdict {
        let map = &self.map[part.position..part.end];
        let (wanted, is_open) = self.checked(map, part);
        let is_by_limit = self.moved == Some(Request::HigherLimit);
        let room = RECORD + (part.position & 1) * GUARD;
        let returned = self.reader.packed_size(map, part.limits, self.desk.lend(room));
        let size = self.desk.record();
        let is_clean = self.desk.is_untouched(RECORD, room);
        let is_told = returned == told(size);
        self.desk.note(
            is_clean && is_told,
            || format!("{wanted:?}"),
            || format!("{} returned {returned}", written(size)),
        );
        let fine = match (wanted, size.kind()) {
            (_, REFUSED) if is_by_limit => self.is_refused_as_checked(map, part, size),
            (Err(stop), REFUSED) => {
                self.is_stopped(map, part, stop, widened(size))
                    && self.is_refused_as_checked(map, part, size)
            }
            (Ok(words), SIZE) => self.packs(map, part, size, words, true),
            (Err(Stop::Open(_)), SIZE) => self.packs_as_checked(map, part, size, true),
            (Err(_), SIZE) if is_by_limit => self.packs_as_checked(map, part, size, false),
            _ => false,
        };
        match self.verdict_of(fine && is_clean && is_told) {
            Verdict::Agree if is_open => Verdict::Apart,
            verdict => verdict,
        }
    }

    /// Our check's record of a map.
    fn check_of(&mut self, map: &[u8], part: Part) -> [u64; CHECK_WORDS] {
        let mut record = [0; CHECK];
        self.reader.check(map, part.limits, &mut record);
        words_of(&record)
    }

    /// The refusal is that of our check, whatever room there is, and nothing is written.
    fn is_refused_as_checked(&mut self, map: &[u8], part: Part, refusal: Record) -> bool {
        let is_same = self.check_of(map, part) == widened(refusal);
        let rooms = [0, map.len()];
        is_same && rooms.into_iter().all(|room| self.packs_into(map, part, room, refusal, &[]))
    }

    /// A map that our check accepts and of which the Rust's says nothing.
    fn packs_as_checked(&mut self, map: &[u8], part: Part, size: Record, is_read: bool) -> bool {
        let words = self.check_of(map, part);
        words[0] == 12 && self.packs(map, part, size, words, is_read)
    }

    /// The size, the bytes, a buffer that is too short, the check of the packed map, and packing it again.
    fn packs(&mut self, map: &[u8], part: Part, size: Record, checked: [u64; CHECK_WORDS], is_read: bool) -> bool {
        let bytes = match is_read {
            true => self.model(map, part),
            false => self.packed_by_ours(map, part, size),
        };
        let length = bytes.len();
        let answer = record(PACKED, length);
        let is_size = size == record(SIZE, length);
        self.desk.note(is_size, || hex(&bytes), || written(size));
        let is_packed = [length, length + 1 + (map.len() & 7)]
            .into_iter()
            .all(|room| self.packs_into(map, part, room, answer, &bytes));
        let is_without_room = length == 0 || {
            self.refusals.count(69, true);
            let short = Record([REFUSED, 69, length as u64, 0, 0, 0, 0, 0, 0]);
            self.packs_into(map, part, length - 1, short, &[])
        };
        let without_pads = {
            let mut words = checked;
            words[2] = 0;
            words
        };
        let ours = self.check_of(&bytes, part);
        let is_accepted = ours == without_pads && (!is_read || self.is_accepted(&bytes, part, checked));
        self.desk.note(
            is_accepted,
            || format!("{without_pads:?}"),
            || format!("{ours:?}"),
        );
        is_size
            && is_packed
            && is_without_room
            && is_accepted
            && self.packs_into(&bytes, part, length, answer, &bytes)
    }

    fn model(&self, map: &[u8], part: Part) -> Vec<u8> {
        let asked = Asked::new(self.context, map, 0, map.len());
        let asked = asked.expect("the whole map").by(part.limits);
        packed(&asked).expect("the map is accepted")
    }

    /// Whether the Rust's readers accept the packed map and count the same in it, as far as they say so.
    fn is_accepted(&self, bytes: &[u8], part: Part, checked: [u64; CHECK_WORDS]) -> bool {
        let asked = Asked::new(self.context, bytes, 0, bytes.len());
        let asked = asked.expect("the whole map").by(part.limits);
        match checks::check(&asked, |_| {}) {
            Ok(counts) => counts.markers == checked[1] && counts.types == checked[3..],
            Err(stop) => matches!(stop, Stop::Open(_)),
        }
    }

    /// What is packed where the Rust has no such limit.
    fn packed_by_ours(&mut self, map: &[u8], part: Part, size: Record) -> Vec<u8> {
        let length = size.0[3] as usize;
        let (to, out) = self.desk.lend_both(length.min(map.len()), RECORD);
        self.reader.pack(map, part.limits, to, out);
        to.to_vec()
    }

    /// Packs into so many bytes: this record, these bytes, and all behind them as it was.
    fn packs_into(&mut self, map: &[u8], part: Part, room: usize, wanted: Record, bytes: &[u8]) -> bool {
        let out_room = RECORD + (room & 1) * GUARD;
        let (to, out) = self.desk.lend_both(room, out_room);
        let returned = self.reader.pack(map, part.limits, to, out);
        let ours = self.desk.record();
        let is_written = self.desk.holds(bytes);
        let fine = ours == wanted
            && returned == told(wanted)
            && is_written
            && self.desk.is_untouched(RECORD, out_room);
        if self.desk.is_noted() {
            let to = hex(self.desk.to());
            self.desk.note(
                fine,
                || format!("{}, {}", written(wanted), hex(bytes)),
                || format!("{} returned {returned}, {to}", written(ours)),
            );
        }
        fine
    }
}

fn record(kind: u64, length: usize) -> Record {
    Record([kind, 0, 0, length as u64, 0, 0, 0, 0, 0])
}

/// What is returned with a record.
pub fn told(record: Record) -> u64 {
    match record.kind() {
        REFUSED => record.0[1],
        _ => 0,
    }
}

/// The record of a refusal as a check's.
fn widened(record: Record) -> [u64; CHECK_WORDS] {
    let mut words = [0; CHECK_WORDS];
    words[..WORDS].copy_from_slice(&record.0);
    words
}
