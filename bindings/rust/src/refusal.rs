//! Why a function gives no answer.

use core::error::Error;
use core::fmt;

/// Why there is no answer, and where: a number, and a position in the map.
///
/// ```
/// use ion_map::{step, Part, Refusal};
///
/// let map = [0x22, 0x05]; // an int of two bytes, of which one is there
/// let refusal = step(&map, Part::stream(&map), 0).unwrap_err();
/// assert_eq!(refusal, Refusal { number: Refusal::VALUE_CUT, position: 0 });
/// assert_eq!(refusal.to_string(), "refusal 8 at 0: a value that runs past the part");
/// ```
///
/// Its `Debug`, which a failed `unwrap` prints, has the words too.
#[derive(Clone, Copy, PartialEq, Eq, Hash)]
pub struct Refusal {
    /// Which refusal it is: one of the constants here.
    pub number: u64,
    /// Where, counted from the map's first byte.
    pub position: usize,
}

// The words are both the constant's comment and what is displayed, so that they stand once.
macro_rules! refusals {
    ($($name:ident = $number:expr, $words:literal;)*) => {
        impl Refusal {
            $(
                #[doc = concat!("Number ", stringify!($number), ": ", $words, ".")]
                pub const $name: u64 = $number;
            )*

            /// What the number says, in a few words.
            pub fn words(&self) -> &'static str {
                match self.number {
                    $(Self::$name => $words,)*
                    _ => "a number that this crate doesn't know",
                }
            }
        }
    };
}

refusals! {
    // include/texts: the names, numbers and words of the one list, crates/numbers/src/refusal.rt
    NO_VALUE_LEFT = 1, "nothing after annotations, or where an entry on a value is to begin";
    MARKER_CUT = 2, "a marker under 4 bytes";
    VAR_UINT_CUT = 3, "a VarUInt without a last byte";
    VAR_INT_CUT = 4, "a VarInt without a last byte";
    ANNOTATIONS_CUT = 5, "annotations that run past the part";
    PAD_CUT = 6, "a pad that runs past the part";
    FIELD_CUT = 7, "a field ID with nothing after it";
    VALUE_CUT = 8, "a value that runs past the part";
    INT_CUT = 9, "an Int that runs past the part";
    NUMBER_TOO_LONG = 20, "a number that ended past 9 bytes";
    BAD_MARKER = 21, "a marker without EA";
    NOT_A_VALUE = 22, "no value where one is to stand";
    NO_ANNOTATIONS = 23, "an annotations' length of 0";
    ANNOTATIONS_TOO_LONG = 24, "annotations longer than their wrapper";
    NO_ROOM_FOR_VALUE = 25, "a wrapper with no room for a value";
    TOO_MANY_ANNOTATIONS = 26, "annotations of more bytes than the limit";
    WRAPPER_IN_WRAPPER = 27, "a wrapper in a wrapper";
    PAD_IN_WRAPPER = 28, "a pad in a wrapper";
    WRAPPED_LENGTH_DIFFERS = 29, "a value whose length differs from what its wrapper says";
    BAD_FLOAT_LENGTH = 30, "a float code outside 0, 4, 8, 15";
    TIMESTAMP_TOO_SHORT = 31, "a non-null timestamp under 2 bytes";
    EMPTY_ORDERED_STRUCT = 32, "an empty ordered struct";
    BAD_BOOL = 33, "a bool code 2 to 14";
    NEGATIVE_ZERO_INT = 34, "a negative int of zero";
    SYMBOL_TOO_LONG = 35, "a symbol over 8 bytes";
    BAD_UTF8 = 36, "text that is not UTF-8";
    TOO_DEEP = 37, "a container deeper than the walk goes";
    NOT_VERSION_1_0 = 60, "a marker that isn't 1.0";
    HOUR_WITHOUT_MINUTE = 61, "a timestamp's hour with no minute";
    TIMESTAMP_OUT_OF_RANGE = 62, "a timestamp's field, offset or fraction out of range";
    COEFFICIENT_TOO_LONG = 63, "a timestamp's coefficient whose magnitude has over 8 bytes";
    HAS_IMPORTS = 64, "a symbol table with imports";
    SECOND_SYMBOLS = 65, "a symbol table with a second list of symbols";
    OUTSIDE = 50, "parts or positions outside the slice or out of order, a part kind above 2, or a walk state deeper than the walk's limit";
    RECORD_TOO_SHORT = 51, "a record buffer that is too short";
    NOT_A_CONTAINER = 52, "stepping into what is not a container or is null";
    INPUT_TOO_LONG = 54, "more input than mapspans takes";
    NOT_THE_SYSTEM_TEXT = 66, "a lent system text that isn't the nine joined";
    NO_PADS_ALLOWED = 67, "a largest number of pads of 0";
    LIMIT_OUT_OF_RANGE = 68, "a limit outside its range";
    NO_ROOM_TO_PACK = 69, "a lent buffer that is shorter than the packed map";
    NO_ROOM_TO_WRITE = 70, "a lent buffer that is shorter than what is to be written";
    NO_SUCH_LENGTH = 71, "a pad of size 0, or a length that 9 VarUInt bytes cannot tell";
    // end of include/texts

    NO_MEMORY = u64::MAX - 1, "memory that isn't there, for what is to be written or packed";
    UNKNOWN_ANSWER = u64::MAX, "an answer that this crate doesn't know: the archive is another one than it was made for";
}

impl Refusal {
    /// The crate's own refusal, where a record says what the header leaves no room for.
    pub(crate) const fn unknown_answer() -> Refusal {
        Refusal {
            number: Self::UNKNOWN_ANSWER,
            position: 0,
        }
    }
}

impl fmt::Display for Refusal {
    fn fmt(&self, f: &mut fmt::Formatter<'_>) -> fmt::Result {
        write!(f, "refusal {} at {}: {}", self.number, self.position, self.words())
    }
}

impl fmt::Debug for Refusal {
    fn fmt(&self, f: &mut fmt::Formatter<'_>) -> fmt::Result {
        f.debug_struct("Refusal")
            .field("number", &self.number)
            .field("position", &self.position)
            .field("words", &self.words())
            .finish()
    }
}

impl Error for Refusal {}
