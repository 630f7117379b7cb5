//! Packed maps: without pads, and with each length in its shortest form.

use crate::answer::{kind, Answer};
use crate::limits::Limits;
use crate::raw;
use crate::refusal::Refusal;
#[cfg(feature = "alloc")]
use alloc::vec::Vec;

/// How many bytes a map has once its pads are gone, a struct's with their field IDs, and its lengths are in their shortest
/// form, those of wrappers included. A map that [`check`](crate::check) doesn't accept is refused as there.
///
/// ```
/// use ion_map::{packed_size, Refusal};
///
/// assert_eq!(packed_size(&[0xD5, 0x84, 0x00, 0x85, 0x21, 0x07, 0x00])?, 4); // D3 85 21 07
/// assert_eq!(packed_size(&[0x12]).unwrap_err().number, Refusal::BAD_BOOL);
/// # Ok::<(), Refusal>(())
/// ```
pub fn packed_size(map: &[u8]) -> Result<usize, Refusal> {
    packed_size_by(Limits::DEFAULT, map)
}

pub(crate) fn packed_size_by(limits: Limits, map: &[u8]) -> Result<usize, Refusal> {
    let answer = Answer::of(|record| raw::packed_size(map, limits.annotations, limits.depth, record))?;
    match answer.kind() {
        kind::PACKED_SIZE => Ok(answer.at::<3>()),
        _ => Err(Refusal::unknown_answer()),
    }
}

/// The packed map: without pads, a struct's with their field IDs, and with each length in its shortest form. Field IDs,
/// annotations and the bodies of scalars stay byte for byte. [`check`](crate::check) accepts it, with the same counts but no
/// pads, and packing it again changes nothing. It takes memory of the map's length; where that isn't there it is refused
/// with [`Refusal::NO_MEMORY`]. With the feature `alloc`.
///
/// ```
/// use ion_map::{pack, Refusal};
///
/// assert_eq!(pack(&[0xD5, 0x84, 0x00, 0x85, 0x21, 0x07, 0x00])?, [0xD3, 0x85, 0x21, 0x07]);
/// # Ok::<(), Refusal>(())
/// ```
#[cfg(feature = "alloc")]
pub fn pack(map: &[u8]) -> Result<Vec<u8>, Refusal> {
    pack_by(Limits::DEFAULT, map)
}

/// Packs a map into a buffer, and gives how many of its bytes that takes. The others stay, and where the map is refused, or
/// the buffer is too short ([`Refusal::NO_ROOM_TO_PACK`] at the size needed), all of them do.
///
/// ```
/// use ion_map::{pack_into, Refusal};
///
/// let mut packed = [0xAA; 3];
/// assert_eq!(pack_into(&[0x2E, 0x81, 0x07], &mut packed)?, 2);
/// assert_eq!(packed, [0x21, 0x07, 0xAA]);
/// let refusal = pack_into(&[0x2E, 0x81, 0x07], &mut packed[..1]).unwrap_err();
/// assert_eq!(refusal, Refusal { number: Refusal::NO_ROOM_TO_PACK, position: 2 });
/// # Ok::<(), Refusal>(())
/// ```
pub fn pack_into(map: &[u8], packed: &mut [u8]) -> Result<usize, Refusal> {
    pack_into_by(Limits::DEFAULT, map, packed)
}

// A packed map is no longer than the map, so that a buffer of its length always does.
#[cfg(feature = "alloc")]
pub(crate) fn pack_by(limits: Limits, map: &[u8]) -> Result<Vec<u8>, Refusal> {
    let mut packed = Vec::new();
    packed.try_reserve_exact(map.len()).map_err(|_| Refusal {
        number: Refusal::NO_MEMORY,
        position: 0,
    })?;
    packed.resize(map.len(), 0);
    let size = pack_into_by(limits, map, &mut packed)?;
    packed.truncate(size);
    Ok(packed)
}

pub(crate) fn pack_into_by(limits: Limits, map: &[u8], packed: &mut [u8]) -> Result<usize, Refusal> {
    let answer = Answer::of(|record| raw::pack(map, limits.annotations, limits.depth, packed, record))?;
    match answer.kind() {
        kind::PACKED => Ok(answer.at::<3>()),
        _ => Err(Refusal::unknown_answer()),
    }
}
