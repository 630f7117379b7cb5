//! The functions of the archive that write values, each with slices for pointers and lengths. `to` is the buffer for what is
//! written, `out` the one for the record of kind 17: word 3 is the length. Returned is 0 or the refusal's number.
#![allow(unsafe_code)]

extern "C" {
    fn ion_map_write_null(code: usize, to: *mut u8, to_len: usize, out: *mut u8, out_len: usize) -> u64;
    fn ion_map_write_bool(value: u64, to: *mut u8, to_len: usize, out: *mut u8, out_len: usize) -> u64;
    fn ion_map_write_int(
        magnitude: *const u8,
        magnitude_len: usize,
        negative: u64,
        to: *mut u8,
        to_len: usize,
        out: *mut u8,
        out_len: usize,
    ) -> u64;
    fn ion_map_write_float(bits: u64, to: *mut u8, to_len: usize, out: *mut u8, out_len: usize) -> u64;
    fn ion_map_write_symbol(id: u64, to: *mut u8, to_len: usize, out: *mut u8, out_len: usize) -> u64;
    fn ion_map_write_pad(size: usize, to: *mut u8, to_len: usize, out: *mut u8, out_len: usize) -> u64;
    fn ion_map_write_scalar(
        code: usize,
        body: *const u8,
        body_len: usize,
        to: *mut u8,
        to_len: usize,
        out: *mut u8,
        out_len: usize,
    ) -> u64;
    fn ion_map_write_container(
        code: usize,
        body: *const u8,
        body_len: usize,
        annotations: usize,
        depth: usize,
        to: *mut u8,
        to_len: usize,
        out: *mut u8,
        out_len: usize,
    ) -> u64;
    fn ion_map_write_wrapper(
        annotation_bytes: *const u8,
        annotation_bytes_len: usize,
        value: *const u8,
        value_len: usize,
        annotations: usize,
        depth: usize,
        to: *mut u8,
        to_len: usize,
        out: *mut u8,
        out_len: usize,
    ) -> u64;
}

/// A null of a type, by its type code.
pub fn null(code: usize, to: &mut [u8], out: &mut [u8]) -> u64 {
    // SAFETY: each pointer has as many bytes as its length says, and slices that are lent mutably overlap nothing else.
    unsafe { ion_map_write_null(code, to.as_mut_ptr(), to.len(), out.as_mut_ptr(), out.len()) }
}

/// A bool: 0 or 1.
pub fn bool(value: u64, to: &mut [u8], out: &mut [u8]) -> u64 {
    // SAFETY: each pointer has as many bytes as its length says, and slices that are lent mutably overlap nothing else.
    unsafe { ion_map_write_bool(value, to.as_mut_ptr(), to.len(), out.as_mut_ptr(), out.len()) }
}

/// An int by its magnitude, and 1 where it is negative.
pub fn int(magnitude: &[u8], negative: u64, to: &mut [u8], out: &mut [u8]) -> u64 {
    // SAFETY: each pointer has as many bytes as its length says, and slices that are lent mutably overlap nothing else.
    unsafe {
        ion_map_write_int(
            magnitude.as_ptr(),
            magnitude.len(),
            negative,
            to.as_mut_ptr(),
            to.len(),
            out.as_mut_ptr(),
            out.len(),
        )
    }
}

/// The float with these bits.
pub fn float(bits: u64, to: &mut [u8], out: &mut [u8]) -> u64 {
    // SAFETY: each pointer has as many bytes as its length says, and slices that are lent mutably overlap nothing else.
    unsafe { ion_map_write_float(bits, to.as_mut_ptr(), to.len(), out.as_mut_ptr(), out.len()) }
}

/// A symbol by its ID.
pub fn symbol(id: u64, to: &mut [u8], out: &mut [u8]) -> u64 {
    // SAFETY: each pointer has as many bytes as its length says, and slices that are lent mutably overlap nothing else.
    unsafe { ion_map_write_symbol(id, to.as_mut_ptr(), to.len(), out.as_mut_ptr(), out.len()) }
}

/// A pad of a total size.
pub fn pad(size: usize, to: &mut [u8], out: &mut [u8]) -> u64 {
    // SAFETY: each pointer has as many bytes as its length says, and slices that are lent mutably overlap nothing else.
    unsafe { ion_map_write_pad(size, to.as_mut_ptr(), to.len(), out.as_mut_ptr(), out.len()) }
}

/// A decimal, a timestamp, a string, a clob or a blob, by its type code and its representation.
pub fn scalar(code: usize, body: &[u8], to: &mut [u8], out: &mut [u8]) -> u64 {
    // SAFETY: each pointer has as many bytes as its length says, and slices that are lent mutably overlap nothing else.
    unsafe {
        ion_map_write_scalar(
            code,
            body.as_ptr(),
            body.len(),
            to.as_mut_ptr(),
            to.len(),
            out.as_mut_ptr(),
            out.len(),
        )
    }
}

/// A list, a sexp or an unordered struct, by its type code and its body.
pub fn container(code: usize, body: &[u8], annotations: usize, depth: usize, to: &mut [u8], out: &mut [u8]) -> u64 {
    // SAFETY: each pointer has as many bytes as its length says, and slices that are lent mutably overlap nothing else.
    unsafe {
        ion_map_write_container(
            code,
            body.as_ptr(),
            body.len(),
            annotations,
            depth,
            to.as_mut_ptr(),
            to.len(),
            out.as_mut_ptr(),
            out.len(),
        )
    }
}

/// A wrapper of annotation bytes around a value.
pub fn wrapper(
    annotation_bytes: &[u8],
    value: &[u8],
    annotations: usize,
    depth: usize,
    to: &mut [u8],
    out: &mut [u8],
) -> u64 {
    // SAFETY: each pointer has as many bytes as its length says, and slices that are lent mutably overlap nothing else.
    unsafe {
        ion_map_write_wrapper(
            annotation_bytes.as_ptr(),
            annotation_bytes.len(),
            value.as_ptr(),
            value.len(),
            annotations,
            depth,
            to.as_mut_ptr(),
            to.len(),
            out.as_mut_ptr(),
            out.len(),
        )
    }
}
