//! The built-in types of the static library `builtin_c`, behind safe functions.

mod c {
    unsafe extern "C" {
        pub safe fn builtin_kind(oid: u32) -> u32;
        pub safe fn builtin_component(oid: u32) -> u32;
        pub safe fn builtin_array_of(element: u32) -> u32;
        pub safe fn builtin_name_length(oid: u32) -> usize;
        pub fn builtin_name(oid: u32, buffer: *mut u8, length: usize) -> usize;
        pub fn builtin_oid(name: *const u8, length: usize) -> u32;
    }
}

#[derive(Clone, Copy, Debug, PartialEq, Eq)]
pub enum Kind {
    Simple,
    Pseudo,
    Array,
    Range,
}

/// 0 says that there is none: it is no OID of the table.
fn present(oid: u32) -> Option<u32> {
    (oid != 0).then_some(oid)
}

pub fn kind(oid: u32) -> Option<Kind> {
    match c::builtin_kind(oid) {
        1 => Some(Kind::Simple),
        2 => Some(Kind::Pseudo),
        3 => Some(Kind::Array),
        4 => Some(Kind::Range),
        _ => None,
    }
}

pub fn component(oid: u32) -> Option<u32> {
    present(c::builtin_component(oid))
}

pub fn array_of(element: u32) -> Option<u32> {
    present(c::builtin_array_of(element))
}

/// Copies the name to the start of `buffer`, or says how long a buffer has to be.
pub fn name_into(oid: u32, buffer: &mut [u8]) -> Result<usize, usize> {
    // SAFETY: the pointer and the length are those of one slice, which outlives the call.
    let length = unsafe { c::builtin_name(oid, buffer.as_mut_ptr(), buffer.len()) };
    if length <= buffer.len() { Ok(length) } else { Err(length) }
}

pub fn name(oid: u32) -> Option<Vec<u8>> {
    let mut name = vec![0; c::builtin_name_length(oid)];
    match name_into(oid, &mut name) {
        Ok(length) if length > 0 => Some(name),
        _ => None,
    }
}

pub fn oid(name: &[u8]) -> Option<u32> {
    // SAFETY: the pointer and the length are those of one slice, which outlives the call.
    present(unsafe { c::builtin_oid(name.as_ptr(), name.len()) })
}
