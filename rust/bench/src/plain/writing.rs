//! A writer of records that are all good and fit.

/// Puts N bytes at a place; gives the place after them.
#[inline]
fn put<const N: usize>(buffer: &mut [u8], place: usize, bytes: [u8; N]) -> usize {
    buffer[place..][..N].copy_from_slice(&bytes);
    place + N
}

/// Appends a record to a buffer from a place on; gives the place after it.
#[inline]
pub fn write(kind: u8, address: u32, value: u64, buffer: &mut [u8], place: usize) -> usize {
    let address = address.to_be_bytes();
    let low = (value as u32).to_be_bytes();
    let place = put(buffer, place, [kind]);
    match kind {
        1 | 2 => {
            let place = put(buffer, place, address);
            put(buffer, place, low)
        }
        3..=5 => put(buffer, place, low),
        6 | 7 => place,
        8 | 9 => {
            let place = put(buffer, place, address);
            put(buffer, place, value.to_be_bytes())
        }
        10 => put(buffer, place, value.to_be_bytes()),
        _ => panic!("no record has kind {kind}"),
    }
}
