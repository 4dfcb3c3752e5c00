//! The lowest missing fragment in the map, by three searches. The plain device uses the fastest, by eights.

/// A search in a map, of so many fragments: the lowest whose bit is not set, if there is one.
pub type Search = fn(&[u8], u16) -> Option<u16>;

/// Looks at every bit.
#[inline(never)]
pub fn by_bits(map: &[u8], total: u16) -> Option<u16> {
    (0..total).find(|&index| map[usize::from(index) / 8] >> (index % 8) & 1 == 0)
}

/// Passes over bytes of eight stored fragments.
#[inline(never)]
pub fn by_bytes(map: &[u8], total: u16) -> Option<u16> {
    lowest_clear(&map[..map_length(total)], 0, total)
}

/// Passes over them by eights as far as it can.
#[inline(never)]
pub fn by_eights(map: &[u8], total: u16) -> Option<u16> {
    let map = &map[..map_length(total)];
    let full = map.chunks_exact(8).take_while(|eight| **eight == [0xFF; 8]).count();
    lowest_clear(map, 8 * full, total)
}

/// All bytes before a place are full.
fn lowest_clear(map: &[u8], from: usize, total: u16) -> Option<u16> {
    let byte = from + map[from..].iter().position(|&byte| byte != 0xFF)?;
    let index = 8 * byte + map[byte].trailing_ones() as usize;
    u16::try_from(index).ok().filter(|&index| index < total)
}

/// The map's bytes of so many fragments.
pub(crate) fn map_length(total: u16) -> usize {
    (usize::from(total) + 7) / 8
}
