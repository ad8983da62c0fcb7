//! The limits of document 01.

/// A cabinet has 1 to 16 cards.
pub const MOST_CARDS: usize = 16;
/// Reached is at most base + 48.
pub const MOST_IN_HAND: u32 = 48;
/// Eight changes can be open together.
pub const MOST_OPEN: usize = 8;
/// State numbers run from 0 to 60,000.
pub const HIGHEST_STATE: u32 = 60_000;
/// The greatest number of a change and of a session.
pub const LAST_NUMBER: u32 = 4_294_967_295;
/// A read-out may have this many bytes.
pub const MOST_BYTES: usize = 65_536;
/// The list of lost changes has up to this many places.
pub const MOST_LOST: usize = 776;
