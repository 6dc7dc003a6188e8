/// The number of the archive's interface that this crate is written for.
///
/// The number grows where exported functions are added or changed, or the opened record is. The build script asks the
/// archive for its number and refuses to link another.
pub const INTERFACE: u64 = 5;
