//! Do wrapper and archive belong together?

use crate::ffi;

/// The version of the calls and structs that this wrapper is written for: `SOJIMU_VERSION` of the header, and the first number of
/// the package's version.
pub const VERSION: u32 = 6;

/// The version of the static library that is linked. It is raised whenever a struct or a call changes.
///
/// ```
/// assert_eq!(sojimu::version(), sojimu::VERSION);
/// ```
#[inline]
pub fn version() -> u32 {
    ffi::sojimu_version()
}

/// Is the static library that is linked one that this wrapper is written for? One of another version does not link:
/// [`Table::read`](crate::Table::read) and [`Table::fresh`](crate::Table::fresh) refer to a symbol that carries the version in its
/// name.
///
/// ```
/// assert!(sojimu::matches());
/// ```
#[inline]
pub fn matches() -> bool {
    version() == VERSION
}

/// Refers to the symbol that only an archive of this version has. It is called for its name.
#[inline]
pub(crate) fn meets() {
    ffi::sojimu_abi_6();
}
