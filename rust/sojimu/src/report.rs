//! The report program's text.

use crate::ffi;
#[cfg(feature = "alloc")]
use alloc::{vec, vec::Vec};

/// A buffer of so many bytes holds every report.
pub const LONGEST_REPORT: usize = 16_384;

/// What the report program prints for two texts: a refused text, `fit` and the pairs met, or `no fit` and the fewest moves that
/// show it.
///
/// ```
/// let protocol = b"rec X.+{!Ping().&{?Pong().X},!Quit().end}";
/// let report = sojimu::report(protocol, b"+{!Ping().&{?Busy().end}}");
/// assert_eq!(report, b"no fit 2\nin Ping\nout Pong\njammed\n");
/// assert_eq!(sojimu::report(protocol, b""), b"device refused 3 at 0\n");
/// ```
#[cfg(feature = "alloc")]
pub fn report(protocol: &[u8], device: &[u8]) -> Vec<u8> {
    let mut out = vec![0; LONGEST_REPORT];
    let length = ffi::report(protocol, device, &mut out);
    out.truncate(length);
    out
}

/// The same at the start of a lent buffer: its length, or none where the buffer does not hold it and is unchanged.
///
/// ```
/// let mut out = [0xEE; 7];
/// assert_eq!(sojimu::report_into(b"end", b"end", &mut out), Some(6));
/// assert_eq!(&out, b"fit 1\n\xEE");
/// assert_eq!(sojimu::report_into(b"end", b"end", &mut out[..5]), None);
/// ```
pub fn report_into(protocol: &[u8], device: &[u8], out: &mut [u8]) -> Option<usize> {
    match ffi::report(protocol, device, out) {
        0 => None,
        length => Some(length),
    }
}
