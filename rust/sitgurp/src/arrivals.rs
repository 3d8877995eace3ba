//! When the output of a net settles, where each input's arrival is known between two times.

use crate::{ffi, Named, Refusal};

/// The earliest and the latest settling of a net's output, in microseconds. Both are exact.
#[derive(Clone, Copy, Debug, PartialEq)]
pub struct Settling {
    pub earliest: f64,
    pub latest: f64,
}

/// The settling of a net's output, from a net sheet, an arrival sheet and the delay of every gate in quarter microseconds.
///
/// An arrival sheet has the line `name from to`, then one line for each input, in order: the name, and between which two times it arrives, in
/// whole quarter microseconds, 0 to 65,535. For given arrivals the output settles at the largest, over the inputs that the net uses, of arrival plus delay
/// times
/// gates on the way. Whatever the arrivals inside the ranges, it settles between the two times of the answer, and each of these is met
/// by some.
///
/// The net sheet is judged first, then the arrival sheet: 18 where a name is not the next input, 19 for a time.
///
/// ```
/// let net = b"levels inputs\n2 3\na b c\nleft right table\na b 0110\n1 c 0110\n";
/// // two gates of a microsecond each lie on the way from a and from b, one on the way from c
/// let sheet = b"name from to\na 0 4\nb 2 2\nc 10 12\n";
/// let settling = sitgurp::arrivals(net, sheet, 4).unwrap();
/// assert_eq!((settling.earliest, settling.latest), (3.5, 4.0));
///
/// let refusal = sitgurp::arrivals(net, b"name from to\na 4 0\n", 4).unwrap_err();
/// assert_eq!(
///     refusal.to_string(),
///     "arrival sheet: a time is not a number from 0 to 65,535, or `to` is below `from` (refusal 19 at byte 17, line 2, column 5)"
/// );
/// ```
pub fn arrivals(net_sheet: &[u8], arrival_sheet: &[u8], delay: u8) -> Result<Settling, Refusal> {
    // SAFETY: each pointer is that of a slice borrowed here, with its length.
    let times = unsafe {
        ffi::sitgurp_arrivals(
            net_sheet.as_ptr(),
            net_sheet.len(),
            arrival_sheet.as_ptr(),
            arrival_sheet.len(),
            delay,
        )
    };
    let refused = |named, sheet| Err(Refusal::new(times.number, times.place, named, sheet));
    match (times.number, times.named) {
        (0, _) => Ok(Settling {
            earliest: times.earliest,
            latest: times.latest,
        }),
        (_, 1) => refused(Named::Net, net_sheet),
        _ => refused(Named::Arrivals, arrival_sheet),
    }
}
