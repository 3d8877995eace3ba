//! Random and damaged calls, each compared with the second implementation.
//!
//! | module     | idea                                                                |
//! |------------|---------------------------------------------------------------------|
//! | `inputs`   | a call's arguments: good and damaged sheets, bare cells, buffers    |
//! | `given`    | the result of a call: its answer and every byte of its buffers      |
//! | `calls`    | one call of each kind by both implementations                       |
//! | `tally`    | how many calls of each kind ended in each way                       |
//! | `c`        | the calls as C sees them                                            |
//! | `recorded` | calls with all their arguments and results, for replay              |
//! | `asked`    | the arguments of recorded calls                                     |

pub mod asked;
pub mod c;
pub mod calls;
pub mod given;
pub mod inputs;
pub mod recorded;
pub mod tally;

use reference::rng::Rng;

/// Returns the seed of one call. Each call has its own, so that it can be repeated without those before it.
pub fn seed_of(seed: u64, call: u64) -> u64 {
    let start = Rng::new(seed).number();
    Rng::new(start.wrapping_add(call)).number()
}
