//! Answers for tables that the proved library refuses. Everything here is outside the proofs: the library makes each tree, counts the classes
//! and checks the results.
//!
//! | module    | idea                                                                        |
//! |-----------|-----------------------------------------------------------------------------|
//! | `grid`    | a table over wires, and the result of joining two of them                   |
//! | `colours` | which columns a gate can make alike                                         |
//! | `counts`  | class counts of a table with open cells, and whether there can be a tree    |
//! | `fill`    | inks for open cells                                                         |
//! | `nearest` | the fewest changed rows with which a table has a tree                       |
//! | `repairs` | all changes of one row, or of two, that give a tree                         |
//! | `clusters`, `near_tree` | a tree near a table, and how it gets nearer                   |
//! | `widen`   | the same rule with more levels                                              |
//! | `larger`  | a tree with gates of more than two inputs                                   |
//! | `random`  | numbers for choices                                                         |

mod clusters;
mod colours;
mod counts;
mod fill;
mod grid;
mod larger;
mod near_tree;
mod nearest;
mod random;
mod repairs;
mod widen;

pub use fill::{fill, fillings, with_inks, Filled, Filling, Ground, Wish, MOST_FILLINGS};
pub use larger::{larger, Larger, LargerGate, Source};
pub use nearest::{changed, nearest, Change, Nearest, ALL_UP_TO};
pub use widen::widened;
