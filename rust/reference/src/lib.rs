//! The second implementation of document 01 ("Shade nets"), with the changes of
//! document 02, written from their text alone. The proved implementation is
//! compared with this one.
//!
//! One module for each section of document 01 and each request of document 02:
//!
//! | module     | section or request                                        |
//! |------------|-----------------------------------------------------------|
//! | `limits`   | "Sheets": the bounds, each in one place                   |
//! | `refusal`  | "Turned back": a number, a place, the sheet it names      |
//! | `fields`   | "Sheets": how a single field is judged                    |
//! | `sheet`    | "Sheets": reading from the front, and printing; the loose |
//! |            | table sheets of document 02, "Sheets from spreadsheets"   |
//! | `net`      | "Value of a net"                                          |
//! | `groups`   | "Groups": alike, classes, multiplicity                    |
//! | `marks`    | "Marks", and document 02's packing of them in a buffer    |
//! | `leaves`   | document 02, "Inputs that never matter"                   |
//! | `settled`  | "The settled net"                                         |
//! | `shallow`  | document 02, "Shallow nets": the tree with fewest layers  |
//! | `family`   | document 02, "The whole family of trees": counts, numbers |
//! | `arrivals` | document 02, "Arrival times known only between bounds"     |
//! | `job`      | document 02, "Marking that yields to the pen"             |
//! | `kept`     | document 02, "Keep my wiring"                             |
//! | `glyph`    | document 02, "Whole glyphs"                               |
//! | `calls`    | every call with its buffers                               |
//! | `lister`   | "Listing"                                                 |
//! | `programs` | "Two programs", and the one that tidies                   |
//! | `rng`, `generate`, `loose`, `damage` | seeded sheets, good, loose and  |
//! |            | damaged, for tests                                        |
//!
//! Simple rather than fast: an assignment is a list of levels, a group's class
//! is a column of inks, and nothing is computed that the text does not name.

pub mod arrivals;
pub mod calls;
pub mod damage;
pub mod family;
pub mod fields;
pub mod generate;
pub mod glyph;
pub mod groups;
pub mod job;
pub mod kept;
pub mod leaves;
pub mod limits;
pub mod lister;
pub mod loose;
pub mod marks;
pub mod net;
pub mod programs;
pub mod refusal;
pub mod rng;
pub mod settled;
pub mod shallow;
pub mod sheet;

pub use arrivals::Settling;
pub use calls::{
    arrivals, check, family_count, family_tree, fewest_levels, glyph, keep, make, make_shallow,
    marking, multiplicities, multiplicity, settle, settle_shallow, shallower, tidy, write_table,
    Kept, Layered, Verdict,
};
pub use job::Job;
pub use limits::allowed_sizes;
pub use lister::Lister;
pub use programs::{make_program, settle_program, tidy_program};
pub use refusal::{Refusal, Sheet};
