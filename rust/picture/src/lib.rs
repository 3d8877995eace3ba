//! Draws nets and tables.
//!
//! | module      | idea                                                              |
//! |-------------|-------------------------------------------------------------------|
//! | `tree`      | a net's output, and its gates' digits by row and column           |
//! | `layout`    | where each box and wire of a net lies                             |
//! | `elements`  | a drawing as SVG, and the shade of a level                        |
//! | `svg`       | the net drawn at its places                                       |
//! | `dot`       | the net for Graphviz, which finds places of its own               |
//! | `partition` | a table's partition matrix over a group of inputs, and its classes |
//! | `matrix`    | that matrix drawn                                                 |
//! | `larger`    | a tree with gates of more than two inputs                         |
//! | `cells`     | a picture of levels, one square a cell                            |
//! | `family`    | many trees of one table on one page                               |
//!
//! Whether a sheet is good is the library's to say: a sheet that it refuses is not drawn.

// what can panic says when
#![warn(clippy::missing_panics_doc)]

pub mod cells;
pub mod dot;
pub mod elements;
pub mod family;
pub mod larger;
pub mod layout;
pub mod matrix;
pub mod partition;
pub mod svg;
pub mod tree;
