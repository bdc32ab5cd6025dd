// What the programs of this folder share with each other, and with ../../compare and ../../bench.
pub mod asked;
pub mod axis;
pub mod book;
pub mod call;
pub mod fit;
pub mod grids;
pub mod ledger;
pub mod lines;
pub mod map;
pub mod papers;
pub mod random;
pub mod samples;
pub mod shapes;
pub mod spoils;
pub mod walk;
pub mod words;
