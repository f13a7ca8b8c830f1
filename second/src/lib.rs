//! The second program: the same rules as the proved checker, written a second time and on their own.
//!
//! Everything the proved code answers is compared with what this library answers. It is plain
//! Rust over lent memory; each file has one subject and uses the rules' own words.
//!
//! - [`refusal`]: number, input and place of a refusal
//! - [`record`]: records in bytes, the reader that walks over them
//! - [`table`]: the table file
//! - [`product`]: atoms and products
//! - [`row`]: rows, and the outcome of a transition from a row
//! - [`work`]: rows laid out in lent words
//! - [`search`]: the search
//! - [`run`]: the run rebuilt from the end
//! - [`list`]: proof lists, read and written
//! - [`judge`]: the judge of a proof list
//! - [`replay`]: the replay of a run
//! - [`output`]: what the checking program prints
//! - [`text`]: tables as plain text
//! - [`answers`]: every answer as the numbers of the C library
//! - [`random`]: seeded random atoms, products, tables, lists and runs
//! - [`calls`]: calls of the C library as values
//! - [`driver`]: the proved library, called through its driver
//! - [`compare`]: the comparisons of the two
//! - [`fuzz`]: longer runs of them, until a difference, which is made small
//! - [`bench`]: the two timed in turns

pub mod answers;
pub mod bench;
pub mod calls;
pub mod compare;
pub mod driver;
pub mod fuzz;
pub mod judge;
pub mod list;
pub mod output;
pub mod product;
pub mod random;
pub mod record;
pub mod refusal;
pub mod replay;
pub mod row;
pub mod run;
pub mod search;
pub mod table;
pub mod text;
pub mod work;
