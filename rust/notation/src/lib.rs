//! A text notation for scripts: text to bytes and back.
//!
//! One command stands on a line; `#` begins a comment, unless it stands right
//! between a number and an issue. Numbers are decimal, or hexadecimal if they
//! begin with `0x`. A column is written as its table, a dot and its own number.
//!
//! ```text
//! table COLUMNS [unique COLUMN ..]              table 2 unique 0
//! constraint SOURCE -> TARGET                   constraint 0.0 -> 1.1
//! filling COLUMN LOW..HIGH                      filling 0.1 1..99
//! row TABLE [CELL ..]                           row 0 7 - 3#1
//! end                                           end
//! refer FILLING VALUE                           refer 0 3#1
//! drop FILLING VALUE                            drop 0 3
//! probe COLUMN = VALUE                          probe 1.1 = 8
//! query COLUMN = VALUE [join POSITION by CONSTRAINT ..]
//!                                               query 0.1 = 3 join 0 by 0 join 1 by 1
//! even                                          even
//! total COLUMN = VALUE [join ..] of POSITION column NUMBER
//!                                               total 0.1 = 3 join 0 by 0 of 1 column 2
//! knot                                          knot
//! desk NUMBER                                   desk 1
//! reason ROW                                    reason 5
//! hold FILLING LOW..HIGH                        hold 0 10..20
//! release FILLING LOW..HIGH                     release 0 10..20
//! put ROW TABLE [CELL ..]                       put 8 1 22 8
//! take ROW                                      take 8
//! opener COLUMN = VALUE                         opener 1.1 = 8
//! bytes BYTE ..                                 bytes 0xff 0x01
//! ```
//!
//! A blank cell is written `-`, with space around it, and only so: a cell `0` is an
//! error. A row has at least a cell for each column of its table. If the table isn't
//! there, or `bytes` stand before the row, so that its table can't be known, any number
//! of cells will do. Those past the ones given are blank. A value or cell with an issue is
//! written `7#1`, and then the command is the one that has a place for issues, even
//! where it is `7#0`, if there are two. The notation checks nothing else but that
//! operands fit their widths, so that scripts which the desk refuses can be written
//! too.
//!
//! [`disassemble`] is defined for every byte string, and [`assemble`] turns its
//! text into the same bytes again. What has no words (a QUERY or a total with
//! unused pairs that aren't 0, a command cut short, an unknown byte) becomes `bytes`. [`disassemble_with_offsets`] says in a
//! comment where each command begins.

#![forbid(unsafe_code)]

mod assemble;
mod bytes;
mod command;
mod design;
mod disassemble;
pub mod filter;
mod token;
mod widths;

pub use assemble::{assemble, assemble_whole, Error};
pub use bytes::{encode, split, Piece, COMMAND_BYTES};
pub use command::{
    Column, Command, Constraint, Filling, Join, Pair, Probe, Put, Query, Range, Row, Table, Total,
    Value, CELLS, PAIRS,
};
pub use design::Design;
pub use disassemble::{disassemble, disassemble_with_offsets};
