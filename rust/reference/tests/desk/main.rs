//! Whole scripts through the second implementation, with reports that were
//! worked out by hand from documents 01 and 02; and calls that lend it their memory.

mod bytes;
mod cases;
mod design_refusals;
mod desks;
mod even;
mod fetching;
mod generated;
mod grounds;
mod inward;
mod issues;
mod knots;
mod lent;
mod limits;
mod lines;
mod openers;
mod operation_refusals;
mod queries;
mod random;
mod ranges;
mod reasons;
mod rounds;
mod rows_that_come;
mod slices;
mod totals;
