//! Commands as bytes, written out once more from document 01's table, and from
//! document 02, so that the tests don't lean on the code they test.

/// A table and a column by number.
pub type Column = (u8, u8);

pub fn table(columns: u8, unique: u8) -> Vec<u8> {
    vec![0x01, columns, unique]
}

pub fn constraint(source: Column, target: Column) -> Vec<u8> {
    vec![0x02, source.0, source.1, target.0, target.1]
}

pub fn filling(column: Column, low: u32, high: u32) -> Vec<u8> {
    [
        &[0x03, column.0, column.1],
        &low.to_le_bytes()[..],
        &high.to_le_bytes(),
    ]
    .concat()
}

pub fn row(table: u8, cells: &[u32]) -> Vec<u8> {
    let mut all = [0; 8];
    all[..cells.len()].copy_from_slice(cells);
    let mut bytes = vec![0x04, table];
    bytes.extend(all.iter().flat_map(|cell| cell.to_le_bytes()));
    bytes
}

pub fn end() -> Vec<u8> {
    vec![0x05]
}

pub fn refer(filling: u8, value: u32) -> Vec<u8> {
    [&[0x10, filling], &value.to_le_bytes()[..]].concat()
}

pub fn drop(filling: u8, value: u32) -> Vec<u8> {
    [&[0x11, filling], &value.to_le_bytes()[..]].concat()
}

pub fn probe(column: Column, value: u32) -> Vec<u8> {
    [&[0x12, column.0, column.1], &value.to_le_bytes()[..]].concat()
}

pub fn query(column: Column, value: u32, joins: &[(u8, u8)]) -> Vec<u8> {
    let mut pairs = [(0, 0); 4];
    pairs[..joins.len()].copy_from_slice(joins);
    raw_query(column, value, joins.len() as u8, pairs)
}

/// A query whose join count and pairs need not agree.
pub fn raw_query(column: Column, value: u32, joins: u8, pairs: [(u8, u8); 4]) -> Vec<u8> {
    let mut bytes = vec![0x13, column.0, column.1];
    bytes.extend(value.to_le_bytes());
    bytes.push(joins);
    bytes.extend(pairs.iter().flat_map(|pair| [pair.0, pair.1]));
    bytes
}

pub fn even() -> Vec<u8> {
    vec![0x14]
}

/// The total of the cell at a position and a column.
pub fn total(column: Column, value: u32, joins: &[(u8, u8)], cell: (u8, u8)) -> Vec<u8> {
    total_of(&query(column, value, joins), cell)
}

/// The total with the operands of a query, right or wrong.
pub fn total_of(query: &[u8], cell: (u8, u8)) -> Vec<u8> {
    [&[0x15], &query[1..], &[cell.0, cell.1]].concat()
}

/// Names a desk.
pub fn desk(number: u8) -> Vec<u8> {
    vec![0x17, number]
}

/// Holds a range.
pub fn hold(filling: u8, low: u32, high: u32) -> Vec<u8> {
    [
        &[0x1a, filling],
        &low.to_le_bytes()[..],
        &high.to_le_bytes(),
    ]
    .concat()
}

/// Drops a range.
pub fn release(filling: u8, low: u32, high: u32) -> Vec<u8> {
    [&[0x1b], &hold(filling, low, high)[1..]].concat()
}

/// Puts in a row without issues.
pub fn put(number: u16, table: u8, cells: &[u32]) -> Vec<u8> {
    let cells: Vec<Cell> = cells.iter().map(|&cell| (cell, 0)).collect();
    put_with_issues(number, table, &cells)
}

/// Puts in a row.
pub fn put_with_issues(number: u16, table: u8, cells: &[Cell]) -> Vec<u8> {
    let row = row_with_issues(table, cells);
    [&[0x1d], &number.to_le_bytes()[..], &row[1..]].concat()
}

/// Takes out a row.
pub fn take(number: u16) -> Vec<u8> {
    [&[0x1e], &number.to_le_bytes()[..]].concat()
}

/// Asks why a row is cached.
pub fn reason(row: u16) -> Vec<u8> {
    [&[0x18], &row.to_le_bytes()[..]].concat()
}

/// What would open a probe, with an issue.
pub fn opener(column: Column, value: u32, issue: u8) -> Vec<u8> {
    [&[0x19], &probe(column, value)[1..], &[issue]].concat()
}

pub fn knot() -> Vec<u8> {
    vec![0x1c]
}

/// A cell with its issue.
pub type Cell = (u32, u8);

/// A row with issue bytes.
pub fn row_with_issues(table: u8, cells: &[Cell]) -> Vec<u8> {
    let numbers: Vec<u32> = cells.iter().map(|cell| cell.0).collect();
    let mut issues = [0; 8];
    for (issue, cell) in issues.iter_mut().zip(cells) {
        *issue = cell.1;
    }
    [&[0x07], &row(table, &numbers)[1..], &issues].concat()
}

/// An operation on a value, with an issue byte at the end.
pub fn with_issue(issue: u8, operation: &[u8]) -> Vec<u8> {
    [&[operation[0] + 0x10], &operation[1..], &[issue]].concat()
}

/// One of each design command, with its name, in their order.
pub fn design_commands() -> Vec<(&'static str, Vec<u8>)> {
    vec![
        ("table", table(1, 0)),
        ("constraint", constraint((0, 0), (0, 0))),
        ("filling", filling((0, 0), 1, 2)),
        ("row", row(0, &[1])),
        ("row with issues", row_with_issues(0, &[(1, 1)])),
        ("end", end()),
    ]
}

/// One of each operation, with its name.
pub fn operations() -> Vec<(&'static str, Vec<u8>)> {
    let query = query((0, 0), 1, &[]);
    let total = total_of(&query, (0, 0));
    vec![
        ("refer", refer(0, 1)),
        ("drop", drop(0, 1)),
        ("probe", probe((0, 0), 1)),
        ("query", query.clone()),
        ("even", even()),
        ("total", total.clone()),
        ("knot", knot()),
        ("desk", desk(1)),
        ("opener", opener((0, 0), 1, 1)),
        ("reason", reason(0)),
        ("hold", hold(0, 1, 2)),
        ("release", release(0, 1, 2)),
        ("put", put(3, 0, &[1])),
        ("take", take(0)),
        ("refer with an issue", with_issue(1, &refer(0, 1))),
        ("drop with an issue", with_issue(1, &drop(0, 1))),
        ("probe with an issue", with_issue(1, &probe((0, 0), 1))),
        ("query with an issue", with_issue(1, &query)),
        ("total with an issue", with_issue(1, &total)),
    ]
}

/// One of each command, with its name.
pub fn one_of_each() -> Vec<(&'static str, Vec<u8>)> {
    [design_commands(), operations()].concat()
}

/// Document 01's case A without its operations.
pub fn design_a() -> Vec<u8> {
    [
        table(2, 0b01),
        table(2, 0b01),
        table(2, 0),
        constraint((0, 0), (1, 1)),
        constraint((1, 0), (2, 0)),
        filling((0, 1), 1, 99),
        row(0, &[7, 3]),
        row(0, &[8, 3]),
        row(0, &[9, 4]),
        row(1, &[20, 7]),
        row(1, &[21, 9]),
        row(2, &[20, 5]),
        row(2, &[20, 6]),
        row(2, &[21, 5]),
        end(),
    ]
    .concat()
}

/// The length of [`design_a`]: 3 tables of 3 bytes, 2 constraints of 5, a
/// filling of 11, 8 rows of 34 and END.
pub const DESIGN_A_LENGTH: usize = 9 + 10 + 11 + 272 + 1;

/// Case A's design followed by operations.
pub fn script_a(operations: &[Vec<u8>]) -> Vec<u8> {
    [design_a(), operations.concat()].concat()
}

/// Document 01's case B without its operations, followed by others.
pub fn script_b(operations: &[Vec<u8>]) -> Vec<u8> {
    [
        table(2, 0),
        table(1, 0),
        constraint((0, 1), (1, 0)),
        constraint((1, 0), (0, 1)),
        filling((0, 0), 1, 2),
        row(0, &[1, 5]),
        row(0, &[2, 5]),
        row(1, &[5]),
        end(),
        operations.concat(),
    ]
    .concat()
}
