//! How much of each kind there may be: document 01's largest counts, and document 02's.

crate::constants::constants! { "wurzsige_sys::":
    /// Tables of a design.
    TABLES: usize = 8;

    /// Columns of a table, and cells of every row.
    COLUMNS: usize = 8;

    /// Constraints of a design.
    CONSTRAINTS: usize = 16;

    /// Fillings of a design.
    FILLINGS: usize = 8;

    /// Desks that share a cache.
    DESKS: usize = 4;

    /// Values that each of them holds.
    VALUES: usize = 16;

    /// Ranges that each of them holds.
    RANGES: usize = 8;

    /// Joins of a query.
    JOINS: usize = 4;

    /// The row table of a number without a row.
    FREE: u8 = 255;
}
