//! The bytes that begin commands: C's `enum wurzsige_command`. `docs/USING.md`, "The
//! notation", has the operands behind each.
//!
//! ```
//! use wurzsige_sys::{command, word, Memory};
//!
//! // A table of two columns, of which the first is unique, and nothing else.
//! let design = [command::TABLE, 2, 1, command::END];
//! assert_eq!(Memory::boxed().open(&design).word, word::DESIGN);
//! ```

crate::constants::constants! { "wurzsige_sys::command::":
    /// A table of a design.
    TABLE: u8 = 0x01;
    /// A constraint.
    CONSTRAINT: u8 = 0x02;
    /// A filling.
    FILLING: u8 = 0x03;
    /// A row.
    ROW: u8 = 0x04;
    /// The end of a design.
    END: u8 = 0x05;
    /// A row with eight issues behind its cells.
    ROW_ISSUED: u8 = 0x07;
    /// Holds a value.
    REFER: u8 = 0x10;
    /// Drops a value.
    DROP: u8 = 0x11;
    /// Probes.
    PROBE: u8 = 0x12;
    /// Queries.
    QUERY: u8 = 0x13;
    /// Asks whether the design is even.
    EVEN: u8 = 0x14;
    /// Adds up a cell.
    TOTAL: u8 = 0x15;
    /// Names a desk.
    DESK: u8 = 0x17;
    /// Asks why a row is cached.
    REASON: u8 = 0x18;
    /// Asks what would give a probe a ground.
    OPENER: u8 = 0x19;
    /// Holds a range.
    HOLD: u8 = 0x1a;
    /// Drops a range.
    RELEASE: u8 = 0x1b;
    /// Asks for the smallest knot.
    KNOT: u8 = 0x1c;
    /// Puts a row in.
    PUT: u8 = 0x1d;
    /// Removes a row.
    REMOVE: u8 = 0x1e;
    /// [`REFER`] of a value with an issue, which stands behind the operands.
    REFER_ISSUED: u8 = 0x20;
    /// [`DROP`] of a value with an issue, which stands behind the operands.
    DROP_ISSUED: u8 = 0x21;
    /// [`PROBE`] of a value with an issue, which stands behind the operands.
    PROBE_ISSUED: u8 = 0x22;
    /// [`QUERY`] of a value with an issue, which stands behind the operands.
    QUERY_ISSUED: u8 = 0x23;
    /// [`TOTAL`] of a value with an issue, which stands behind the operands.
    TOTAL_ISSUED: u8 = 0x25;
}
