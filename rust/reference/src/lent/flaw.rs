//! All that is wrong with lent memory, each by a name of its own: documents 01 and 02 know
//! only causes 7 and 12.

use crate::refusal::Cause;

/// What is wrong with lent memory.
#[derive(Clone, Copy, Debug, PartialEq, Eq, PartialOrd, Ord)]
pub enum Flaw {
    /// Cells shorter than 4,096.
    ShortCells,
    /// Issues shorter than 4,096.
    ShortIssues,
    /// Row tables shorter than 512.
    ShortTables,
    /// Marks shorter than 512.
    ShortMarks,
    /// Words of the design shorter than 115.
    ShortDesign,
    /// Words of what is held shorter than 358.
    ShortHeld,
    /// A word of the design for a byte is not below 256.
    DesignByte,
    /// Over 8 tables.
    ManyTables,
    /// Over 16 constraints.
    ManyConstraints,
    /// Over 8 fillings.
    ManyFillings,
    /// A table with no or over 8 columns.
    Columns,
    /// A unique column past the table's columns.
    UniqueColumn,
    /// A constraint from a column that isn't there.
    ConstraintSource,
    /// A constraint to a column that isn't there.
    ConstraintTarget,
    /// A constraint twice.
    ConstraintTwice,
    /// A filling of a column that isn't there.
    FillingColumn,
    /// A filling from 0.
    FillingLow,
    /// A filling without candidates.
    FillingEmpty,
    /// Two fillings of a column.
    FillingTwice,
    /// An unused place of a table is not 0.
    UnusedTable,
    /// An unused place of a constraint is not 0.
    UnusedConstraint,
    /// An unused place of a filling is not 0.
    UnusedFilling,
    /// A row of a table that isn't there.
    RowTable,
    /// A cell past the table's columns.
    CellPastColumns,
    /// An issue past the table's columns.
    IssuePastColumns,
    /// An issue on a blank.
    IssueOnBlank,
    /// A value twice in a unique column.
    UniqueTwice,
    /// A free number with a cell.
    FreeCell,
    /// A free number with an issue.
    FreeIssue,
    /// A free number with a mark.
    FreeMark,
    /// A mark above 1.
    MarkAboveOne,
    /// A row of the smallest set without its mark.
    MarkMissing,
    /// A mark on a row outside the smallest set.
    MarkTooMany,
    /// A word of what is held for a byte is not below 256.
    HeldByte,
    /// A named desk above 3.
    NamedDesk,
    /// Over 64 held values.
    ManyValues,
    /// A held value of a desk above 3.
    ValueDesk,
    /// A held value of a filling that isn't there.
    ValueFilling,
    /// A held value that is no candidate.
    ValueNoCandidate,
    /// An issue of a held value is not below 256.
    ValueIssue,
    /// A held value twice for a desk.
    ValueTwice,
    /// Over 16 held values for a desk.
    ManyValuesOfDesk,
    /// An unused place of a held value is not 0.
    UnusedValue,
    /// Over 8 ranges for a desk.
    ManyRanges,
    /// A range of a filling that isn't there.
    RangeFilling,
    /// An empty range.
    RangeEmpty,
    /// A range not wholly of candidates.
    RangeNoCandidates,
    /// Ranges that don't rise.
    RangesFall,
    /// Ranges that overlap.
    RangesOverlap,
    /// Ranges that touch.
    RangesTouch,
    /// An unused place of a range is not 0.
    UnusedRange,
}

impl Flaw {
    /// Every flaw.
    pub const ALL: [Flaw; 51] = [
        Flaw::ShortCells,
        Flaw::ShortIssues,
        Flaw::ShortTables,
        Flaw::ShortMarks,
        Flaw::ShortDesign,
        Flaw::ShortHeld,
        Flaw::DesignByte,
        Flaw::ManyTables,
        Flaw::ManyConstraints,
        Flaw::ManyFillings,
        Flaw::Columns,
        Flaw::UniqueColumn,
        Flaw::ConstraintSource,
        Flaw::ConstraintTarget,
        Flaw::ConstraintTwice,
        Flaw::FillingColumn,
        Flaw::FillingLow,
        Flaw::FillingEmpty,
        Flaw::FillingTwice,
        Flaw::UnusedTable,
        Flaw::UnusedConstraint,
        Flaw::UnusedFilling,
        Flaw::RowTable,
        Flaw::CellPastColumns,
        Flaw::IssuePastColumns,
        Flaw::IssueOnBlank,
        Flaw::UniqueTwice,
        Flaw::FreeCell,
        Flaw::FreeIssue,
        Flaw::FreeMark,
        Flaw::MarkAboveOne,
        Flaw::MarkMissing,
        Flaw::MarkTooMany,
        Flaw::HeldByte,
        Flaw::NamedDesk,
        Flaw::ManyValues,
        Flaw::ValueDesk,
        Flaw::ValueFilling,
        Flaw::ValueNoCandidate,
        Flaw::ValueIssue,
        Flaw::ValueTwice,
        Flaw::ManyValuesOfDesk,
        Flaw::UnusedValue,
        Flaw::ManyRanges,
        Flaw::RangeFilling,
        Flaw::RangeEmpty,
        Flaw::RangeNoCandidates,
        Flaw::RangesFall,
        Flaw::RangesOverlap,
        Flaw::RangesTouch,
        Flaw::UnusedRange,
    ];

    /// `Ok` if `condition` is true, otherwise this flaw.
    pub fn unless(self, condition: bool) -> Result<(), Flaw> {
        if condition {
            Ok(())
        } else {
            Err(self)
        }
    }

    /// The cause that a call is refused with.
    pub fn cause(self) -> Cause {
        if self <= Flaw::ShortHeld {
            Cause::TooShort
        } else {
            Cause::Unlawful
        }
    }

    /// The flaw in words.
    pub fn name(self) -> &'static str {
        match self {
            Flaw::ShortCells => "cells shorter than 4,096",
            Flaw::ShortIssues => "issues shorter than 4,096",
            Flaw::ShortTables => "row tables shorter than 512",
            Flaw::ShortMarks => "marks shorter than 512",
            Flaw::ShortDesign => "words of the design shorter than 115",
            Flaw::ShortHeld => "words of what is held shorter than 358",
            Flaw::DesignByte => "a word of the design for a byte is not below 256",
            Flaw::ManyTables => "over 8 tables",
            Flaw::ManyConstraints => "over 16 constraints",
            Flaw::ManyFillings => "over 8 fillings",
            Flaw::Columns => "a table with no or over 8 columns",
            Flaw::UniqueColumn => "a unique column past the table's columns",
            Flaw::ConstraintSource => "a constraint from a column that isn't there",
            Flaw::ConstraintTarget => "a constraint to a column that isn't there",
            Flaw::ConstraintTwice => "a constraint twice",
            Flaw::FillingColumn => "a filling of a column that isn't there",
            Flaw::FillingLow => "a filling from 0",
            Flaw::FillingEmpty => "a filling without candidates",
            Flaw::FillingTwice => "two fillings of a column",
            Flaw::UnusedTable => "an unused place of a table is not 0",
            Flaw::UnusedConstraint => "an unused place of a constraint is not 0",
            Flaw::UnusedFilling => "an unused place of a filling is not 0",
            Flaw::RowTable => "a row of a table that isn't there",
            Flaw::CellPastColumns => "a cell past the table's columns",
            Flaw::IssuePastColumns => "an issue past the table's columns",
            Flaw::IssueOnBlank => "an issue on a blank",
            Flaw::UniqueTwice => "a value twice in a unique column",
            Flaw::FreeCell => "a free number with a cell",
            Flaw::FreeIssue => "a free number with an issue",
            Flaw::FreeMark => "a free number with a mark",
            Flaw::MarkAboveOne => "a mark above 1",
            Flaw::MarkMissing => "a row of the smallest set without its mark",
            Flaw::MarkTooMany => "a mark on a row outside the smallest set",
            Flaw::HeldByte => "a word of what is held for a byte is not below 256",
            Flaw::NamedDesk => "a named desk above 3",
            Flaw::ManyValues => "over 64 held values",
            Flaw::ValueDesk => "a held value of a desk above 3",
            Flaw::ValueFilling => "a held value of a filling that isn't there",
            Flaw::ValueNoCandidate => "a held value that is no candidate",
            Flaw::ValueIssue => "an issue of a held value is not below 256",
            Flaw::ValueTwice => "a held value twice for a desk",
            Flaw::ManyValuesOfDesk => "over 16 held values for a desk",
            Flaw::UnusedValue => "an unused place of a held value is not 0",
            Flaw::ManyRanges => "over 8 ranges for a desk",
            Flaw::RangeFilling => "a range of a filling that isn't there",
            Flaw::RangeEmpty => "an empty range",
            Flaw::RangeNoCandidates => "a range not wholly of candidates",
            Flaw::RangesFall => "ranges that don't rise",
            Flaw::RangesOverlap => "ranges that overlap",
            Flaw::RangesTouch => "ranges that touch",
            Flaw::UnusedRange => "an unused place of a range is not 0",
        }
    }
}
