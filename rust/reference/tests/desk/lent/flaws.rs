//! Each flaw, alone in memory that is sound otherwise.

use reference::lent::{self, Flaw, Lent, Told};

use super::{flaw_after, sound};
use crate::bytes::refer;

/// Where the constraints, the fillings, the held values and the ranges of desk 1 begin.
const CONSTRAINTS: usize = 19;
const FILLINGS: usize = 83;
const VALUES: usize = 2;
const RANGES: usize = 258 + 25;

/// The change makes the memory flawed, and every call but opening refuses it and leaves
/// everything as it was.
fn assert_flaw(flaw: Flaw, change: impl Fn(&mut Lent)) {
    assert_eq!(flaw_after(&change), Some(flaw));
    let mut flawed = sound();
    change(&mut flawed);
    let mut after = flawed.clone();
    let (mut words, mut text, mut out) = ([9; 64], [9; 256], [9; 4096]);
    let told = lent::step(&refer(0, 4), 0, &mut after, &mut words, &mut text);
    assert_eq!(told, Told::stopped(flaw.cause(), 0, 0));
    assert_eq!(lent::write(&after, &mut out), Err(flaw.cause()));
    assert_eq!(lent::sizes(&refer(0, 4), 0, &after), Err(flaw.cause()));
    assert_eq!((words, text, out), ([9; 64], [9; 256], [9; 4096]));
    assert_eq!(after, flawed);
}

/// A test for each flaw, and a list of them all.
macro_rules! flaws {
    ($($name:ident: $flaw:ident, $change:expr;)*) => {
        $(
            #[test]
            fn $name() {
                assert_flaw(Flaw::$flaw, $change);
            }
        )*

        #[test]
        fn every_flaw_has_a_test() {
            let tested = [$(Flaw::$flaw),*];
            for flaw in Flaw::ALL {
                assert!(tested.contains(&flaw), "{}", flaw.name());
            }
        }
    };
}

flaws! {
    short_cells: ShortCells, |lent| lent.cells.truncate(4095);
    short_issues: ShortIssues, |lent| lent.issues.truncate(4095);
    short_row_tables: ShortTables, |lent| lent.tables.truncate(511);
    short_marks: ShortMarks, |lent| lent.marks.truncate(511);
    short_design: ShortDesign, |lent| lent.design.truncate(114);
    short_held_words: ShortHeld, |lent| lent.held.truncate(357);
    an_empty_buffer: ShortMarks, |lent| lent.marks.clear();

    a_column_count_256_above: DesignByte, |lent| lent.design[3] += 256;
    a_table_count_256_above: DesignByte, |lent| lent.design[0] += 256;
    a_target_256_above: DesignByte, |lent| lent.design[CONSTRAINTS + 2] += 256;
    nine_tables: ManyTables, |lent| lent.design[0] = 9;
    seventeen_constraints: ManyConstraints, |lent| lent.design[1] = 17;
    nine_fillings: ManyFillings, |lent| lent.design[2] = 9;
    no_columns: Columns, |lent| lent.design[3] = 0;
    two_hundred_columns: Columns, |lent| lent.design[3] = 200;
    a_unique_third_column: UniqueColumn, |lent| lent.design[4] = 0b101;
    a_constraint_from_nowhere: ConstraintSource, |lent| lent.design[CONSTRAINTS + 1] = 2;
    a_constraint_to_nowhere: ConstraintTarget, |lent| lent.design[CONSTRAINTS + 2] = 255;
    a_constraint_twice: ConstraintTwice, |lent| {
        lent.design[1] = 3;
        lent.design.copy_within(CONSTRAINTS..CONSTRAINTS + 4, CONSTRAINTS + 8);
    };
    a_filling_of_nothing: FillingColumn, |lent| lent.design[FILLINGS] = 3;
    a_filling_from_zero: FillingLow, |lent| lent.design[FILLINGS + 2] = 0;
    a_filling_that_ends_before_it_begins: FillingEmpty, |lent| {
        lent.design[FILLINGS + 2] = 100;
    };
    two_fillings_of_a_column: FillingTwice, |lent| {
        lent.design[2] = 3;
        lent.design.copy_within(FILLINGS..FILLINGS + 4, FILLINGS + 8);
    };
    an_unused_table: UnusedTable, |lent| lent.design[3 + 15] = 1;
    an_unused_constraint: UnusedConstraint, |lent| lent.design[CONSTRAINTS + 8] = 1;
    an_unused_filling: UnusedFilling, |lent| lent.design[FILLINGS + 8] = 1;
    a_filling_past_the_count: UnusedFilling, |lent| lent.design[2] = 1;

    a_row_of_a_fourth_table: RowTable, |lent| lent.tables[0] = 3;
    a_row_of_table_254: RowTable, |lent| lent.tables[0] = 254;
    a_cell_past_the_columns: CellPastColumns, |lent| lent.cells[2] = 1;
    an_issue_past_the_columns: IssuePastColumns, |lent| lent.issues[7] = 1;
    an_issue_on_a_blank: IssueOnBlank, |lent| {
        lent.cells[8 * 7] = 0;
        lent.issues[8 * 7] = 1;
    };
    a_unique_value_twice: UniqueTwice, |lent| lent.cells[8 * 2] = 8;
    a_free_number_with_a_cell: FreeCell, |lent| lent.cells[8 * 8] = 1;
    a_row_that_became_free: FreeCell, |lent| lent.tables[2] = 255;
    a_free_number_with_an_issue: FreeIssue, |lent| lent.issues[8 * 511 + 7] = 1;
    a_free_number_with_a_mark: FreeMark, |lent| lent.marks[8] = 1;
    a_mark_of_two: MarkAboveOne, |lent| lent.marks[0] = 2;
    a_missing_mark: MarkMissing, |lent| lent.marks[6] = 0;
    a_mark_too_many: MarkTooMany, |lent| lent.marks[2] = 1;

    a_named_desk_256_above: HeldByte, |lent| lent.held[0] += 256;
    a_count_of_ranges_256_above: HeldByte, |lent| lent.held[RANGES] += 256;
    a_fourth_desk_named: NamedDesk, |lent| lent.held[0] = 4;
    sixty_five_values: ManyValues, |lent| lent.held[1] = 65;
    a_value_of_a_fourth_desk: ValueDesk, |lent| lent.held[VALUES] = 4;
    a_value_of_no_filling: ValueFilling, |lent| lent.held[VALUES + 1] = 2;
    a_value_that_is_no_candidate: ValueNoCandidate, |lent| lent.held[VALUES + 2] = 100;
    a_value_of_zero: ValueNoCandidate, |lent| lent.held[VALUES + 2] = 0;
    an_issue_of_256: ValueIssue, |lent| lent.held[VALUES + 3] = 256;
    a_value_twice: ValueTwice, |lent| lent.held[VALUES + 4] = 0;
    seventeen_values_of_a_desk: ManyValuesOfDesk, |lent| {
        lent.held[1] = 19;
        for value in 0..17 {
            let from = VALUES + 8 + 4 * value;
            lent.held[from..from + 4].copy_from_slice(&[2, 0, 50 + value as u32, 0]);
        }
    };
    an_unused_value: UnusedValue, |lent| lent.held[VALUES + 8] = 1;
    a_value_past_the_count: UnusedValue, |lent| lent.held[1] = 1;
    nine_ranges: ManyRanges, |lent| lent.held[RANGES] = 9;
    a_range_of_no_filling: RangeFilling, |lent| lent.held[RANGES + 4] = 2;
    an_empty_range: RangeEmpty, |lent| lent.held[RANGES + 2] = 21;
    a_range_past_the_candidates: RangeNoCandidates, |lent| lent.held[RANGES + 6] = 1001;
    a_range_from_zero: RangeNoCandidates, |lent| lent.held[RANGES + 2] = 0;
    ranges_that_fall: RangesFall, |lent| {
        lent.held[RANGES + 2..RANGES + 7].copy_from_slice(&[30, 40, 1, 10, 20]);
    };
    a_range_twice: RangesFall, |lent| {
        lent.held[RANGES + 5..RANGES + 7].copy_from_slice(&[10, 20]);
    };
    ranges_that_overlap: RangesOverlap, |lent| lent.held[RANGES + 3] = 30;
    ranges_that_touch: RangesTouch, |lent| lent.held[RANGES + 3] = 29;
    an_unused_range: UnusedRange, |lent| lent.held[RANGES + 7] = 1;
    a_range_past_the_count: UnusedRange, |lent| lent.held[RANGES] = 1;
}

#[test]
fn what_stands_past_the_sizes_is_free() {
    let longer = |lent: &mut Lent| {
        lent.cells.push(1);
        lent.issues.push(1);
        lent.tables.push(3);
        lent.marks.push(2);
        lent.design.push(256);
        lent.held.push(256);
    };
    assert_eq!(flaw_after(longer), None);
}

#[test]
fn gaps_between_rows_and_ranges_are_lawful() {
    assert_eq!(flaw_after(|_| ()), None);
    let gaps = |lent: &mut Lent| {
        lent.held[RANGES + 3] = 28;
        lent.tables[2] = 255;
        lent.cells[8 * 2..8 * 3].fill(0);
    };
    assert_eq!(flaw_after(gaps), None);
}
