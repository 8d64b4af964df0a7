//! Libraries that overlook something in a state.

use reference::held::{Holding, DESKS};
use reference::lent::layout::{self, List, CONSTRAINTS, FILLINGS, NAMED_DESK, TABLES, VALUES};
use reference::lent::{Lent, ALL_CELLS, DESIGN_WORDS, FREE, HELD_WORDS, ROWS};
use reference::script::CELLS;

use super::wrong::assert_overlooking_is_found;

/// The places of a list that are used, as the places of their first words, if the words
/// are there and the count is right.
fn used(words: &[u32], list: List) -> Vec<usize> {
    let count = words.get(list.count).copied().unwrap_or(0) as usize;
    let is_right = count <= list.most && words.len() >= list.words().end;
    let places = 0..if is_right { count } else { 0 };
    places.map(|place| list.place(place).start).collect()
}

fn lists_of_ranges() -> impl Iterator<Item = List> {
    (0..DESKS).map(layout::ranges)
}

/// Puts 0 into the unused places of a list.
fn clear_unused(words: &mut [u32], list: List) {
    let used = used(words, list).len();
    if let Some(unused) = words.get_mut(list.place(used).start..list.words().end) {
        unused.fill(0);
    }
}

fn rows(lent: &Lent, test: impl Fn(u8) -> bool) -> Vec<usize> {
    let enough = lent.cells.len() >= ALL_CELLS && lent.issues.len() >= ALL_CELLS;
    let tables = lent.tables.iter().take(if enough { ROWS } else { 0 });
    let rows = tables.enumerate().filter(|(_, &table)| test(table));
    rows.map(|(row, _)| row).collect()
}

/// The columns of a row's table.
fn columns(lent: &Lent, row: usize) -> usize {
    let tables = used(&lent.design, TABLES);
    let table = tables.get(usize::from(lent.tables[row]));
    table.map_or(CELLS, |&place| (lent.design[place] as usize).min(CELLS))
}

#[test]
fn words_for_bytes_taken_modulo_256() {
    assert_overlooking_is_found(|lent| {
        let lists = [(TABLES, 2), (CONSTRAINTS, 4), (FILLINGS, 2)];
        for (list, bytes) in lists {
            bytes_of(&mut lent.design, list, 0..bytes);
        }
        bytes_of(&mut lent.held, VALUES, 0..2);
        bytes_of(&mut lent.held, VALUES, 3..4);
        for list in lists_of_ranges() {
            bytes_of(&mut lent.held, list, 0..1);
        }
        if let Some(desk) = lent.held.get_mut(NAMED_DESK) {
            *desk %= 256;
        }
    });
}

fn bytes_of(words: &mut [u32], list: List, bytes: std::ops::Range<usize>) {
    if let Some(count) = words.get_mut(list.count) {
        *count %= 256;
    }
    for place in used(words, list) {
        for byte in bytes.clone() {
            words[place + byte] %= 256;
        }
    }
}

#[test]
fn only_the_issue_of_a_value_taken_modulo_256() {
    assert_overlooking_is_found(|lent| bytes_of(&mut lent.held, VALUES, 3..4));
}

#[test]
fn a_mark_on_a_free_number_ignored() {
    assert_overlooking_is_found(|lent| {
        for row in rows(lent, |table| table == FREE) {
            if let Some(mark) = lent.marks.get_mut(row) {
                *mark = 0;
            }
        }
    });
}

#[test]
fn a_cell_on_a_free_number_ignored() {
    assert_overlooking_is_found(|lent| {
        for row in rows(lent, |table| table == FREE) {
            lent.cells[CELLS * row..CELLS * (row + 1)].fill(0);
        }
    });
}

#[test]
fn an_issue_on_a_free_number_ignored() {
    assert_overlooking_is_found(|lent| {
        for row in rows(lent, |table| table == FREE) {
            lent.issues[CELLS * row..CELLS * (row + 1)].fill(0);
        }
    });
}

#[test]
fn an_unused_place_of_a_held_value_ignored() {
    assert_overlooking_is_found(|lent| clear_unused(&mut lent.held, VALUES));
}

#[test]
fn an_unused_place_of_a_range_ignored() {
    assert_overlooking_is_found(|lent| {
        for list in lists_of_ranges() {
            clear_unused(&mut lent.held, list);
        }
    });
}

#[test]
fn an_unused_place_of_the_design_ignored() {
    for overlooks in [
        |lent: &mut Lent| clear_unused(&mut lent.design, TABLES),
        |lent: &mut Lent| clear_unused(&mut lent.design, CONSTRAINTS),
        |lent: &mut Lent| clear_unused(&mut lent.design, FILLINGS),
    ] {
        assert_overlooking_is_found(overlooks);
    }
}

/// Joins ranges that stand beside each other and pass a test on the end of the first and
/// the beginning of the second.
fn join(lent: &mut Lent, test: impl Fn(u64, u64) -> bool) {
    for list in lists_of_ranges() {
        let places = used(&lent.held, list);
        for pair in places.windows(2).rev() {
            let (one, other) = (pair[0], pair[1]);
            let same = lent.held[one] == lent.held[other];
            if same && test(lent.held[one + 2].into(), lent.held[other + 1].into()) {
                lent.held[one + 2] = lent.held[other + 2];
                lent.held.copy_within(other + 3..list.words().end, other);
                lent.held[list.words().end - 3..list.words().end].fill(0);
                lent.held[list.count] -= 1;
            }
        }
    }
}

#[test]
fn touching_ranges_accepted() {
    assert_overlooking_is_found(|lent| join(lent, |high, low| high + 1 == low));
}

#[test]
fn overlapping_ranges_accepted() {
    assert_overlooking_is_found(|lent| join(lent, |high, low| low <= high));
}

#[test]
fn ranges_that_fall_accepted() {
    assert_overlooking_is_found(|lent| {
        for list in lists_of_ranges() {
            let places = used(&lent.held, list);
            let range = |&place: &usize| lent.held[place..place + 3].to_vec();
            let mut ranges: Vec<Vec<u32>> = places.iter().map(range).collect();
            ranges.sort();
            for (place, range) in places.iter().zip(ranges) {
                lent.held[*place..place + 3].copy_from_slice(&range);
            }
        }
    });
}

#[test]
fn an_empty_range_accepted() {
    assert_overlooking_is_found(|lent| {
        for list in lists_of_ranges() {
            if let [place] = used(&lent.held, list)[..] {
                if lent.held[place + 1] > lent.held[place + 2] {
                    lent.held[place..place + 3].fill(0);
                    lent.held[list.count] = 0;
                }
            }
        }
    });
}

#[test]
fn lengths_not_tested() {
    assert_overlooking_is_found(|lent| {
        lent.cells.resize(lent.cells.len().max(ALL_CELLS), 0);
        lent.issues.resize(lent.issues.len().max(ALL_CELLS), 0);
        lent.tables.resize(lent.tables.len().max(ROWS), FREE);
        lent.marks.resize(lent.marks.len().max(ROWS), 0);
        lent.design.resize(lent.design.len().max(DESIGN_WORDS), 0);
        lent.held.resize(lent.held.len().max(HELD_WORDS), 0);
    });
}

#[test]
fn each_length_by_itself_not_tested() {
    for overlooks in [
        |lent: &mut Lent| lent.cells.resize(lent.cells.len().max(ALL_CELLS), 0),
        |lent: &mut Lent| lent.issues.resize(lent.issues.len().max(ALL_CELLS), 0),
        |lent: &mut Lent| lent.tables.resize(lent.tables.len().max(ROWS), FREE),
        |lent: &mut Lent| lent.marks.resize(lent.marks.len().max(ROWS), 0),
        |lent: &mut Lent| lent.design.resize(lent.design.len().max(DESIGN_WORDS), 0),
        |lent: &mut Lent| lent.held.resize(lent.held.len().max(HELD_WORDS), 0),
    ] {
        assert_overlooking_is_found(overlooks);
    }
}

#[test]
fn a_length_tested_one_too_low() {
    assert_overlooking_is_found(|lent| {
        if lent.held.len() == HELD_WORDS - 1 {
            lent.held.push(0);
        }
    });
}

#[test]
fn any_mark_but_0_taken_for_1() {
    assert_overlooking_is_found(|lent| {
        for mark in &mut lent.marks {
            *mark = (*mark).min(1);
        }
    });
}

/// What is held is taken out, and held again one by one.
#[test]
fn marks_not_looked_at() {
    assert_overlooking_is_found(|lent| {
        let mut empty = lent.clone();
        empty.held.fill(0);
        empty.marks.fill(0);
        let Ok(desk) = empty.desk() else {
            return;
        };
        let mut held = Holding::default();
        let design = desk.design();
        for place in used(&lent.held, VALUES) {
            let words = &lent.held[place..place + 4];
            let (filling, issue) = (words[1] as usize, words[3] as u8);
            if words[0] as usize >= DESKS || filling >= design.fillings.len() {
                return;
            }
            let value = reference::script::Value {
                number: words[2],
                issue,
            };
            held.add(reference::script::Pair { filling, value });
        }
        for (desk, list) in lists_of_ranges().enumerate() {
            for place in used(&lent.held, list) {
                held.ranges[desk].push(reference::script::Range {
                    filling: lent.held[place] as usize,
                    low: lent.held[place + 1],
                    high: lent.held[place + 2],
                });
            }
        }
        let desk = desk.holding(held);
        for (mark, &cached) in lent.marks.iter_mut().zip(desk.cached()) {
            *mark = cached.into();
        }
    });
}

#[test]
fn a_named_desk_above_3_accepted() {
    assert_overlooking_is_found(|lent| {
        if let Some(desk) = lent.held.first_mut() {
            *desk %= 4;
        }
    });
}

#[test]
fn a_value_of_a_desk_above_3_accepted() {
    assert_overlooking_is_found(|lent| {
        for place in used(&lent.held, VALUES) {
            lent.held[place] %= 4;
        }
    });
}

#[test]
fn a_value_twice_for_a_desk_accepted() {
    assert_overlooking_is_found(|lent| {
        let places = used(&lent.held, VALUES);
        let value = |place: usize| place..place + 4;
        if let Some((&last, others)) = places.split_last() {
            let is_there = |&other: &usize| lent.held[value(other)] == lent.held[value(last)];
            if others.iter().any(is_there) {
                lent.held[value(last)].fill(0);
                lent.held[VALUES.count] -= 1;
            }
        }
    });
}

/// The values above 16 are taken for those of the desk with the fewest.
#[test]
fn over_16_values_for_a_desk_accepted() {
    assert_overlooking_is_found(|lent| {
        let mut counts = [0; DESKS];
        for place in used(&lent.held, VALUES) {
            let Some(count) = counts.get_mut(lent.held[place] as usize) else {
                return;
            };
            *count += 1;
            if *count > 16 {
                let fewest = (0..DESKS).min_by_key(|&desk| counts[desk]);
                lent.held[place] = fewest.unwrap_or(0) as u32;
            }
        }
    });
}

#[test]
fn a_value_that_is_no_candidate_accepted() {
    assert_overlooking_is_found(|lent| {
        for place in used(&lent.held, VALUES) {
            let (filling, number) = (lent.held[place + 1] as usize, lent.held[place + 2]);
            if let Some(&filling) = used(&lent.design, FILLINGS).get(filling) {
                let low = lent.design[filling + 2].min(number).max(1);
                lent.design[filling + 2] = low;
                lent.design[filling + 3] = lent.design[filling + 3].max(number);
            }
        }
    });
}

#[test]
fn a_range_not_wholly_of_candidates_accepted() {
    assert_overlooking_is_found(|lent| {
        for list in lists_of_ranges() {
            for place in used(&lent.held, list) {
                let high = lent.held[place + 2];
                let fillings = used(&lent.design, FILLINGS);
                if let Some(&filling) = fillings.get(lent.held[place] as usize) {
                    lent.design[filling + 3] = lent.design[filling + 3].max(high);
                }
            }
        }
    });
}

#[test]
fn an_issue_on_a_blank_ignored() {
    assert_overlooking_is_found(|lent| {
        for (issue, &cell) in lent.issues.iter_mut().zip(&lent.cells) {
            if cell == 0 {
                *issue = 0;
            }
        }
    });
}

#[test]
fn a_cell_past_the_columns_ignored() {
    assert_overlooking_is_found(|lent| {
        for row in rows(lent, |table| table != FREE) {
            let columns = columns(lent, row);
            lent.cells[CELLS * row + columns..CELLS * (row + 1)].fill(0);
        }
    });
}

#[test]
fn an_issue_past_the_columns_ignored() {
    assert_overlooking_is_found(|lent| {
        for row in rows(lent, |table| table != FREE) {
            let columns = columns(lent, row);
            lent.issues[CELLS * row + columns..CELLS * (row + 1)].fill(0);
        }
    });
}

#[test]
fn a_row_of_a_table_that_is_not_there_taken_for_free() {
    assert_overlooking_is_found(|lent| {
        let tables = used(&lent.design, TABLES).len();
        for row in rows(lent, |table| usize::from(table) >= tables) {
            lent.tables[row] = FREE;
            lent.cells[CELLS * row..CELLS * (row + 1)].fill(0);
            lent.issues[CELLS * row..CELLS * (row + 1)].fill(0);
        }
    });
}

#[test]
fn a_unique_value_twice_accepted() {
    assert_overlooking_is_found(|lent| {
        if lent.desk().err() == Some(reference::lent::Flaw::UniqueTwice) {
            for place in used(&lent.design, TABLES) {
                lent.design[place + 1] = 0;
            }
        }
    });
}

#[test]
fn a_unique_column_past_the_columns_ignored() {
    assert_overlooking_is_found(|lent| {
        for place in used(&lent.design, TABLES) {
            if lent.design[place] < 8 {
                lent.design[place + 1] &= (1 << lent.design[place]) - 1;
            }
        }
    });
}

#[test]
fn a_constraint_twice_accepted() {
    assert_overlooking_is_found(|lent| {
        let places = used(&lent.design, CONSTRAINTS);
        let constraint = |place: usize| place..place + 4;
        if let Some((&last, others)) = places.split_last() {
            let is_there =
                |&other: &usize| lent.design[constraint(other)] == lent.design[constraint(last)];
            if others.iter().any(is_there) {
                lent.design[constraint(last)].fill(0);
                lent.design[CONSTRAINTS.count] -= 1;
            }
        }
    });
}

#[test]
fn two_fillings_of_a_column_accepted() {
    assert_overlooking_is_found(|lent| {
        let places = used(&lent.design, FILLINGS);
        let column = |place: usize| place..place + 2;
        if let Some((&last, others)) = places.split_last() {
            let is_there = |&other: &usize| lent.design[column(other)] == lent.design[column(last)];
            if others.iter().any(is_there) {
                lent.design[last..last + 4].fill(0);
                lent.design[FILLINGS.count] -= 1;
            }
        }
    });
}

#[test]
fn a_filling_from_0_accepted() {
    assert_overlooking_is_found(|lent| {
        for place in used(&lent.design, FILLINGS) {
            lent.design[place + 2] = lent.design[place + 2].max(1);
        }
    });
}
