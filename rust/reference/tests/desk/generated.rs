//! Generated designs: whether they are even, found in another way, and how many
//! rounds the loads of even ones take (document 02, Req 01).

use std::ops::Range;

use crate::bytes::*;
use crate::lines::lines;
use crate::random::Random;

const DESIGNS: u64 = 3_000;

/// The columns of every table.
const COLUMNS: usize = 3;

/// The values in rows go from 1 to this.
const VALUES: usize = 12;

/// The constraints of a design, each from a source to a target.
#[derive(Default)]
struct Links(Vec<(Column, Column)>);

impl Links {
    /// Constraints without any plan.
    fn any(random: &mut Random, tables: usize) -> Links {
        let mut links = Links::default();
        for _ in 0..random.below(tables + 4) {
            let source = any_column(random, 0..tables);
            let target = any_column(random, 0..tables);
            links.add(source, target);
        }
        links
    }

    /// Constraints of an even design: most tables lead to themselves at column 0,
    /// and each leads to the next, forwards only, or there and back at column 0.
    fn even(random: &mut Random, tables: usize) -> Links {
        let mut links = Links::default();
        let mut group = 0;
        for table in 0..tables {
            let here = table as u8;
            if random.below(10) > 0 {
                links.add((here, 0), (here, 0));
            }
            if table == 0 {
                continue;
            }
            if random.below(6) > 0 {
                links.add((here - 1, 1), (here, 1));
                group = table;
            } else {
                links.add((here - 1, 0), (here, 0));
                links.add((here, 0), (here - 1, 0));
            }
            if group > 0 && random.below(6) == 0 {
                let source = any_column(random, 0..group);
                let target = any_column(random, group..table + 1);
                links.add(source, target);
            }
        }
        links
    }

    fn add(&mut self, source: Column, target: Column) {
        if self.0.len() < 16 && !self.0.contains(&(source, target)) {
            self.0.push((source, target));
        }
    }

    /// What the report has to say, found by following constraints from table to
    /// table.
    fn evenness(&self) -> String {
        let numbers = 0..self.0.len();
        let mut pairs = numbers
            .clone()
            .flat_map(|i| numbers.clone().map(move |j| (i, j)));
        match pairs.find(|&(i, j)| self.is_uneven(i, j)) {
            None => "even".into(),
            Some((i, j)) => format!("uneven {i} {j}"),
        }
    }

    fn is_uneven(&self, i: usize, j: usize) -> bool {
        let (ends, starts) = (self.0[i].1, self.0[j].0);
        let [from, to] = [self.0[j].1 .0, self.0[i].0 .0];
        ends.0 == starts.0 && ends.1 != starts.1 && self.leads(from, to, &mut Vec::new())
    }

    /// Whether there is a way from one table to another, past tables that haven't
    /// been left before.
    fn leads(&self, from: u8, to: u8, left: &mut Vec<u8>) -> bool {
        if from == to {
            return true;
        }
        left.push(from);
        self.0.iter().any(|&(source, target)| {
            source.0 == from && !left.contains(&target.0) && self.leads(target.0, to, left)
        })
    }
}

fn any_column(random: &mut Random, tables: Range<usize>) -> Column {
    let table = tables.start + random.below(tables.len());
    (table as u8, random.below(COLUMNS) as u8)
}

/// For each table the two rows that take two rounds, and some more.
fn rows(random: &mut Random, tables: usize) -> Vec<Vec<u8>> {
    let mut rows = Vec::new();
    for table in 0..tables {
        let place = table as u32;
        rows.push(row(table as u8, &[7, 1 + place]));
        rows.push(row(table as u8, &[7, 2 + place]));
    }
    for _ in 0..random.below(3 * tables) {
        let cells = [(); COLUMNS].map(|()| match random.below(2) {
            0 => 0,
            _ => 1 + random.below(VALUES) as u32,
        });
        rows.push(row(random.below(tables) as u8, &cells));
    }
    rows
}

/// The design up to END, with a filling for column 1 of each table.
fn design(random: &mut Random, tables: usize, links: &Links) -> Vec<u8> {
    let mut script = table(COLUMNS as u8, 0).repeat(tables);
    let links = links.0.iter();
    script.extend(links.flat_map(|&(source, target)| constraint(source, target)));
    script.extend((0..tables as u8).flat_map(|table| filling((table, 1), 1, VALUES as u32)));
    script.extend(rows(random, tables).concat());
    script.extend(end());
    script
}

/// The load that takes most rounds if nothing shortens it, then loads and drops.
fn loads(random: &mut Random, tables: usize) -> Vec<u8> {
    let mut script = refer(0, 1);
    for _ in 0..12 {
        let filling = random.below(tables) as u8;
        let value = 1 + random.below(VALUES) as u32;
        script.extend(match random.below(4) {
            0 => drop(filling, value),
            1 => hold(filling, value, VALUES as u32),
            _ => refer(filling, value),
        });
    }
    script
}

#[test]
fn designs_are_even_or_not_as_their_ways_say() {
    let mut uneven = 0;
    for number in 0..DESIGNS {
        let mut random = Random::new(number);
        let tables = random.within(1, 8);
        let links = Links::any(&mut random, tables);
        let design = design(&mut random, tables, &links);
        let expected = links.evenness();
        uneven += u64::from(expected != "even");
        assert_eq!(lines(&[design, even()].concat()), [format!("0 {expected}")]);
    }
    assert!(uneven > DESIGNS / 4 && uneven < DESIGNS * 3 / 4, "{uneven}");
}

#[test]
fn loads_in_even_designs_keep_to_the_bound() {
    let mut most = [0; 9];
    for number in 0..DESIGNS {
        let mut random = Random::new(number);
        let tables = random.within(1, 8);
        let links = Links::even(&mut random, tables);
        assert_eq!(links.evenness(), "even");
        let design = design(&mut random, tables, &links);
        let lines = lines(&[design, even(), loads(&mut random, tables)].concat());
        assert_eq!(lines[0], "0 even");
        for line in &lines {
            if let [_, "loaded", _, rounds] = line.split(' ').collect::<Vec<_>>()[..] {
                let rounds: usize = rounds.parse().expect("a number");
                assert!(rounds < 2 * tables, "{tables} tables, {rounds} rounds");
                most[tables] = most[tables].max(rounds);
            }
        }
    }
    assert_eq!(most[1..], [1, 3, 5, 7, 9, 11, 13, 15], "all reach it");
}
