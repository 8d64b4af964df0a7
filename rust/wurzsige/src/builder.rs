//! Designs put together part by part.

use alloc::string::{String, ToString};
use alloc::vec::Vec;
use core::error::Error;
use core::fmt;
use core::ops::RangeInclusive;

use crate::command::Command;
use crate::desk::Desk;
use crate::fault::{Fault, ends, explained, wrong};
use crate::operand::{Column, Row};
use crate::parts::{Constraint, Design, Filling, Table};
use crate::refusal::{Operand, Refusal};

/// A design, put together part by part. It gives the bytes of a script; the desk says
/// whether they are a design, and the builder which part isn't right and why.
///
/// ```
/// use wurzsige::{Builder, Named::{Plain, Unique}, Row};
///
/// let mut design = Builder::new();
/// let [subject, ward] = design.table("subjects", [Unique("number"), Plain("ward")]);
/// let [_, of] = design.table("recordings", [Unique("number"), Plain("subject")]);
/// design.constraint(subject, of); // a subject brings all its recordings
/// let wards = design.filling(ward, 1..=99);
/// design.row(Row::new(subject.table, [7, 3]));
/// design.row(Row::new(of.table, [20, 7]));
///
/// let mut desk = design.open()?;
/// desk.refer(wards, 3)?;
/// assert!(desk.is_cached(1));
///
/// // What the desk refuses by a number and a place is told by its part.
/// design.constraint(subject, of);
/// assert_eq!(
///     design.open().unwrap_err().to_string(),
///     "constraint 1, subjects.number -> recordings.subject: \
///      refused for cause 5, operand wrong: the same as constraint 0"
/// );
/// # Ok::<(), Box<dyn std::error::Error>>(())
/// ```
#[derive(Clone, Debug, Default, PartialEq, Eq)]
pub struct Builder {
    design: Design,
    names: Vec<Names>,
    rows: Vec<Row>,
}

#[derive(Clone, Debug, Default, PartialEq, Eq)]
struct Names {
    table: String,
    columns: Vec<String>,
}

/// A column's name, which only messages show, and whether the column is unique.
///
/// ```
/// use wurzsige::{Builder, Named::{Plain, Unique}};
///
/// let mut builder = Builder::new();
/// let [number, _] = builder.table("subjects", [Unique("number"), Plain("ward")]);
/// let design = builder.open()?.design();
/// assert!(design.tables[0].is_unique(number.column));
/// # Ok::<(), wurzsige::DesignRefusal>(())
/// ```
#[derive(Clone, Copy, Debug, PartialEq, Eq, Hash)]
pub enum Named<'a> {
    /// A column.
    Plain(&'a str),
    /// A column in which no value but blank stands twice.
    Unique(&'a str),
}

/// A part of a design, by its number among those of its kind.
///
/// ```
/// use wurzsige::{Builder, Named::Plain, Part, Row};
///
/// let mut builder = Builder::new();
/// builder.table("wards", [Plain("ward")]);
/// builder.row(Row::new(0, [3]));
/// builder.row(Row::new(0, [4, 1]));
/// assert_eq!(builder.open().unwrap_err().part, Some(Part::Row(1)));
/// ```
#[derive(Clone, Copy, Debug, PartialEq, Eq, Hash)]
#[non_exhaustive]
pub enum Part {
    /// A table.
    Table(usize),
    /// A constraint.
    Constraint(usize),
    /// A filling.
    Filling(usize),
    /// A row.
    Row(usize),
}

/// A refused design: the desk's refusal, and the part that it is for.
///
/// ```
/// use wurzsige::{Builder, Cause, Named::{Plain, Unique}, Operand, Row};
///
/// let mut builder = Builder::new();
/// builder.table("subjects", [Unique("number"), Plain("ward")]);
/// builder.row(Row::new(0, [7, 3]));
/// builder.row(Row::new(0, [7, 4]));
/// let refused = builder.open().unwrap_err();
/// assert_eq!(refused.refusal.cause, Cause::ValueTwice);
/// assert_eq!(refused.refusal.operand, Some(Operand::Cell(0)));
/// assert_eq!(
///     refused.to_string(),
///     "row 1, of subjects: refused for cause 6, \
///      a unique column gets a value other than blank twice: the cell in column 0"
/// );
/// ```
#[derive(Clone, Debug, PartialEq, Eq)]
#[non_exhaustive]
pub struct DesignRefusal {
    /// The desk's refusal, with the operand that is wrong.
    pub refusal: Refusal,
    /// The part, unless it is the script as a whole that is refused.
    pub part: Option<Part>,
    name: String,
}

impl Builder {
    /// A design without anything.
    ///
    /// ```
    /// use wurzsige::Builder;
    ///
    /// assert_eq!(Builder::new().script(), [0x05]);
    /// ```
    pub fn new() -> Builder {
        Builder::default()
    }

    /// Adds a table, and gives its columns.
    ///
    /// ```
    /// use wurzsige::{Builder, Column, Named::Plain};
    ///
    /// let mut builder = Builder::new();
    /// builder.table("wards", [Plain("ward")]);
    /// let [number, ward] = builder.table("subjects", [Plain("number"), Plain("ward")]);
    /// assert_eq!((number, ward), (Column::new(1, 0), Column::new(1, 1)));
    /// ```
    pub fn table<const N: usize>(&mut self, name: &str, columns: [Named; N]) -> [Column; N] {
        let table = self.table_of(name, &columns);
        core::array::from_fn(|column| Column::new(table, narrow(column)))
    }

    /// Adds a table whose number of columns is known at run time only, and gives its
    /// number.
    ///
    /// ```
    /// use wurzsige::{Builder, Named};
    ///
    /// let header = "number,ward,physician";
    /// let columns: Vec<Named> = header.split(',').map(Named::Plain).collect();
    /// let mut builder = Builder::new();
    /// assert_eq!(builder.table_of("subjects", &columns), 0);
    /// assert_eq!(builder.script(), [0x01, 3, 0, 0x05]);
    /// ```
    pub fn table_of(&mut self, name: &str, columns: &[Named]) -> u8 {
        let unique = |(column, named): (u32, &Named)| match named {
            Named::Unique(_) => 1 << column,
            Named::Plain(_) => 0,
        };
        let bits = (0..8).zip(columns).map(unique).sum();
        self.design.tables.push(Table {
            columns: narrow(columns.len()),
            unique: bits,
        });
        let name_of = |named: &Named| match named {
            Named::Plain(name) | Named::Unique(name) => name.to_string(),
        };
        self.names.push(Names {
            table: name.to_string(),
            columns: columns.iter().map(name_of).collect(),
        });
        narrow(self.names.len() - 1)
    }

    /// Adds a constraint, and gives its number: for every cached row of the source's table,
    /// all rows that have its value in the target are cached too.
    ///
    /// ```
    /// use wurzsige::{Builder, Named::Plain};
    ///
    /// let mut builder = Builder::new();
    /// let [number, supervisor] = builder.table("staff", [Plain("number"), Plain("supervisor")]);
    /// assert_eq!(builder.constraint(supervisor, number), 0);
    /// assert_eq!(builder.script(), [0x01, 2, 0, 0x02, 0, 1, 0, 0, 0x05]);
    /// ```
    pub fn constraint(&mut self, source: Column, target: Column) -> u8 {
        self.design.constraints.push(Constraint { source, target });
        narrow(self.design.constraints.len() - 1)
    }

    /// Adds a filling, and gives its number: the numbers that can be loaded into a column.
    ///
    /// ```
    /// use wurzsige::{Builder, Named::Plain};
    ///
    /// let mut builder = Builder::new();
    /// let [ward] = builder.table("wards", [Plain("ward")]);
    /// assert_eq!(builder.filling(ward, 1..=99), 0);
    /// ```
    pub fn filling(&mut self, column: Column, candidates: RangeInclusive<u32>) -> u8 {
        let (low, high) = candidates.into_inner();
        self.design.fillings.push(Filling { column, low, high });
        narrow(self.design.fillings.len() - 1)
    }

    /// Adds a row, and gives its number.
    ///
    /// ```
    /// use wurzsige::{Builder, Named::Plain, Row};
    ///
    /// let mut builder = Builder::new();
    /// let [ward] = builder.table("wards", [Plain("ward")]);
    /// let row = builder.row(Row::new(ward.table, [3]));
    /// assert_eq!(builder.open()?.row(row), Some(Row::new(0, [3])));
    /// # Ok::<(), wurzsige::DesignRefusal>(())
    /// ```
    pub fn row(&mut self, row: Row) -> u16 {
        self.rows.push(row);
        u16::try_from(self.rows.len() - 1).unwrap_or(u16::MAX)
    }

    /// The parts so far but for the rows, whether the desk accepts them or not.
    ///
    /// ```
    /// use wurzsige::{Builder, Named::Plain};
    ///
    /// let mut builder = Builder::new();
    /// let [ward] = builder.table("wards", [Plain("ward")]);
    /// assert!(builder.design().has(ward));
    /// assert_eq!(*builder.design(), builder.open()?.design());
    /// # Ok::<(), wurzsige::DesignRefusal>(())
    /// ```
    pub fn design(&self) -> &Design {
        &self.design
    }

    /// The bytes of the design's script, whether the desk accepts it or not. Operations may
    /// be put behind them.
    ///
    /// ```
    /// use wurzsige::{Builder, Desk, Named::Plain};
    ///
    /// let mut builder = Builder::new();
    /// builder.table("wards", [Plain("ward")]);
    /// assert_eq!(builder.script(), [0x01, 1, 0, 0x05]);
    /// assert_eq!(Desk::open(&builder.script())?.counts().tables, 1);
    /// # Ok::<(), wurzsige::Refusal>(())
    /// ```
    pub fn script(&self) -> Vec<u8> {
        let mut script = Vec::new();
        for (_, command) in self.commands() {
            script.extend_from_slice(command.bytes());
        }
        script.extend_from_slice(Command::end().bytes());
        script
    }

    /// Opens the design.
    ///
    /// ```
    /// use wurzsige::{Builder, Cause};
    ///
    /// let mut builder = Builder::new();
    /// assert_eq!(builder.open()?.counts().tables, 0);
    /// builder.table("nothing", []);
    /// let refused = builder.open().unwrap_err();
    /// assert_eq!(refused.refusal.cause, Cause::WrongOperand);
    /// # Ok::<(), wurzsige::DesignRefusal>(())
    /// ```
    pub fn open(&self) -> Result<Desk, DesignRefusal> {
        Desk::open(&self.script()).map_err(|refusal| self.explained(refusal))
    }

    /// The parts in their order, with their commands.
    fn commands(&self) -> impl Iterator<Item = (Part, Command)> + '_ {
        let Design {
            tables,
            constraints,
            fillings,
        } = &self.design;
        let tables = tables.iter().map(Command::table).enumerate();
        let constraints = constraints.iter().map(Command::constraint).enumerate();
        let fillings = fillings.iter().map(Command::filling).enumerate();
        let rows = self.rows.iter().map(Command::row).enumerate();
        tables
            .map(|(number, command)| (Part::Table(number), command))
            .chain(constraints.map(|(number, command)| (Part::Constraint(number), command)))
            .chain(fillings.map(|(number, command)| (Part::Filling(number), command)))
            .chain(rows.map(|(number, command)| (Part::Row(number), command)))
    }

    /// The refusal of this design's script, with the part that it is for.
    fn explained(&self, refusal: Refusal) -> DesignRefusal {
        let part = self.part_at(refusal);
        let fault = part.and_then(|part| self.fault(part));
        DesignRefusal {
            refusal: Refusal {
                place: refusal.place,
                ..explained(refusal, fault)
            },
            part,
            name: part.map_or_else(String::new, |part| self.name(part)),
        }
    }

    /// The part whose command begins at a refusal's place. An over-long script has place 0
    /// too.
    fn part_at(&self, refusal: Refusal) -> Option<Part> {
        if self.script().len() > wurzsige_sys::MOST_SCRIPT {
            return None;
        }
        let mut at = 0;
        self.commands().find_map(|(part, command)| {
            let here = Some(at) == refusal.place;
            at += command.bytes().len();
            here.then_some(part)
        })
    }

    /// What is wrong with a part, which comes behind the parts before it.
    fn fault(&self, part: Part) -> Option<Fault> {
        match part {
            Part::Table(number) => {
                let columns = self.names[number].columns.len();
                wrong((1..=8).contains(&columns), Operand::Columns(columns))
            }
            Part::Constraint(number) => self.constraint_fault(number),
            Part::Filling(number) => self.filling_fault(number),
            Part::Row(number) => {
                let others = self.rows[..number].iter().copied();
                self.design.row_fault(&self.rows[number], others)
            }
        }
    }

    fn constraint_fault(&self, number: usize) -> Option<Fault> {
        let constraint = &self.design.constraints[number];
        let Constraint { source, target } = *constraint;
        let before = &self.design.constraints[..number];
        let same = before.iter().position(|other| other == constraint);
        wrong(self.design.has(source), Operand::Source(source))
            .or_else(|| wrong(self.design.has(target), Operand::Target(target)))
            .or_else(|| wrong(false, Operand::Twice(narrow(same?))))
    }

    fn filling_fault(&self, number: usize) -> Option<Fault> {
        let Filling { column, low, high } = self.design.fillings[number];
        let before = &self.design.fillings[..number];
        let filled = before.iter().any(|other| other.column == column);
        wrong(self.design.has(column), Operand::Column(column))
            .or_else(|| ends(low, high))
            .or_else(|| wrong(!filled, Operand::Column(column)))
    }

    /// A part with its number and the names that were given.
    fn name(&self, part: Part) -> String {
        match part {
            Part::Table(number) => alloc::format!("table {number}, {}", self.names[number].table),
            Part::Constraint(number) => {
                let Constraint { source, target } = self.design.constraints[number];
                let [source, target] = [source, target].map(|column| self.column_name(column));
                alloc::format!("constraint {number}, {source} -> {target}")
            }
            Part::Filling(number) => {
                let column = self.column_name(self.design.fillings[number].column);
                alloc::format!("filling {number}, of {column}")
            }
            Part::Row(number) => {
                let table = self.table_name(self.rows[number].table);
                alloc::format!("row {number}, of {table}")
            }
        }
    }

    fn table_name(&self, table: u8) -> String {
        let names = self.names.get(usize::from(table));
        names.map_or_else(
            || alloc::format!("table {table}"),
            |names| names.table.clone(),
        )
    }

    fn column_name(&self, column: Column) -> String {
        let names = self.names.get(usize::from(column.table));
        let named = names.and_then(|names| {
            let name = names.columns.get(usize::from(column.column))?;
            Some(alloc::format!("{}.{name}", names.table))
        });
        named.unwrap_or_else(|| column.to_string())
    }
}

/// A number of a part or count that goes across as a byte. What is larger is more than
/// there may be of anything, and stays so.
fn narrow(number: usize) -> u8 {
    u8::try_from(number).unwrap_or(u8::MAX)
}

impl fmt::Display for DesignRefusal {
    fn fmt(&self, out: &mut fmt::Formatter<'_>) -> fmt::Result {
        match self.part {
            Some(_) => write!(out, "{}: {}", self.name, self.refusal),
            None => write!(out, "{}", self.refusal),
        }
    }
}

impl Error for DesignRefusal {
    fn source(&self) -> Option<&(dyn Error + 'static)> {
        Some(&self.refusal)
    }
}
