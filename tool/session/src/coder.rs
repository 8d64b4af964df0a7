//! Names to numbers and back: a database's values as cells, its rows as rows of the desk, and what the desk asks for as conditions on the database.

use design::{Cells, Design, Place, Role, Single, Type};
use source::{Condition, Failure, Record, Value};
use wurzsige::{Column, Fetch, Row};

use crate::classes::Classes;
use crate::dictionary::Dictionary;
use crate::issued::Issued;

/// The translation for one design. Its dictionaries only grow.
#[derive(Clone, Debug)]
pub(crate) struct Coder<'d> {
    design: &'d Design,
    cells: Cells,
    classes: Classes,
    dictionaries: Vec<Dictionary>,
}

impl<'d> Coder<'d> {
    pub(crate) fn new(design: &'d Design) -> Coder<'d> {
        let classes = Classes::of(design);
        Coder {
            design,
            cells: Cells::of(design),
            dictionaries: vec![Dictionary::new(); classes.count()],
            classes,
        }
    }

    /// The desk's column, if the design's takes a cell.
    pub(crate) fn column(&self, place: Place) -> Option<Column> {
        let cell = self.cells.cell(place)?;
        Some(Column::new(byte(place.table), byte(cell)))
    }

    /// The design's column.
    pub(crate) fn place(&self, column: Column) -> Place {
        let (table, cell) = (usize::from(column.table), usize::from(column.column));
        let place = self.cells.place(table, cell);
        place.expect("the desk has the design's columns and no others")
    }

    /// The cell of a value in a column. NULL is blank. So is a measure's 0: the desk has no other cell for it, and a total, which adds numbers alone, is the same.
    pub(crate) fn cell(
        &mut self,
        place: Place,
        value: Option<&Value>,
        issue: u8,
    ) -> Result<wurzsige::Value, Failure> {
        let Some(value) = value else {
            return Ok(wurzsige::Value::BLANK);
        };
        let column = self.design.column(place);
        if column.role == Role::Measure {
            let number = self.whole(place, value, 0)?;
            return Ok(number.into());
        }
        let number = match column.kind {
            Type::Single(Single::Integer) => self.whole(place, value, 1)?,
            _ => self.number(place, value)?,
        };
        Ok((number, issue).into())
    }

    /// A number that stands for itself.
    fn whole(&self, place: Place, value: &Value, least: u32) -> Result<u32, Failure> {
        let number = match value {
            Value::Number(number) => u32::try_from(*number).ok(),
            _ => None,
        };
        number.filter(|&number| number >= least).ok_or_else(|| {
            let name = self.design.column_name(place);
            Failure::Unfit(format!(
                "{name} has {value}, which is no whole number from {least} to 4,294,967,295"
            ))
        })
    }

    fn number(&mut self, place: Place, value: &Value) -> Result<u32, Failure> {
        let dictionary = &mut self.dictionaries[self.classes.class(place)];
        dictionary.number(value).map_err(|_| {
            let name = self.design.column_name(place);
            Failure::Unfit(format!(
                "{name} and the columns that are linked to it have more than 4,294,967,295 values"
            ))
        })
    }

    /// The value that a cell of a column stands for, unless it is blank or stands for none that was met.
    pub(crate) fn value(&self, place: Place, cell: wurzsige::Value) -> Option<Issued> {
        if cell.number == 0 {
            return None;
        }
        let value = match self.design.column(place).kind {
            Type::Single(Single::Integer) => Value::Number(cell.number.into()),
            _ => {
                let dictionary = &self.dictionaries[self.classes.class(place)];
                dictionary.value(cell.number)?.clone()
            }
        };
        let issue = cell.issue;
        Some(Issued { value, issue })
    }

    /// A row of the database as one of the desk.
    pub(crate) fn row(&mut self, record: &Record) -> Result<Row, Failure> {
        let table = record.table;
        let mut cells = [wurzsige::Value::BLANK; Row::CELLS];
        for (cell, slot) in cells.iter_mut().enumerate() {
            let Some(place) = self.cells.place(table, cell) else {
                break;
            };
            let value = record.values[place.column].as_ref();
            *slot = self.cell(place, value, record.issues[place.column])?;
        }
        let table = byte(table);
        Ok(Row { table, cells })
    }

    /// What a fetch asks of the database.
    pub(crate) fn condition(&self, fetch: Fetch) -> Condition {
        let column = self.place(fetch.column());
        match fetch {
            Fetch::Value { value, .. } => {
                let issued = self.value(column, value);
                let Issued { value, issue } =
                    issued.expect("the desk asks for values that it was given");
                Condition::Value {
                    column,
                    value,
                    issue,
                }
            }
            Fetch::Span { low, high, .. } => Condition::Range { column, low, high },
        }
    }
}

/// A number within the limits that reading a design has checked.
fn byte(number: usize) -> u8 {
    u8::try_from(number).expect("a design has at most 8 tables of 8 cells")
}
