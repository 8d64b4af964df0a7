//! The SQL for a design. Table t is `t0`, `t1`, ..., its columns are `c0`,
//! `c1`, ..., and `row` is the row's number over all tables. A blank is NULL,
//! which equals nothing. `held` has the held values and `cached` the numbers of
//! the cached rows.

use notation::{Column, Constraint, Design, Filling, Query, Table, Total};

/// The statements that make a design's tables.
pub fn tables(design: &Design) -> Vec<String> {
    let mut statements = vec![
        "PRAGMA journal_mode = OFF".into(),
        "CREATE TABLE held (filling INTEGER, value INTEGER, PRIMARY KEY (filling, value)) \
         WITHOUT ROWID"
            .into(),
        "CREATE TABLE cached (row INTEGER PRIMARY KEY)".into(),
    ];
    let tables = design.tables.iter().enumerate();
    statements.extend(tables.map(|(number, table)| create_table(number, table)));
    statements
}

/// The statements that index every column and take account of what is there.
pub fn indexes(design: &Design) -> Vec<String> {
    let mut statements = Vec::new();
    for (number, table) in design.tables.iter().enumerate() {
        statements.extend((0..table.columns).map(|column| create_index(number, table, column)));
    }
    statements.push("ANALYZE".into());
    statements
}

fn create_table(number: usize, table: &Table) -> String {
    let columns: String = (0..table.columns)
        .map(|c| format!(", c{c} INTEGER"))
        .collect();
    format!("CREATE TABLE t{number} (row INTEGER PRIMARY KEY{columns})")
}

fn create_index(number: usize, table: &Table, column: u8) -> String {
    let unique = match table.unique >> column & 1 {
        1 => "UNIQUE ",
        _ => "",
    };
    format!("CREATE {unique}INDEX t{number}c{column} ON t{number} (c{column})")
}

/// Inserts a row of a table: its number and its cells, 0 being blank.
pub fn insert_row(design: &Design, table: usize) -> String {
    let columns = 0..design.tables[table].columns;
    let cells: String = columns.map(|_| ", NULLIF(?, 0)").collect();
    format!("INSERT INTO t{table} VALUES (?{cells})")
}

/// Holds value `?2` of filling `?1` unless it is held.
pub const HOLD: &str = "INSERT INTO held VALUES (?1, ?2) ON CONFLICT DO NOTHING";

/// Stops holding value `?2` of filling `?1`.
pub const RELEASE: &str = "DELETE FROM held WHERE filling = ?1 AND value = ?2";

/// Caches what a value of a filling demands, `?1` being the value.
pub fn load(design: &Design, filling: &Filling) -> String {
    let Column { table, column } = filling.column;
    let uncached = "row NOT IN cached";
    let start = format!("SELECT row FROM t{table} WHERE c{column} = ?1 AND {uncached}");
    let demanded = demanded(design, &start, &format!(" WHERE target.{uncached}"));
    format!("INSERT INTO cached {demanded}")
}

/// Removes the row `?1` of a table.
pub fn remove_row(table: usize) -> String {
    format!("DELETE FROM t{table} WHERE row = ?1")
}

/// Removes the cached rows that the held values don't demand.
pub fn unload(design: &Design) -> String {
    let demanded = all_demanded(design);
    format!("DELETE FROM cached WHERE row NOT IN ({demanded})")
}

/// Caches what the held values demand and isn't cached.
pub fn reload(design: &Design) -> String {
    format!("INSERT OR IGNORE INTO cached {}", all_demanded(design))
}

/// The rows that the held values demand.
fn all_demanded(design: &Design) -> String {
    let starts: Vec<String> = (0..)
        .zip(&design.fillings)
        .map(|(number, filling): (usize, _)| {
            let Column { table, column } = filling.column;
            format!(
                "SELECT row FROM held JOIN t{table} ON c{column} = value WHERE filling = {number}"
            )
        })
        .collect();
    demanded(design, &starts.join(" UNION "), "")
}

/// The rows that `start` gives and all that the constraints demand of them.
fn demanded(design: &Design, start: &str, condition: &str) -> String {
    let steps: String = design
        .constraints
        .iter()
        .map(|Constraint { source, target }| {
            format!(
                " UNION SELECT target.row FROM demanded \
                 JOIN t{} AS source ON source.row = demanded.row \
                 JOIN t{} AS target ON target.c{} = source.c{}{condition}",
                source.table, target.table, target.column, source.column
            )
        })
        .collect();
    format!("WITH RECURSIVE demanded (row) AS ({start}{steps}) SELECT row FROM demanded")
}

/// Gives a column's ground for the value `?1`, or 0 if there is none; and how many
/// cached rows have the value there, if there is a ground.
pub fn probe(design: &Design, column: Column) -> String {
    let ground = ground(design, column);
    let rows = format!("SELECT COUNT(*) FROM {}", cached_rows(column));
    format!("SELECT ground, CASE WHEN ground THEN ({rows}) END FROM ({ground})")
}

/// Gives a column's ground for the value `?1`, or 0 if there is none.
pub fn ground(design: &Design, column: Column) -> String {
    let held = (0..)
        .zip(&design.fillings)
        .filter(|(_, filling)| filling.column == column)
        .map(|(number, _): (usize, _)| {
            case(1, &format!("held WHERE filling = {number} AND value = ?1"))
        });
    let demanded = design
        .constraints
        .iter()
        .filter(|constraint| constraint.target == column)
        .map(|constraint| case(2, &cached_rows(constraint.source)));
    let is_unique = design.tables[usize::from(column.table)].unique >> column.column & 1 == 1;
    let unique = is_unique.then(|| case(3, &cached_rows(column)));
    let cases: String = held.chain(demanded).chain(unique).collect();
    // The last case is true, as no value is 0. It stands there because SQL asks
    // for at least one.
    format!("SELECT CASE{cases} WHEN ?1 THEN 0 END AS ground")
}

fn case(ground: u8, rows: &str) -> String {
    format!(" WHEN EXISTS (SELECT 1 FROM {rows}) THEN {ground}")
}

/// The cached rows that have the value `?1` in a column.
fn cached_rows(Column { table, column }: Column) -> String {
    format!("t{table} JOIN cached USING (row) WHERE c{column} = ?1")
}

/// Gives a query's lists, `?1` being the value. It reads the backend's tables:
/// where there is a ground, the cached rows give the same lists, and SQLite is
/// spared looking at them.
pub fn query(design: &Design, query: &Query) -> String {
    let positions = 0..=query.joins;
    let rows: Vec<String> = positions.map(|p| format!("p{p}.row")).collect();
    let rows = rows.join(", ");
    let lists = lists(design, query);
    format!("SELECT {rows} FROM {lists} ORDER BY {rows}")
}

/// Gives the sum of a cell over a query's lists, in the same way. Over no lists,
/// and over blanks alone, SQL's sum is NULL.
pub fn total(design: &Design, total: &Total) -> String {
    let Total {
        query,
        position,
        column,
    } = total;
    let lists = lists(design, query);
    format!("SELECT IFNULL(SUM(p{position}.c{column}), 0) FROM {lists}")
}

/// The lists of a query: position p of them is `p0`, `p1`, ...
fn lists(design: &Design, query: &Query) -> String {
    let Column { table, column } = query.column;
    let mut from = format!("t{table} AS p0");
    let joins = query.plain_joins().unwrap_or(&[]);
    for (position, join) in (1..).zip(joins) {
        let Constraint { source, target } = design.constraints[usize::from(join.constraint)];
        from += &format!(
            " JOIN t{} AS p{position} ON p{position}.c{} = p{}.c{}",
            target.table, target.column, join.position, source.column
        );
    }
    format!("{from} WHERE p0.c{column} = ?1")
}
