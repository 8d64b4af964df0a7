//! Designs made by chance: every part that a text can have, within the limits.
#![allow(dead_code)] // each test file uses some of it

use std::collections::HashSet;

use design::{
    ways, Cells, Column, Design, Join, Link, Load, Place, Question, Role, Single, Source,
    SourceKind, Table, Total, Type, MOST_CELLS, MOST_JOINS, MOST_LINKS, MOST_LOADS, MOST_TABLES,
};

/// Numbers that follow from a seed (splitmix64).
pub struct Random(u64);

impl Random {
    pub fn new(seed: u64) -> Random {
        Random(seed)
    }

    fn next(&mut self) -> u64 {
        self.0 = self.0.wrapping_add(0x9e37_79b9_7f4a_7c15);
        let mut mixed = self.0;
        mixed = (mixed ^ (mixed >> 30)).wrapping_mul(0xbf58_476d_1ce4_e5b9);
        mixed = (mixed ^ (mixed >> 27)).wrapping_mul(0x94d0_49bb_1331_11eb);
        mixed ^ (mixed >> 31)
    }

    pub fn below(&mut self, limit: usize) -> usize {
        (self.next() % limit as u64) as usize
    }

    fn one_in(&mut self, count: usize) -> bool {
        self.below(count) == 0
    }

    pub fn pick<'a, T>(&mut self, items: &'a [T]) -> &'a T {
        &items[self.below(items.len())]
    }
}

const NAMES: [&str; 20] = [
    "subject",
    "recording",
    "event",
    "staff",
    "id",
    "Id",
    "ward_code",
    "größe",
    "日付",
    "x1",
    "$sys",
    "_",
    "show",
    "key",
    "total",
    "with space",
    "a.b",
    "2nd",
    "->",
    "#",
];

const TEXTS: [&str; 10] = [
    "",
    "is a night of",
    "a \"quoted\" word",
    "back\\slash",
    "# no comment",
    "Zürich → Basel",
    "tab\there",
    "{{braces}}",
    "`",
    "\\\"",
];

/// A name that isn't taken yet.
fn fresh(random: &mut Random, taken: &mut HashSet<String>) -> String {
    loop {
        let mut name = random.pick(&NAMES).to_string();
        if random.one_in(2) {
            name += &random.below(100).to_string();
        }
        if taken.insert(name.clone()) {
            return name;
        }
    }
}

/// A design that reads without a mistake.
pub fn design(random: &mut Random) -> Design {
    let mut design = Design {
        title: random.pick(&TEXTS).to_string(),
        source: source(random),
        ..Design::default()
    };
    let mut taken = HashSet::new();
    for _ in 0..1 + random.below(MOST_TABLES) {
        let name = fresh(random, &mut taken);
        let table = table(random, name);
        design.tables.push(table);
    }
    let attempts = random.below(60);
    for _ in 0..attempts {
        add_link(random, &mut design);
        add_load(random, &mut design);
    }
    for _ in 0..random.below(8) {
        add_question(random, &mut design);
    }
    design
}

fn source(random: &mut Random) -> Option<Source> {
    let kind = *random.pick(&SourceKind::ALL);
    let place = random.pick(&TEXTS).to_string();
    random.one_in(2).then_some(Source { kind, place })
}

fn table(random: &mut Random, name: String) -> Table {
    let mut taken = HashSet::new();
    let mut columns: Vec<Column> = Vec::new();
    for number in 0..1 + random.below(11) {
        let name = fresh(random, &mut taken);
        let role = match random.below(6) {
            _ if number == 0 => Role::Key,
            0 => Role::Unique,
            1 => Role::Measure,
            _ => Role::Plain,
        };
        columns.push(column(random, name, role));
    }
    let show: Vec<String> = (0..random.below(4))
        .map(|_| fresh(random, &mut taken))
        .collect();
    Table {
        name,
        from: random.one_in(4).then(|| {
            random
                .pick(&["scored_event", "lab.event", "`odd name`.x"])
                .to_string()
        }),
        label: label(random, &columns, &show),
        columns,
        show,
    }
}

fn column(random: &mut Random, name: String, role: Role) -> Column {
    let kind = match (role, random.below(4)) {
        (Role::Measure, _) => Single::Integer.into(),
        (_, 0) => Type::Tuple(
            vec!["part one".into(), "label".into(), "unknown".into()][random.below(2)..].to_vec(),
        ),
        // mostly of few types, so that columns can be linked
        (_, 1) => (*random.pick(&Single::ALL)).into(),
        _ => (*random.pick(&Single::ALL[..2])).into(),
    };
    let issued = role != Role::Measure && !matches!(kind, Type::Tuple(_)) && random.one_in(6);
    Column {
        issue: issued.then(|| format!("{name} issue")),
        name,
        role,
        kind,
    }
}

fn label(random: &mut Random, columns: &[Column], show: &[String]) -> Option<String> {
    let mut names = columns.iter().map(|column| &column.name).chain(show);
    let shown = names
        .nth(random.below(columns.len() + show.len()))
        .filter(|_| random.one_in(2));
    let value = shown.map(|name| format!("{{{name}}}")).unwrap_or_default();
    let text = random.pick(&TEXTS).to_string();
    random.one_in(2).then(|| text + &value)
}

fn place(random: &mut Random, design: &Design) -> Place {
    let table = random.below(design.tables.len());
    let column = random.below(design.tables[table].columns.len());
    Place { table, column }
}

/// Whether what was added leaves no table more cells than a row has.
fn fits(design: &Design) -> bool {
    let cells = Cells::of(design);
    (0..design.tables.len()).all(|table| cells.columns(table).len() <= MOST_CELLS)
}

/// The kind of a column, as links compare it: tuples by their lengths, since nothing else is known of these.
fn comparable(design: &Design, place: Place) -> Option<(Option<Single>, usize)> {
    let column = design.column(place);
    let kind = match &column.kind {
        Type::Single(single) => (Some(*single), 0),
        Type::Tuple(parts) => (None, parts.len()),
    };
    (column.role != Role::Measure).then_some(kind)
}

fn add_link(random: &mut Random, design: &mut Design) {
    let (source, target) = (place(random, design), place(random, design));
    let kinds = (comparable(design, source), comparable(design, target));
    let twice = design
        .links
        .iter()
        .any(|link| (link.source, link.target) == (source, target));
    if design.links.len() == MOST_LINKS || twice || kinds.0.is_none() || kinds.0 != kinds.1 {
        return;
    }
    let words = random.pick(&TEXTS).to_string();
    design.links.push(Link {
        source,
        target,
        words: random.one_in(2).then_some(words),
    });
    if !fits(design) {
        design.links.pop();
    }
}

fn add_load(random: &mut Random, design: &mut Design) {
    let column = place(random, design);
    let twice = design.loads.iter().any(|load| load.column == column);
    if design.loads.len() == MOST_LOADS || twice || comparable(design, column).is_none() {
        return;
    }
    let low = 1 + random.below(9) as u32;
    let ranged = design.column(column).kind == Single::Integer.into() && random.one_in(2);
    let high = *random.pick(&[low, low + 7, u32::MAX]);
    let name = format!("{} {}", random.pick(&NAMES), design.loads.len());
    design.loads.push(Load {
        name,
        column,
        values: ranged.then_some((low, high)),
    });
    if !fits(design) {
        design.loads.pop();
    }
}

fn add_question(random: &mut Random, design: &mut Design) {
    let column = place(random, design);
    if comparable(design, column).is_none() {
        return;
    }
    let mut positions = vec![column.table];
    let mut joins = Vec::new();
    for _ in 0..random.below(3 * MOST_JOINS) {
        if let Some(join) = join(random, design, &positions).filter(|_| joins.len() < MOST_JOINS) {
            positions.push(design.links[join.link].target.table);
            joins.push(join);
        }
    }
    let total = total(random, design, &positions);
    let text = format!("{}{}", random.pick(&TEXTS), design.questions.len());
    design.questions.push(Question {
        text,
        column,
        joins,
        total,
    });
    if !fits(design) {
        design.questions.pop();
    }
}

/// A join that can be told from the others by its link.
fn join(random: &mut Random, design: &Design, positions: &[usize]) -> Option<Join> {
    if design.links.is_empty() {
        return None;
    }
    let link = random.below(design.links.len());
    let target = design.links[link].target.table;
    let fitting: Vec<Join> = ways(design, positions, target)
        .into_iter()
        .filter(|join| join.link == link)
        .collect();
    match fitting[..] {
        [join] => Some(join),
        _ => None,
    }
}

fn total(random: &mut Random, design: &Design, positions: &[usize]) -> Option<Total> {
    let position = random.below(positions.len());
    let table = positions[position];
    let once = positions.iter().filter(|&&other| other == table).count() == 1;
    let columns = &design.tables[table].columns;
    let measures: Vec<usize> = (0..columns.len())
        .filter(|&column| columns[column].role == Role::Measure)
        .collect();
    let column = *measures.first().filter(|_| once)?;
    Some(Total { position, column })
}
