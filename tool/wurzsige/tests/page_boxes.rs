//! The page's boxes in a browser: what is chosen by the page's own controls is shown, and it is what the library says of the same database.

mod browser;
mod program;

use std::collections::BTreeMap;
use std::path::{Path, PathBuf};

use browser::{assert_good, Browser, Look};
use design::{Design, Word};
use program::{scratch, text, wurzsige, SLEEP};
use serde_json::{json, Value};
use session::{Probed, Referred, Session, Trouble};
use testing::Lab;

/// Wards whose names would be markup, script or another direction if they weren't text.
const HOSTILE: [&str; 5] = [
    "</script><script>document.title='run'</script>",
    "\"onfocus=document.title=1 autofocus \"",
    "<img src=x onerror=document.title=2>",
    "a & b | 'c' \\ \u{202e}d\u{7}",
    "<!--",
];

/// A laboratory of the example's tables: two wards that share staff, one without rows beside its own, one with more than a desk has room for, and those with hostile names.
fn laboratory() -> Lab {
    let mut sql = String::from(
        "create table ward (code text primary key, head_id text, name text);
        create table staff (id text primary key, supervisor_id text, role text, name text);
        create table subject (id text primary key, hospital_no text unique, ward_code text, physician_id text, name text, born text);
        create table recording (id integer primary key, subject_id text, technician_id text, minutes integer, started_at text);
        create table channel (recording_id integer not null, label text not null, primary key (recording_id, label));
        create table event (id integer primary key, recording_id integer, channel_label text, kind text, duration_s integer, scorer_id text, onset_ms integer);
        create table scoring (recording_id integer not null, scorer_id text not null, primary key (recording_id, scorer_id));\n",
    );
    for (number, (name, above)) in [("Abel", 0), ("Brandt", 0), ("Conrad", 1), ("Duval", 2)]
        .into_iter()
        .enumerate()
    {
        let above = match number {
            0 => "null".to_string(),
            _ => format!("'{}'", staff(above)),
        };
        sql += &format!(
            "insert into staff values ('{}', {above}, 'physician', '{name}');\n",
            staff(number)
        );
    }
    let wards = ["W-NORD", "W-OST", "W-LARGE"].into_iter().chain(HOSTILE);
    for (number, ward) in wards.enumerate() {
        let quoted = ward.replace('\'', "''");
        let subject = format!("00000000-0000-0000-0000-0000000001{number:02}");
        let recording = 50_001 + number;
        let events = if ward == "W-LARGE" { 600 } else { 3 + number };
        sql += &format!("insert into ward values ('{quoted}', null, '{quoted}');
            insert into subject values ('{subject}', 'H-{number}', '{quoted}', '{}', '{quoted}', '1950-01-01');
            insert into recording values ({recording}, '{subject}', '{}', 400, '2025-03-08 22:00');
            insert into channel values ({recording}, 'Flow'), ({recording}, 'SpO2');
            insert into scoring values ({recording}, '{}');
            with recursive n (i) as (select 1 union all select i + 1 from n where i < {events})
            insert into event select {number} * 1000 + i, {recording}, 'Flow', '{quoted}', 10, '{}', i * 1000 from n;\n",
            staff(number % 2), staff(2), staff(3), staff(3));
    }
    Lab::sqlite(&sql)
}

fn staff(number: usize) -> String {
    format!("00000000-0000-0000-0000-00000000000{number}")
}

/// Writes the page of the example over a database.
fn page(lab: &Lab, name: &str, more: &[&str]) -> PathBuf {
    let file = scratch(name);
    let (source, output) = (lab.argument(), file.to_str().expect("a name"));
    let arguments = ["page", SLEEP, "--source", &source, "-o", output];
    let ran = wurzsige(&[&arguments, more].concat());
    assert_eq!(
        (ran.output.as_str(), ran.errors.as_str(), ran.status),
        ("", "", 0)
    );
    file
}

fn design() -> Design {
    design::read(&text(SLEEP)).design.expect("a design")
}

/// What a session says of a load's value: the rows by table, and each with its label, its round and the labels that its reason names.
struct Told {
    rows: usize,
    rounds: usize,
    tables: BTreeMap<String, usize>,
    reasons: BTreeMap<String, (usize, Vec<String>)>,
    complete: Vec<(String, bool)>,
}

/// Asks a session.
fn told(lab: &Lab, load: &str, value: &str) -> Option<Told> {
    let design = design();
    let spans = design::read(&text(SLEEP)).spans;
    let mut opened = source::open(&lab.source(), &design, &spans).expect("a database");
    let mut session = Session::open(&design, &mut *opened.source).expect("a session");
    let number = design
        .loads
        .iter()
        .position(|named| named.name == load)
        .expect("a load");
    let wanted = session
        .wanted(number, &Word::plain(value))
        .expect("a value");
    let (rows, rounds) = match session.load(number, &wanted) {
        Ok(Referred::Loaded { rows, rounds }) => (rows, rounds),
        Err(Trouble::TooLarge(_)) => return None,
        other => panic!("{load} {value}: {other:?}"),
    };
    let mut told = Told {
        rows,
        rounds,
        tables: BTreeMap::new(),
        reasons: BTreeMap::new(),
        complete: Vec::new(),
    };
    for row in session.cached() {
        let entry = session.row(row).expect("a row");
        let table = design.tables[entry.identity.table].name.clone();
        *told.tables.entry(table).or_insert(0) += 1;
        let reason = session.reason(row).expect("an answer").expect("a reason");
        let labels = reason
            .steps
            .iter()
            .map(|step| session.row(step.from).expect("a row").label.clone());
        let known = (reason.steps.len(), labels.collect());
        told.reasons.insert(entry.label.clone(), known);
    }
    let column = design.loads[number].column;
    for question in design
        .questions
        .iter()
        .filter(|asked| asked.column == column)
    {
        let value = session.read(column, &Word::plain(value)).expect("a value");
        let probed = session.probe(column, &value).expect("an answer");
        told.complete
            .push((question.text.clone(), probed != Probed::Sent));
    }
    Some(told)
}

/// Chooses an option of a control by the keyboard: the control is reached by Tab, and an arrow is pressed until the option is chosen.
fn choose(browser: &mut Browser, control: &str, option: &str) {
    browser.value("document.activeElement.blur()");
    let mut presses = 0;
    while browser.text("document.activeElement.id") != control {
        browser.press("Tab");
        presses += 1;
        assert!(presses < 400, "Tab never reaches {control}");
    }
    browser.press("Home");
    let chosen = "document.activeElement.selectedOptions[0].textContent";
    let mut presses = 0;
    while browser.text(chosen) != option {
        browser.press("ArrowDown");
        presses += 1;
        assert!(presses < 100, "no option {option}");
    }
}

/// The box that is shown of a load, read as people see it.
const SHOWN: &str = "(() => {
    const load = [...document.querySelectorAll('.load')][LOAD];
    const boxes = [...load.querySelectorAll('.value')].filter(box => box.checkVisibility() && box.open);
    if (boxes.length !== 1) throw new Error(boxes.length + ' boxes');
    const box = boxes[0];
    const rows = table => [...table.tBodies[0].rows].map(row => [...row.cells].map(cell => cell.textContent));
    const captioned = text => [...box.querySelectorAll('table')].find(table => table.caption.textContent.startsWith(text));
    return {
        name: box.querySelector('summary bdi').textContent,
        summed: box.querySelector('.summed').textContent,
        told: load.querySelector('.told').textContent,
        rounds: captioned('Rows by table and') ? rows(captioned('Rows by table and')) : [],
        reasons: [...box.querySelectorAll('.rows table')].flatMap(table => [...table.tBodies[0].rows]).map(row => ({
            label: row.cells[0].textContent,
            round: row.cells[1].textContent,
            reason: row.cells[2].textContent,
            named: [...row.cells[2].querySelectorAll('b')].map(name => name.textContent)})),
        questions: captioned('Of the values') ? rows(captioned('Of the values')) : []};
})()";

fn shown(browser: &mut Browser, load: usize) -> Value {
    browser.value(&SHOWN.replace("LOAD", &load.to_string()))
}

/// A value as the page writes it.
fn written(value: &str) -> String {
    value
        .replace('\u{202e}', "‹U+202E›")
        .replace('\u{7}', "‹U+0007›")
}

/// Holds the box that is shown to what a session says.
fn assert_shows(browser: &mut Browser, lab: &Lab, load: usize, name: &str, value: &str) {
    let shown = shown(browser, load);
    assert_eq!(shown["name"], json!(written(value)));
    let Some(told) = told(lab, name, value) else {
        assert_eq!(
            shown["summed"], "more than 512 rows: it can't be loaded",
            "{value}"
        );
        assert_eq!(shown["reasons"], json!([]));
        return;
    };
    let (rows, rounds) = (told.rows, told.rounds);
    assert_eq!(
        shown["summed"],
        json!(format!("{rows} rows in {rounds} rounds"))
    );
    // by table
    let lines = shown["rounds"].as_array().expect("lines");
    let tables: BTreeMap<String, usize> = lines[..lines.len() - 1]
        .iter()
        .map(|line| {
            let cells = line.as_array().expect("cells");
            let count = cells.last().and_then(Value::as_str).expect("a count");
            (
                cells[0].as_str().expect("a table").into(),
                count.parse().expect("a count"),
            )
        })
        .collect();
    assert_eq!(tables, told.tables);
    // the last round that the table has is that of the load, and no row came later
    let width = lines[0].as_array().map(Vec::len);
    assert_eq!(width, Some(rounds + 3), "a name, at once, rounds, all");
    let last = lines.last().and_then(Value::as_array).expect("a line");
    assert_ne!(last[rounds + 1], "–", "rows came in the last round");
    // each row with its reason
    let reasons = shown["reasons"].as_array().expect("reasons");
    assert_eq!(reasons.len(), rows);
    for reason in reasons {
        let label = reason["label"].as_str().expect("a label");
        let same = told
            .reasons
            .iter()
            .find(|(known, _)| written(known) == label);
        let (_, (round, labels)) = same.unwrap_or_else(|| panic!("no row {label}"));
        let shown_round = reason["round"].as_str().expect("a round");
        assert_eq!(
            shown_round.replace("at once", "0"),
            round.to_string(),
            "{label}"
        );
        let mut named: Vec<String> = labels.iter().map(|label| written(label)).collect();
        named.push(written(value));
        assert_eq!(reason["named"], json!(named), "{label}");
    }
    for (question, is_complete) in &told.complete {
        let line = shown["questions"].as_array().expect("questions").iter();
        let mut line = line.filter(|line| line[0] == json!(question));
        let line = line.next().expect("the question");
        assert_eq!(line[1] == "the one value", *is_complete, "{question}");
    }
}

/// Every ward and night that the page has, chosen by the keyboard, shows what the library says.
#[test]
fn what_is_chosen_is_shown() {
    let lab = laboratory();
    let file = page(&lab, "boxes.html", &[]);
    let mut browser = Browser::start("boxes");
    browser.size(1200, 900);
    browser.open(&file);
    for ward in ["W-NORD", "W-LARGE", "W-OST"].into_iter().chain(HOSTILE) {
        choose(&mut browser, "choose-0", &written(ward));
        assert_shows(&mut browser, &lab, 0, "ward", ward);
        let told = shown(&mut browser, 0)["told"].clone();
        assert!(
            told.as_str()
                .is_some_and(|told| told.starts_with(&written(ward))),
            "{ward}: {told}"
        );
    }
    choose(&mut browser, "choose-1", "50002");
    assert_shows(&mut browser, &lab, 1, "night", "50002");
    assert_eq!(
        browser.text("document.title"),
        "St. Agnes sleep laboratory: a design for the review desk"
    );
    assert_eq!(browser.value("document.scripts.length"), json!(1));
    assert_eq!(browser.value("document.images.length"), json!(0));
    assert_eq!(browser.errors, [""; 0]);
}

/// A reason in full, as it is read.
#[test]
fn a_reason_reads_in_the_links_words() {
    let lab = laboratory();
    let file = page(&lab, "reason.html", &["--value", "ward=W-OST"]);
    let mut browser = Browser::start("reason");
    browser.open(&file);
    let shown = shown(&mut browser, 0);
    let reasons = shown["reasons"].as_array().expect("reasons");
    let event = reasons
        .iter()
        .find(|row| row["label"] == "W-OST at 1000 ms in recording 50002");
    assert_eq!(
        event.expect("an event")["reason"],
        "was scored in recording 50002 of 2025-03-08 22:00, which is a night of subject H-1 (W-OST), which has subject.ward_code W-OST, which was loaded as ward"
    );
    let boxes = browser.value("document.querySelectorAll('.value').length");
    assert_eq!(boxes, json!(1), "the one that was given");
    let picked = browser.value(
        "[...document.querySelectorAll('.load > p:first-of-type')].map(text => text.textContent)",
    );
    assert_eq!(
        picked,
        json!([
            "By subject.ward_code. The page has the 1 value that was given.",
            "By recording.id. None of its values was given, and the page has none."
        ])
    );
}

/// What a second load adds, chosen by the keyboard: what both need and what it adds are the two parts of its own rows.
#[test]
fn a_second_load_beside_the_first() {
    let lab = laboratory();
    let file = page(
        &lab,
        "second.html",
        &[
            "--value",
            "ward=W-NORD",
            "--value",
            "ward=W-OST",
            "--value",
            "night=50001",
        ],
    );
    let mut browser = Browser::start("second");
    browser.open(&file);
    choose(&mut browser, "choose-0", "W-NORD");
    choose(&mut browser, "beside-0", "ward W-OST");
    let (north, east) = (
        told(&lab, "ward", "W-NORD").expect("rows"),
        told(&lab, "ward", "W-OST").expect("rows"),
    );
    let names = |browser: &mut Browser, class: &str| -> Vec<String> {
        let texts = browser.value(&format!("[...document.querySelectorAll('.value[open] .pair[open] .{class} li')].filter(item => item.checkVisibility()).map(item => item.textContent).sort()"));
        serde_json::from_value(texts).expect("texts")
    };
    let both: Vec<String> = north
        .reasons
        .keys()
        .filter(|row| east.reasons.contains_key(*row))
        .cloned()
        .collect();
    let adds: Vec<String> = east
        .reasons
        .keys()
        .filter(|row| !north.reasons.contains_key(*row))
        .cloned()
        .collect();
    assert!(both.len() > 2 && adds.len() > 5, "{both:?} {adds:?}");
    assert_eq!(names(&mut browser, "shared"), both);
    assert_eq!(names(&mut browser, "adds"), adds);
    let summed =
        browser.text("document.querySelector('.value[open] .pair[open] summary').textContent");
    let together = north.rows + adds.len();
    assert_eq!(
        summed,
        format!(
            "ward W-OST: it adds {} rows, and both need {} rows; together {together} of 512",
            adds.len(),
            both.len()
        )
    );
    // a night of the ward adds nothing
    choose(&mut browser, "beside-0", "night 50001");
    let summed =
        browser.text("document.querySelector('.value[open] .pair[open] summary').textContent");
    assert!(
        summed.starts_with("night 50001: it adds 0 rows, and both need "),
        "{summed}"
    );
    assert_eq!(names(&mut browser, "adds"), [""; 0]);
}

/// Without a script everything is there: each value's box with its rows, reasons and pairs, and no control that does nothing.
#[test]
fn without_a_script_everything_is_there() {
    let lab = laboratory();
    let file = page(&lab, "plain.html", &[]);
    let mut browser = Browser::start("plain");
    browser.scripts(false);
    browser.open(&file);
    let boxes = browser.value(
        "[...document.querySelectorAll('.value')].filter(box => box.checkVisibility()).length",
    );
    assert_eq!(boxes, json!(16), "eight wards, eight nights");
    let controls = browser.value("[...document.querySelectorAll('select')].filter(control => control.checkVisibility()).length");
    assert_eq!(controls, json!(0));
    let ost = told(&lab, "ward", "W-OST").expect("rows");
    let rows = "[...document.querySelectorAll('.value')].find(box => box.querySelector('summary bdi').textContent === 'W-OST').querySelectorAll('tr[data-row]').length";
    assert_eq!(browser.value(rows), json!(ost.rows));
    // each box opens by itself
    browser.value("document.querySelectorAll('.value').forEach(box => { box.open = true })");
    assert!(
        browser
            .value("document.querySelectorAll('.pair').length")
            .as_u64()
            > Some(100)
    );
}

/// The page with boxes can be read like every other one, whatever is open; on paper all that is chosen is open.
#[test]
fn boxes_can_be_read() {
    let lab = laboratory();
    let file = page(
        &lab,
        "readable.html",
        &[
            "--value",
            "ward=W-NORD",
            "--value",
            "ward=W-OST",
            "--value",
            "ward=W-LARGE",
            "--value",
            "night=50001",
            "--value",
            "night=7",
        ],
    );
    let mut browser = Browser::start("readable");
    assert_good(&mut browser, &file);
    browser.value("document.querySelectorAll('details').forEach(box => { box.open = true; box.hidden = false })");
    browser::assert_looks(&mut browser);
    browser.open(&file);
    choose(&mut browser, "choose-0", "W-OST");
    browser.value("dispatchEvent(new Event('beforeprint'))");
    let open = browser.value("[...document.querySelectorAll('.value')].filter(box => box.checkVisibility()).map(box => [box.querySelector('summary bdi').textContent, box.open, [...box.querySelectorAll('.rows')].every(rows => rows.open)])");
    assert_eq!(open, json!([["W-OST", true, true], ["50001", true, true]]));
    browser.value("dispatchEvent(new Event('afterprint'))");
    let open = browser.value("[...document.querySelectorAll('.rows')].some(rows => rows.open)");
    assert_eq!(open, json!(false));
}

/// A value's own address opens its box.
#[test]
fn an_address_opens_a_box() {
    let lab = laboratory();
    let file = page(
        &lab,
        "address.html",
        &["--value", "ward=W-NORD", "--value", "ward=W-OST"],
    );
    let mut browser = Browser::start("address");
    browser.open_at(&file, "#value-1");
    assert_eq!(shown(&mut browser, 0)["name"], "W-OST");
}

/// What can't be asked for is refused, and nothing is written.
#[test]
fn wrong_values_are_refused() {
    let lab = laboratory();
    let source = lab.argument();
    let file = scratch("wrong.html");
    let output = file.to_str().expect("a name");
    for (value, status) in [("ward", 2), ("wrad=W-NORD", 2), ("night=x", 2)] {
        let ran = wurzsige(&[
            "page", SLEEP, "--source", &source, "--value", value, "-o", output,
        ]);
        assert_eq!(
            (ran.output.as_str(), ran.status),
            ("", status),
            "{value}: {}",
            ran.errors
        );
        assert!(
            !ran.errors.is_empty() && !Path::new(&file).exists(),
            "{value}"
        );
    }
    let ran = wurzsige(&[
        "page",
        SLEEP,
        "--source",
        "sqlite:/nowhere/lab.db",
        "-o",
        output,
    ]);
    assert_eq!(ran.status, 3, "{}", ran.errors);
    let ran = wurzsige(&["page", SLEEP, "--source", &source, "--no-source"]);
    assert_eq!(ran.status, 2, "{}", ran.errors);
}

/// A page over values that share many rows has fewer of them, and says how many it leaves out.
#[test]
fn a_page_stays_short() {
    let lab = Lab::sqlite(
        "create table ward (code integer primary key, department integer);
        create table staff (id integer primary key, department integer);
        with recursive n (i) as (select 1 union all select i + 1 from n where i < 300)
        insert into staff select i, 1 from n;
        insert into ward select id, 1 from staff where id <= 40;",
    );
    let design = "design \"Wards\"
table ward
    code       key integer
    department integer
table staff
    id         key integer
    department integer
link ward.department -> staff.department
load ward by ward.code
";
    let file = scratch("short.html");
    let arguments = [
        "page",
        "-",
        "--source",
        &lab.argument(),
        "-o",
        file.to_str().expect("a name"),
    ];
    let ran = program::wurzsige_reading(&arguments, design.as_bytes());
    assert_eq!((ran.errors.as_str(), ran.status), ("", 0), "{}", ran.output);
    let html = std::fs::read_to_string(&file).expect("a page");
    assert!(html.len() <= 4_000_000, "{}", html.len());
    let boxes = html.matches("<details class=\"value\"").count();
    assert!((2..32).contains(&boxes), "{boxes}");
    let told = format!(
        "The page has the lowest {boxes} values; {} more aren&#39;t on it (--value LOAD=VALUE picks others).",
        40 - boxes
    );
    assert!(html.contains(&told), "{told}");
    assert!(html.contains("was brought by <b><bdi>ward 1</bdi></b>"));
}

/// Pictures of the page for people to look at: light, dark, narrow, and on paper. PAGE names a page of another database, LOOKS the folder.
#[test]
#[ignore = "for people to look at"]
fn pictures_to_look_at() {
    let file = match std::env::var("PAGE") {
        Ok(name) => PathBuf::from(name),
        Err(_) => page(&laboratory(), "looks.html", &[]),
    };
    let folder = std::env::var("LOOKS").map_or_else(|_| scratch(""), PathBuf::from);
    let mut browser = Browser::start("looks");
    for (name, look, width) in [
        ("light", Look::Light, 1200),
        ("dark", Look::Dark, 1200),
        ("narrow", Look::Light, 360),
    ] {
        browser.size(width, 900);
        browser.look(look);
        browser.open(&file);
        browser.value("document.querySelectorAll('.value[open] .rows')[2].open = true");
        let second = browser.text("document.getElementById('beside-0').options[1].textContent");
        choose(&mut browser, "beside-0", &second);
        browser.pictures(&folder.join(name), width);
    }
    browser.size(1200, 900);
    browser.look(Look::Light);
    browser.open(&file);
    browser.paper(&folder.join("paper.pdf"));
}
