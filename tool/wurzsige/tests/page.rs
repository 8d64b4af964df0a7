//! The page in a browser, as people see and use it.

mod browser;
mod program;

use std::path::PathBuf;

use browser::{assert_good, check, Browser};
use program::{design, scratch, wurzsige, wurzsige_alone, wurzsige_reading, SLEEP};
use serde_json::{json, Value};

/// Names that would be markup, script or another direction if they weren't text.
const HOSTILE: &str = "design \"</title><script>document.title='run'</script>\"
table `</script><script>document.title=1</script>`
    `<img src=x onerror=document.title=2>` key text
    `\"'&amp;\u{202e}a` text
load `</select><b>` by `</script><script>document.title=1</script>`.`\"'&amp;\u{202e}a`
link `</script><script>document.title=1</script>`.`\"'&amp;\u{202e}a` -> `</script><script>document.title=1</script>`.`\"'&amp;\u{202e}a` \"</em><svg onload=document.title=3>\"
question \"<script>document.title=4</script>\" `</script><script>document.title=1</script>`.`<img src=x onerror=document.title=2>` = ?
";

/// Writes the page of a design.
fn page_of(path: &str, name: &str) -> PathBuf {
    let file = scratch(name);
    let ran = wurzsige(&[
        "page",
        "--no-source",
        path,
        "-o",
        file.to_str().expect("a name"),
    ]);
    assert_eq!(
        (ran.output.as_str(), ran.errors.as_str(), ran.status),
        ("", "", 0),
        "{path}"
    );
    file
}

#[test]
fn every_page_can_be_read() {
    let mut browser = Browser::start("read");
    for name in ["sleep", "even", "full", "knots"] {
        let path = match name {
            "sleep" => SLEEP.to_string(),
            other => design(other),
        };
        let file = page_of(&path, &format!("{name}.html"));
        assert_good(&mut browser, &file);
    }
}

/// The checks find what they are for: a page with each fault.
#[test]
fn the_checks_find_faults() {
    let file = scratch("faults.html");
    let html = "<!doctype html><html lang=en><h1>a</h1><h3 id=a>b</h3><p id=a style='color:#888'>grey</p><select></select><svg></svg>\
        <table><tr><td>a</td></tr></table><div style='width:50rem;color:#000;background:#fff'>wide</div>";
    std::fs::write(&file, html).expect("a file");
    let mut browser = Browser::start("faults");
    browser.size(360, 740);
    browser.open(&file);
    assert_eq!(check(&mut browser, "headings"), json!(["h3 behind h1"]));
    assert_eq!(
        check(&mut browser, "names").as_array().map(Vec::len),
        Some(3)
    );
    assert_eq!(
        check(&mut browser, "tables").as_array().map(Vec::len),
        Some(2)
    );
    let contrast = check(&mut browser, "contrast");
    assert_eq!(
        contrast["faults"],
        json!(["grey: 136,136,136 on 255,255,255"])
    );
    assert_eq!(
        check(&mut browser, "wide").as_array().map(Vec::len),
        Some(2)
    );
}

/// What the page says is what `check` says.
#[test]
fn the_page_tells_what_check_tells() {
    let file = page_of(SLEEP, "told.html");
    let told: Value = serde_json::from_str(&wurzsige(&["check", "--format", "json", SLEEP]).output)
        .expect("JSON");
    let mut browser = Browser::start("told");
    browser.open(&file);
    let questions = browser.value("[...document.querySelectorAll('#questions tbody tr')].map(row => ({text: row.cells[0].textContent, verdict: row.cells[1].textContent}))");
    assert_eq!(questions, told["questions"]);
    let seen =
        browser.value("[...document.querySelectorAll('#seen code')].map(code => code.textContent)");
    assert_eq!(seen, told["seen_is_all"]);
    let knots = browser.value("[...document.querySelectorAll('.knotted')].map(knot => [...knot.querySelectorAll('code')].map(code => code.textContent))");
    assert_eq!(knots, told["knots"]);
    let never = browser.text("[...document.querySelectorAll('#questions tbody tr')].find(row => row.cells[0].textContent === 'All hypopneas').cells[2].innerText");
    assert_eq!(
        never,
        "no load, link or key leads to event.kind (W02)\nwould need: load kind by event.kind"
    );
    let links = browser.value(
        "[...document.querySelectorAll('#links tbody tr')].map(row => row.cells[2].textContent)",
    );
    assert_eq!(links[0], "recording is a night of subject");
    let even = page_of(&design("even"), "told-even.html");
    browser.open(&even);
    let bound = browser.text("document.querySelector('#even p').textContent");
    assert!(bound.starts_with("The design is even: every load is over after at most "));
}

/// A name is a name: none runs, and each is shown as it is written.
#[test]
fn hostile_names_stay_text() {
    let file = scratch("hostile.html");
    let arguments = ["page", "-", "-o", file.to_str().expect("a name")];
    let ran = wurzsige_reading(&arguments, HOSTILE.as_bytes());
    assert_eq!((ran.errors.as_str(), ran.status), ("", 0));
    let mut browser = Browser::start("hostile");
    browser.open(&file);
    assert_eq!(
        browser.text("document.title"),
        "</title><script>document.title='run'</script>: a design for the review desk"
    );
    assert_eq!(browser.value("document.scripts.length"), json!(1));
    assert_eq!(browser.value("document.images.length"), json!(0));
    assert_eq!(
        browser.text("document.querySelector('#questions tbody th').textContent"),
        "<script>document.title=4</script>"
    );
    let words = browser.text("document.querySelector('#links em').textContent");
    assert_eq!(words, "</em><svg onload=document.title=3>");
    let drawn = browser.value(
        "[...document.querySelectorAll('.picture text')].map(text => text.textContent.trim())",
    );
    let drawn: Vec<&str> = drawn
        .as_array()
        .expect("texts")
        .iter()
        .filter_map(Value::as_str)
        .collect();
    assert!(
        drawn.contains(&"</script><script>document.title=1</script>"),
        "{drawn:?}"
    );
    assert!(!std::fs::read_to_string(&file)
        .expect("a page")
        .contains('\u{202e}'));
    assert_good(&mut browser, &file);
}

/// The browser runs the page's own script, and would run no other: one that is put in later is refused.
#[test]
fn only_the_pages_own_script_may_run() {
    let file = page_of(SLEEP, "policy.html");
    let html = std::fs::read_to_string(&file).expect("a page");
    let other = html.replace("</h1>", "</h1><script>document.title='run'</script>");
    std::fs::write(&file, other).expect("a file");
    let mut browser = Browser::start("policy");
    browser.open(&file);
    assert!(browser
        .text("document.title")
        .starts_with("St. Agnes sleep laboratory"));
    assert!(
        browser
            .errors
            .iter()
            .any(|error| error.contains("Content Security Policy")),
        "{:?}",
        browser.errors
    );
}

#[test]
fn without_graphviz_there_is_no_page() {
    let ran = wurzsige_alone(&["page", "--no-source", SLEEP]);
    assert!(
        ran.errors
            .starts_with("wurzsige: Graphviz's `dot` can't be run: "),
        "{}",
        ran.errors
    );
    assert_eq!((ran.output.as_str(), ran.status), ("", 3));
}
