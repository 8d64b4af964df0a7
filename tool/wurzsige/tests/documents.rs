//! What the pages say of designs.

mod program;

use program::{text, wurzsige, SLEEP};

/// The design that `docs/USING.md` shows is one.
#[test]
fn the_design_of_the_page_for_users() {
    let page = text("docs/USING.md");
    let lines = page
        .lines()
        .skip_while(|line| !line.starts_with("    design \""));
    let lines = lines.take_while(|line| line.starts_with("    "));
    let shown: String = lines.map(|line| format!("{}\n", &line[4..])).collect();
    assert!(shown.contains("question \"Apnoea"), "{shown}");
    let reading = design::read(&shown);
    assert_eq!(reading.problems, []);
}

/// Every command, type, kind of item and code that the page names is there, and none is left out.
#[test]
fn the_page_for_users_is_whole() {
    let page = text("docs/USING.md");
    for command in program::commands()
        .iter()
        .filter(|command| *command != "help")
    {
        assert!(page.contains(&format!("`wurzsige {command}")), "{command}");
    }
    for kind in design::Single::ALL.map(design::Single::name) {
        assert!(page.contains(&format!("`{kind}`")), "{kind}");
    }
}

/// The session on the first page is what the tool answers over the example's database.
#[test]
fn the_session_of_the_first_page() {
    const PROMPT: &str = "    desk 0> ";
    let page = text("README.md");
    let lines = page.lines().skip_while(|line| !line.starts_with(PROMPT));
    let session: Vec<&str> = lines.take_while(|line| line.starts_with("    ")).collect();
    let asked = session.iter().filter_map(|line| line.strip_prefix(PROMPT));
    let asked: String = asked.map(|line| format!("{line}\n")).collect();
    let told = session.iter().filter(|line| !line.starts_with(PROMPT));
    let told: String = told.map(|line| format!("{}\n", &line[4..])).collect();
    assert!(asked.lines().count() > 2, "{asked}");
    let lab = testing::Lab::sqlite(&text("examples/lab.sql"));
    let arguments = ["ask", SLEEP, "--source", &lab.argument()];
    let ran = program::wurzsige_reading(&arguments, asked.as_bytes());
    assert_eq!(
        (ran.output, ran.errors, ran.status),
        (told, String::new(), 0)
    );
}

/// The picture of the pages is that of the design: each of its names is in it, and a knot's links are red.
#[test]
fn the_picture_of_the_pages() {
    let svg = text("examples/sleep.svg");
    let design = design::read(&text(SLEEP)).design.expect("a design");
    for table in &design.tables {
        assert!(
            svg.contains(&format!(">{}</text>", table.name)),
            "{}",
            table.name
        );
    }
    let drawn: Vec<(&str, bool)> = svg
        .split("xlink:title=\"")
        .skip(1)
        .map(|piece| {
            let (title, rest) = piece.split_once('"').expect("a title's end");
            (title, rest.contains("stroke=\"#c4161c\""))
        })
        .collect();
    let dot = wurzsige(&["draw", SLEEP]).output;
    for link in &design.links {
        let name = design.link_name(link);
        let is_red = |line: &str| line.contains(&name) && line.contains("color=\"#c4161c\"");
        let in_knot = dot.lines().any(is_red);
        let escaped = name.replace('>', "&gt;").replace('-', "&#45;");
        let lines: Vec<_> = drawn
            .iter()
            .filter(|(title, _)| title.starts_with(&escaped))
            .collect();
        assert!(!lines.is_empty(), "{name}");
        assert!(lines.iter().all(|(_, red)| *red == in_knot), "{name}");
    }
}
