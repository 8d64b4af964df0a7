//! What `draw` draws, by its DOT text, and that Graphviz takes it.

mod program;

use program::{design, expected, scratch, wurzsige, wurzsige_alone, SLEEP};

#[test]
fn the_picture_in_dot() {
    let ran = wurzsige(&["draw", SLEEP]);
    assert_eq!(ran.output, expected("sleep.dot"));
    assert_eq!((ran.errors.as_str(), ran.status), ("", 0));
}

/// Keys bold, a knot's links red, columns where seeing is enough green, loads named.
#[test]
fn colours_mean_something() {
    let dot = wurzsige(&["draw", SLEEP]).output;
    let red: Vec<&str> = dot
        .lines()
        .filter(|line| line.contains("#c4161c\", penwidth"))
        .collect();
    assert_eq!(red.len(), 3, "a point, the line to it and the line back");
    let link = "staff.supervisor_id -> staff.id: supervises";
    assert!(red.iter().all(|line| line.contains(link)), "{red:?}");
    assert_eq!(dot.matches("bgcolor=\"#dff3e0\"").count(), 5);
    assert!(dot.contains("◂ ward</font>") && dot.contains("◂ night</font>"));
    assert!(dot.contains("<b>hospital_no</b>") && !dot.contains("<b>ward_code</b>"));
    let even = wurzsige(&["draw", &design("even")]).output;
    assert!(!even.contains("#c4161c"), "{even}");
}

#[test]
fn graphviz_draws_it() {
    for (name, head) in [
        ("sleep.svg", &b"<?xml"[..]),
        ("sleep.png", b"\x89PNG\r\n"),
        ("sleep.pdf", b"%PDF"),
    ] {
        for design in [SLEEP, &design("full")] {
            let path = scratch(name);
            let ran = wurzsige(&["draw", design, "--output", path.to_str().expect("a name")]);
            assert_eq!(
                (ran.output.as_str(), ran.errors.as_str(), ran.status),
                ("", "", 0),
                "{name}"
            );
            assert!(
                std::fs::read(&path).expect(name).starts_with(head),
                "{name}"
            );
        }
    }
    let path = scratch("sleep.dot");
    let ran = wurzsige(&["draw", SLEEP, "-o", path.to_str().expect("a name")]);
    assert_eq!((ran.output.as_str(), ran.status), ("", 0));
    assert_eq!(
        std::fs::read_to_string(&path).expect("DOT"),
        expected("sleep.dot")
    );
}

/// Signs are explained that the picture has, and no others; and a design without a title, or without anything, can be drawn.
#[test]
fn the_signs_that_are_there_are_explained() {
    let knots = wurzsige(&["draw", &design("knots")]).output;
    assert!(knots.contains("can be loaded") && knots.contains("feed themselves"));
    assert!(!knots.contains("no value twice") && !knots.contains("takes no cell"));
    for text in ["design \"\"", "design \"\"\ntable a\n    x text\n"] {
        let path = scratch("bare.svg");
        let arguments = ["draw", "-", "-o", path.to_str().expect("a name")];
        let ran = program::wurzsige_reading(&arguments, text.as_bytes());
        assert_eq!((ran.errors.as_str(), ran.status), ("", 0), "{text}");
    }
}

/// A link within a table is drawn over a point of its own, for which `dot` leaves room.
#[test]
fn a_link_within_a_table_turns_beside_it() {
    let text = "design \"Staff\"\ntable staff\n    id   key text\n    boss text\nlink staff.id -> staff.boss\nlink staff.boss -> staff.id\nload id by staff.id\n";
    let dot = program::wurzsige_reading(&["draw", "-"], text.as_bytes()).output;
    let ends = |line: &str| line.split(" [").next().map(|ends| ends.trim().to_string());
    let lines: Vec<String> = dot
        .lines()
        .filter(|line| line.contains("tooltip="))
        .filter_map(ends)
        .collect();
    let first = ["l0", "t0:c0:e -> l0:n", "t0:c1:e -> l0:s"];
    let second = ["l1", "t0:c1:e -> l1:s", "t0:c0:e -> l1:n"];
    assert_eq!(lines, [first, second].concat());
}

/// Two links between the same columns, one each way, are two lines: both start at one end, with an arrow at the end that each leads to.
#[test]
fn links_there_and_back_are_two_lines() {
    let text = "design \"Nights\"\ntable subject\n    id key text\n    ward text\ntable night\n    subject text\n    ward text\nlink subject.id -> night.subject \"of\"\nlink night.subject -> subject.id \"slept\"\nlink night.ward -> subject.ward\n";
    let dot = program::wurzsige_reading(&["draw", "-"], text.as_bytes()).output;
    let lines: Vec<&str> = dot.lines().filter(|line| line.contains(" -> t")).collect();
    for (line, begins, tooltip) in [
        (
            0,
            "  t0:c0 -> t1:c0 [tooltip=",
            "subject.id -> night.subject: of",
        ),
        (
            1,
            "  t0:c0 -> t1:c0 [dir=back, tooltip=",
            "night.subject -> subject.id: slept",
        ),
        (
            2,
            "  t1:c1 -> t0:c1 [tooltip=",
            "night.ward -> subject.ward",
        ),
    ] {
        assert!(lines[line].starts_with(begins), "{dot}");
        assert!(lines[line].contains(tooltip), "{dot}");
    }
    assert_eq!(lines.len(), 3);
    // each of the three is drawn on a way of its own
    let path = scratch("back.svg");
    let arguments = ["draw", "-", "-o", path.to_str().expect("a name")];
    let ran = program::wurzsige_reading(&arguments, text.as_bytes());
    assert_eq!((ran.errors.as_str(), ran.status), ("", 0));
    let svg = std::fs::read_to_string(&path).expect("a picture");
    let ways = svg.split("<path ").skip(1);
    let ways = ways.filter_map(|piece| piece.split_once(" d=\"")?.1.split_once('"'));
    let ways: std::collections::HashSet<&str> = ways.map(|(way, _)| way).collect();
    assert_eq!(ways.len(), 3, "{svg}");
}

/// Names are only names, whatever characters they have.
#[test]
fn names_are_escaped() {
    let text = "design \"<b>&\\\"\\\\\"\ntable `</table>`\n    `a<b>&\"c` key text\nload `<i>` by `</table>`.`a<b>&\"c`\nlink `</table>`.`a<b>&\"c` -> `</table>`.`a<b>&\"c` \"\\\\N \\\"quoted\\\"\"\n";
    let path = scratch("names.svg");
    let ran = program::wurzsige_reading(
        &["draw", "-", "-o", path.to_str().expect("a name")],
        text.as_bytes(),
    );
    assert_eq!((ran.errors.as_str(), ran.status), ("", 0));
    let svg = std::fs::read_to_string(&path).expect("a picture");
    assert!(
        svg.contains("&lt;/table&gt;") && svg.contains("a&lt;b&gt;&amp;&quot;c"),
        "{svg}"
    );
    assert!(svg.contains("\\N &quot;quoted&quot;"), "{svg}");
}

#[test]
fn a_picture_of_another_kind_is_refused() {
    let ran = wurzsige(&["draw", SLEEP, "-o", "sleep.jpeg"]);
    assert_eq!(
        ran.errors,
        "wurzsige: sleep.jpeg: a picture's name ends with .svg, .png, .pdf or .dot\n"
    );
    assert_eq!(ran.status, 2);
    let path = scratch("nowhere/sleep.dot");
    assert_eq!(
        wurzsige(&["draw", SLEEP, "-o", path.to_str().expect("a name")]).status,
        3
    );
}

#[test]
fn without_graphviz_there_is_dot_text() {
    let path = scratch("alone.svg");
    let ran = wurzsige_alone(&["draw", SLEEP, "-o", path.to_str().expect("a name")]);
    assert!(
        ran.errors
            .starts_with("wurzsige: Graphviz's `dot` can't be run: "),
        "{}",
        ran.errors
    );
    assert_eq!(ran.status, 3);
    let ran = wurzsige_alone(&["draw", SLEEP]);
    assert_eq!((ran.output, ran.status), (expected("sleep.dot"), 0));
}
