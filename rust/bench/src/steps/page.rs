//! Figures on a page: tables as the page writes them, and where they stand.

/// What stands before and after the figures of a page.
const BEGIN: &str = "<!-- figures: begin -->\n";
const END: &str = "<!-- figures: end -->\n";

/// A table in Markdown.
pub fn markdown(head: &[&str], rows: &[Vec<String>]) -> String {
    let line = |cells: Vec<&str>| format!("| {} |\n", cells.join(" | "));
    let rule = format!("|{}\n", "---|".repeat(head.len()));
    let rows = rows
        .iter()
        .map(|row| line(row.iter().map(String::as_str).collect()));
    line(head.to_vec()) + &rule + &rows.collect::<String>()
}

/// The page with other figures, unless it has no place for them.
pub fn filled(page: &str, figures: &str) -> Option<String> {
    let (before, rest) = page.split_once(BEGIN)?;
    let (_, after) = rest.split_once(END)?;
    Some(format!("{before}{BEGIN}\n{figures}\n{END}{after}"))
}

#[cfg(test)]
mod tests {
    use super::*;

    #[test]
    fn figures_are_put_between_their_marks_and_again() {
        let page = format!("a\n{BEGIN}old\n{END}b\n");
        let once = filled(&page, "| 1 |\n").expect("marks");
        assert_eq!(once, format!("a\n{BEGIN}\n| 1 |\n\n{END}b\n"));
        assert_eq!(filled(&once, "| 1 |\n"), Some(once.clone()));
        assert_eq!(filled("a\n", "| 1 |\n"), None);
    }

    #[test]
    fn a_table_has_a_rule_below_its_head() {
        let rows = [vec!["x".to_string(), "1".to_string()]];
        assert_eq!(
            markdown(&["a", "b"], &rows),
            "| a | b |\n|---|---|\n| x | 1 |\n"
        );
    }

    #[test]
    fn the_library_s_page_has_a_place_for_figures() {
        let path = concat!(env!("CARGO_MANIFEST_DIR"), "/../../docs/BENCHMARKS.md");
        let page = std::fs::read_to_string(path).expect("the page");
        assert!(filled(&page, "").is_some());
    }
}
