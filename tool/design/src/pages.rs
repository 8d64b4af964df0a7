//! The page of a code: what it means, an example that has the mistake and one without it.

/// A page, as text: a title, what there is to say, `## Wrong, at LINE:COLUMN` and `## Right` with a design each, indented by four. Where only a database can
/// show the mistake, `## Database, KIND` stands before them, with the statements that make one.
#[derive(Clone, Copy, Debug)]
pub struct Page(pub(crate) &'static str);

impl Page {
    /// The whole page.
    pub fn text(&self) -> &'static str {
        self.0
    }

    /// The title, without the code.
    pub fn title(&self) -> &'static str {
        let first = self.0.lines().next().unwrap_or_default();
        first.split_once(": ").map_or(first, |(_, title)| title)
    }

    /// The example with the mistake, and the mistake's line and column as the page has them.
    pub fn wrong(&self) -> Option<(String, &'static str)> {
        let head = self
            .0
            .lines()
            .find_map(|line| line.strip_prefix("## Wrong, at "))?;
        Some((self.example("## Wrong")?, head))
    }

    /// The statements of the database that shows the mistake, and its kind as the page has it.
    pub fn database(&self) -> Option<(String, &'static str)> {
        let head = self
            .0
            .lines()
            .find_map(|line| line.strip_prefix("## Database, "))?;
        Some((self.example("## Database")?, head))
    }

    /// The example without it.
    pub fn right(&self) -> Option<String> {
        self.example("## Right")
    }

    /// The indented lines below a heading.
    fn example(&self, heading: &str) -> Option<String> {
        let mut lines = self.0.lines().skip_while(|line| !line.starts_with(heading));
        lines.next()?;
        let lines = lines.take_while(|line| !line.starts_with("## "));
        let example: Vec<&str> = lines.filter_map(|line| line.strip_prefix("    ")).collect();
        Some(example.join("\n") + "\n")
    }
}
