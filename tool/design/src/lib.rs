//! Designs in words, as `wurzsige` reads them: text to names to the bytes of a script, and every mistake of a file at its place.
//!
//! [`read`] gives the [`Design`] of a text, or all of its [`Problem`]s; [`print()`] gives a design's text; [`script()`] its bytes, which the
//! proved library takes. What the library decides (whether loads come to an end, what a question is answered) isn't decided here.
//!
//! ```
//! let text = "design \"Sleep\"\ntable subject\n    id   key uuid\n    ward text\nload ward by subject.wrd\n";
//! let reading = design::read(text);
//! let problem = &reading.problems[0];
//! assert_eq!(problem.code.name(), "E012");
//! assert_eq!(problem.message, "table `subject` has no column `wrd`");
//! assert_eq!(problem.position(text), design::Position { line: 5, column: 22 });
//! assert_eq!(problem.at.text, "did you mean `ward`?");
//! ```

mod asked;
mod build;
mod cells;
mod cursor;
mod design;
mod item;
mod labels;
mod limits;
mod links;
mod loads;
mod nearest;
mod pages;
mod parse;
mod print;
mod problem;
mod questions;
mod read;
mod script;
mod span;
mod text;
mod token;
mod types;
mod word;

pub use asked::{asked, Asked};
pub use cells::{Cells, MOST_CELLS};
pub use design::{
    Column, Design, Join, Link, Load, Place, Question, Role, Single, Source, SourceKind, Table,
    Total, Type,
};
pub use labels::{pieces, Piece};
pub use limits::{MOST_LINKS, MOST_LOADS, MOST_TABLES};
pub use nearest::nearest;
pub use pages::Page;
pub use print::{
    column_kind, link_line, load_line, name, print, question_line, source_line, table_line,
    title_line,
};
pub use problem::{Code, Label, Problem, Severity};
pub use questions::{ways, MOST_JOINS};
pub use read::{read, Reading, Spans};
pub use script::{script, script_with};
pub use span::{Position, Span};
pub use text::{text, NotText};
pub use word::{words, Word};
