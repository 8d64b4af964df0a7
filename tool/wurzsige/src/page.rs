//! `page`: all that can be told of a design, in one HTML file that needs nothing else: no network, no other file, and for reading no script.
//!
//! What stands on it was said by the library beforehand. The script on the page shows and hides parts of the document, and makes nothing up.

mod boxes;
mod choices;
mod costs;
mod facts;
mod markup;
mod picture;
mod policy;
mod table;

use design::Design;
use session::{Session, Trouble};
use source::Source;

use crate::check::Checked;
use crate::file::File;
use crate::loads;

use self::choices::Picked;
use self::costs::Costs;
use self::markup::{element, void, with, Markup};

const STYLE: &str = include_str!("page/page.css");
const SCRIPT: &str = include_str!("page/page.js");

/// How many of the database's own values are tried, of all loads together: the first number of these with which the page isn't too long. Each two values are tried beside each
/// other, so that what is written grows with their square.
const VALUES: [usize; 6] = [32, 16, 8, 4, 2, 1];

/// How long a page may be for more than the fewest values.
const MOST_BYTES: usize = 4_000_000;

/// Why there is no page.
pub enum NoPage {
    /// The database can't be asked, or what is given can't be asked for.
    Trouble(Trouble),
    /// There is no picture, in words for the user.
    Undrawn(String),
}

impl From<Trouble> for NoPage {
    fn from(trouble: Trouble) -> NoPage {
        NoPage::Trouble(trouble)
    }
}

/// What was asked of a database, and how the values of each load were picked.
struct Asked {
    costs: Costs,
    picked: Vec<Picked>,
}

impl Asked {
    /// Asks for the values that are given, or else for so many of the database's own.
    fn of(
        design: &Design,
        source: &mut dyn Source,
        given: &[loads::Asked],
        most: usize,
    ) -> Result<Asked, Trouble> {
        let own = match given {
            [] => Some(choices::own(design, source, most)?),
            _ => None,
        };
        let mut session = Session::open(design, source)?;
        let (choices, picked) = match own {
            Some(own) => own,
            None => choices::given(&mut session, given)?,
        };
        let costs = Costs::of(&mut session, choices)?;
        Ok(Asked { costs, picked })
    }
}

/// The page of a design without errors, which reads no database.
pub fn html(file: &File, checked: &Checked) -> Result<String, NoPage> {
    written(file, checked, None).map_err(NoPage::Undrawn)
}

/// The same with what loads drag in of a database: of the values that are given, or else of so many of its own that the page stays short.
pub fn html_over(
    file: &File,
    checked: &Checked,
    source: &mut dyn Source,
    given: &[loads::Asked],
) -> Result<String, NoPage> {
    let Some(design) = file.design() else {
        unreachable!("the design was accepted");
    };
    let mut html = String::new();
    for most in VALUES {
        let asked = Asked::of(design, source, given, most)?;
        html = written(file, checked, Some(&asked)).map_err(NoPage::Undrawn)?;
        if !given.is_empty() || html.len() <= MOST_BYTES {
            break;
        }
    }
    Ok(html)
}

/// The page of a design without errors, with boxes of what a database was asked. Fails where Graphviz's `dot` does.
fn written(file: &File, checked: &Checked, asked: Option<&Asked>) -> Result<String, String> {
    let (Some(design), Some(facts)) = (file.design(), &checked.facts) else {
        return Ok(String::new());
    };
    let main = [
        facts::glance(design, facts),
        section("picture", "The picture", [picture::figure(design, facts)?]),
        facts::evenness(file, design, facts),
        facts::seen(design, facts),
        facts::questions(file, design, facts, checked),
        facts::links(file, design, facts),
        match asked {
            Some(Asked { costs, picked }) => boxes::loads(design, facts, costs, picked),
            None => facts::loads(design),
        },
    ];
    let body = [
        with(
            "a",
            &[("class", "skip"), ("href", "#main")],
            ["To what the page says".into()],
        ),
        header(file, &design.title),
        contents(),
        with("main", &[("id", "main")], main),
        footer(),
        element("script", [Markup::made(SCRIPT)]),
    ];
    Ok(document(&design.title, body))
}

fn document(title: &str, body: impl IntoIterator<Item = Markup>) -> String {
    let policy = policy::policy(STYLE, SCRIPT);
    let head = [
        void("meta", &[("charset", "utf-8")]),
        void(
            "meta",
            &[
                ("http-equiv", "Content-Security-Policy"),
                ("content", &policy),
            ],
        ),
        void(
            "meta",
            &[
                ("name", "viewport"),
                ("content", "width=device-width, initial-scale=1"),
            ],
        ),
        void(
            "meta",
            &[("name", "color-scheme"), ("content", "light dark")],
        ),
        element(
            "title",
            [format!("{title}: a design for the review desk").into()],
        ),
        element("style", [Markup::made(STYLE)]),
    ];
    let html = with(
        "html",
        &[("lang", "en")],
        [element("head", head), element("body", body)],
    );
    format!("<!doctype html>\n{}\n", html.into_string())
}

fn header(file: &File, title: &str) -> Markup {
    let parts = [
        with("p", &[("class", "kind")], ["A design for the review desk".into()]),
        element("h1", [Markup::name(title)]),
        element(
            "p",
            [
                "From ".into(),
                Markup::name(&file.name),
                ". What is said here was decided by the proved library, and put into words by the tool.".into(),
            ],
        ),
    ];
    element("header", parts)
}

/// Where the page's parts are.
fn contents() -> Markup {
    const PARTS: [(&str, &str); 6] = [
        ("#picture", "Picture"),
        ("#even", "Knots"),
        ("#seen", "Seeing is enough"),
        ("#questions", "Questions"),
        ("#links", "Links"),
        ("#loads", "Loads"),
    ];
    let parts =
        PARTS.map(|(place, name)| element("li", [with("a", &[("href", place)], [name.into()])]));
    with(
        "nav",
        &[("aria-label", "Parts of this page")],
        [element("ul", parts)],
    )
}

fn footer() -> Markup {
    let version = env!("CARGO_PKG_VERSION");
    let made = format!("Made by wurzsige {version}. The page needs no network and sends nothing.");
    element("footer", [paragraph(&made)])
}

/// A part of the page with its heading.
fn section(id: &'static str, heading: &str, parts: impl IntoIterator<Item = Markup>) -> Markup {
    let labelled = format!("{id}-heading");
    let heading = with("h2", &[("id", &labelled)], [heading.into()]);
    let parts = std::iter::once(heading).chain(parts);
    with(
        "section",
        &[("id", id), ("aria-labelledby", &labelled)],
        parts,
    )
}

fn paragraph(text: &str) -> Markup {
    element("p", [text.into()])
}
