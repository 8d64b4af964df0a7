//! The command line.

use std::path::PathBuf;

use clap::{Parser, Subcommand, ValueEnum};

use crate::output::When;

const EXIT: &str = "Exit status: 0 good; 1 a warning was found (knots, questions that are never answered); 2 the design or the command is refused; 3 a file or the database can't be read, or a file can't be written.";

const EXIT_OF_WRITING: &str = "Exit status: 0 good; 2 the design or the command is refused; 3 a file can't be read or written.";

const EXIT_OF_ROWS: &str = "Exit status: 0 good; 2 the design or the command is refused, or a load isn't carried out; 3 a file or the database can't be read, or a file can't be written.";

const TRIED: &str = "Exit status: 0 all is loaded; 2 something isn't, or the design or the command is refused; 3 a file or the database can't be read. Nothing is ever written to the database.";

const ASKED: &str = "Commands: load, drop, ask, probe, why, opener, desk, held, rows, refresh, help, quit; `help` says how each is written.\n\nExit status: 0 every command was carried out; 2 some wasn't, or the design is refused; 3 a file or the database can't be read. Nothing is ever written to the database.";

/// Designs for the review desk, decided by the proved desk
#[derive(Debug, Parser)]
#[command(name = "wurzsige", version, after_help = EXIT, max_term_width = 100)]
pub struct Arguments {
    /// What to do
    #[command(subcommand)]
    pub command: Command,

    /// Where to use colour; auto: on a terminal, unless NO_COLOR is set
    #[arg(long, global = true, value_name = "WHEN", default_value = "auto")]
    pub color: When,
}

/// What the tool can do.
#[derive(Debug, Subcommand)]
pub enum Command {
    /// Draft a design from a database: tables, keys and types, with every foreign key as two links to choose from
    #[command(after_help = EXIT)]
    Init {
        /// The database: sqlite:FILE or postgres:CONNINFO
        source: String,

        /// Where to write the draft; without it standard output
        #[arg(short, long, value_name = "FILE")]
        output: Option<PathBuf>,
    },

    /// Tell all mistakes of a design; whether it has knots; which questions are answered here
    #[command(after_help = EXIT)]
    Check {
        /// The design's file, or - for standard input
        design: PathBuf,

        /// Text for people, or a line of JSON for programs
        #[arg(long, value_name = "FORMAT", default_value = "text")]
        format: Format,
    },

    /// Draw a design: tables, links, loads; knots red, columns where seeing is enough green
    #[command(after_help = EXIT_OF_WRITING)]
    Draw {
        /// The design's file, or - for standard input
        design: PathBuf,

        /// Where to draw it: .svg, .png or .pdf, by Graphviz's `dot`, or .dot; without it DOT text on standard output
        #[arg(short, long, value_name = "FILE")]
        output: Option<PathBuf>,
    },

    /// Write one HTML page with all of it, and with a database what loads drag in; it needs nothing else
    #[command(after_help = EXIT)]
    Page {
        /// The design's file, or - for standard input
        design: PathBuf,

        /// Where to write it; without it standard output
        #[arg(short, long, value_name = "FILE")]
        output: Option<PathBuf>,

        /// The database: sqlite:FILE or postgres:CONNINFO; without it the design's own, if it names one
        #[arg(long, value_name = "SOURCE")]
        source: Option<String>,

        /// Show what this value drags in, and no others but those given so; without it the database's lowest values
        #[arg(long, value_name = "LOAD=VALUE")]
        value: Vec<String>,

        /// Read no database: the page has nothing of its rows
        #[arg(long, conflicts_with_all = ["source", "value"])]
        no_source: bool,
    },

    /// Load values from the database: what each drags in, link by link
    #[command(after_help = TRIED)]
    Try {
        /// The design's file, or - for standard input
        design: PathBuf,

        /// What to load, one after the other: ward=W-NORD, or night=50000..50010
        #[arg(required = true, value_name = "LOAD=VALUE")]
        loads: Vec<String>,

        /// The database in place of the design's: sqlite:FILE or postgres:CONNINFO
        #[arg(long, value_name = "SOURCE")]
        source: Option<String>,

        /// Text for people, or a line of JSON for each load
        #[arg(long, value_name = "FORMAT", default_value = "text")]
        format: Format,
    },

    /// Ask the desk over the database: a shell on a terminal, otherwise a command to a line of standard input
    #[command(after_help = ASKED)]
    Ask {
        /// The design's file
        design: PathBuf,

        /// The database in place of the design's: sqlite:FILE or postgres:CONNINFO
        #[arg(long, value_name = "SOURCE")]
        source: Option<String>,

        /// Text for people, or a line of JSON for each command
        #[arg(long, value_name = "FORMAT", default_value = "text")]
        format: Format,
    },

    /// Tell what a change of a design adds and loses; with a database, what each load costs before and after
    #[command(
        after_help = "Exit status: 0 nothing got worse; 1 a knot came, a question is answered less often or not at all, or a load doesn't fit any more; 2 a design or the command is refused; 3 a file or the database can't be read."
    )]
    Diff {
        /// The design before
        old: PathBuf,

        /// The design after
        new: PathBuf,

        /// The database of which loads are tried: sqlite:FILE or postgres:CONNINFO
        #[arg(long, value_name = "SOURCE")]
        source: Option<String>,

        /// A value to be tried, ward=W-NORD; without any the lowest few of the database
        #[arg(long = "value", value_name = "LOAD=VALUE", requires = "source")]
        values: Vec<String>,

        /// Text for people, or a line of JSON for programs
        #[arg(long, value_name = "FORMAT", default_value = "text")]
        format: Format,
    },

    /// Write the bytes for `desk`: tables, constraints and fillings; with --rows the rows that loads need
    #[command(after_help = EXIT_OF_ROWS)]
    Script {
        /// The design's file, or - for standard input
        design: PathBuf,

        /// With --rows, what is loaded: ward=W-NORD, or night=50000..50010
        #[arg(value_name = "LOAD=VALUE", requires = "rows")]
        loads: Vec<String>,

        /// With the rows of the database that the loads need
        #[arg(long, requires = "loads")]
        rows: bool,

        /// The database in place of the design's: sqlite:FILE or postgres:CONNINFO
        #[arg(long, value_name = "SOURCE", requires = "rows")]
        source: Option<String>,

        /// Where to write them; without it standard output
        #[arg(short, long, value_name = "FILE")]
        output: Option<PathBuf>,
    },

    /// Show the page on a mistake, with an example; without a code list all of them
    Explain {
        /// The code, such as E012
        code: Option<String>,
    },

    /// Write a shell's completions for this program
    Completion {
        /// The shell
        shell: clap_complete::Shell,
    },
}

/// For whom the output is: people or programs.
#[derive(Clone, Copy, Debug, PartialEq, Eq, ValueEnum)]
#[allow(missing_docs)] // they would be part of the command line's help
pub enum Format {
    Text,
    Json,
}
