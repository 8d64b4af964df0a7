//! The database behind a design's file, opened in one snapshot.

use std::io::{self, Write};
use std::path::Path;

use source::{NotOpened, Source};

use crate::file::File;
use crate::output::{Page, When};
use crate::progress::Watched;
use crate::status::Status;

/// Opens the database that `--source` names, or else the design. Warnings and mistakes are told on standard error.
pub fn open(file: &File, argument: Option<&str>, color: When) -> Result<Box<dyn Source>, Status> {
    let Some(design) = file.design() else {
        unreachable!("the design was accepted");
    };
    let place = source::place(argument, design, Path::new(&file.name));
    let place = place.map_err(|message| told(Status::Refused, &message))?;
    match source::open(&place, design, &file.reading.spans) {
        Ok(opened) => {
            problems(file, &opened.warnings, color);
            Ok(Box::new(Watched::new(opened.source)))
        }
        Err(NotOpened::Unreadable(message)) => Err(told(Status::Unreadable, &message)),
        Err(NotOpened::Problems(found)) => {
            problems(file, &found, color);
            Err(Status::Refused)
        }
    }
}

/// Tells something on standard error. If that is closed, the status alone has to do.
pub fn told(status: Status, message: &str) -> Status {
    let _ = writeln!(io::stderr(), "wurzsige: {message}");
    status
}

fn problems(file: &File, problems: &[design::Problem], color: When) {
    let mut page = Page::for_errors(color);
    for problem in problems {
        page.problem(file, problem);
    }
    let _ = io::stderr().write_all(&page.into_bytes());
}
