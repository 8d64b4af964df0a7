//! Where the database is: as the command line or the design says.

use std::path::Path;

use design::{Design, Source, SourceKind};

/// The database that a command works on: `--source`'s, or else the design's, whose file of SQLite stands relative to the folder of the design's file.
pub fn place(argument: Option<&str>, design: &Design, file: &Path) -> Result<Source, String> {
    if let Some(argument) = argument {
        return given(argument);
    }
    match &design.source {
        Some(source) => Ok(beside(source, file)),
        None => Err("the design names no database: write `source sqlite \"FILE\"` or `source postgres \"CONNINFO\"`, or give --source".into()),
    }
}

/// What the command line calls a database: `sqlite:FILE` or `postgres:CONNINFO`.
pub fn given(argument: &str) -> Result<Source, String> {
    let wrong = || format!("`{argument}` is no database: write sqlite:FILE or postgres:CONNINFO");
    // a URI of PostgreSQL is a conninfo as it stands
    if argument.starts_with("postgres://") || argument.starts_with("postgresql://") {
        return Ok(Source {
            kind: SourceKind::Postgres,
            place: argument.into(),
        });
    }
    let (name, place) = argument.split_once(':').ok_or_else(wrong)?;
    let mut kinds = SourceKind::ALL.into_iter();
    let kind = kinds.find(|kind| kind.name() == name).ok_or_else(wrong)?;
    if kind == SourceKind::Sqlite && place.is_empty() {
        return Err(wrong());
    }
    Ok(Source {
        kind,
        place: place.into(),
    })
}

fn beside(source: &Source, file: &Path) -> Source {
    let place = match (source.kind, file.parent()) {
        (SourceKind::Sqlite, Some(folder)) => folder.join(&source.place).display().to_string(),
        _ => source.place.clone(),
    };
    Source {
        kind: source.kind,
        place,
    }
}

#[cfg(test)]
mod tests {
    use super::*;

    fn source(kind: SourceKind, place: &str) -> Source {
        Source {
            kind,
            place: place.into(),
        }
    }

    #[test]
    fn the_command_line_names_a_kind_and_a_place() {
        use SourceKind::{Postgres, Sqlite};
        for (argument, kind, place) in [
            ("sqlite:lab.db", Sqlite, "lab.db"),
            ("sqlite:a:b", Sqlite, "a:b"),
            ("postgres:service=agnes", Postgres, "service=agnes"),
            ("postgres:", Postgres, ""),
            ("postgres://host/lab", Postgres, "postgres://host/lab"),
            ("postgresql:///lab", Postgres, "postgresql:///lab"),
        ] {
            assert_eq!(given(argument), Ok(source(kind, place)), "{argument}");
        }
        for wrong in ["lab.db", "sqlite:", "mysql:lab", ""] {
            assert!(given(wrong).is_err(), "{wrong}");
        }
    }

    #[test]
    fn a_designs_file_of_sqlite_stands_beside_the_design() {
        let mut design = Design::default();
        let file = Path::new("labs/agnes.design");
        assert!(place(None, &design, file).is_err());
        design.source = Some(source(SourceKind::Sqlite, "lab.db"));
        let found = place(None, &design, file);
        assert_eq!(found, Ok(source(SourceKind::Sqlite, "labs/lab.db")));
        let found = place(Some("sqlite:other.db"), &design, file);
        assert_eq!(found, Ok(source(SourceKind::Sqlite, "other.db")));
        design.source = Some(source(SourceKind::Sqlite, "/var/lab.db"));
        let found = place(None, &design, file);
        assert_eq!(found, Ok(source(SourceKind::Sqlite, "/var/lab.db")));
        design.source = Some(source(SourceKind::Postgres, "service=agnes"));
        let found = place(None, &design, file);
        assert_eq!(found, Ok(source(SourceKind::Postgres, "service=agnes")));
    }
}
