//! How UUIDs, dates and timestamps are written, where a database keeps them as text.

/// Whether a text is digits with other characters at their places: `0` stands for a digit, `f` for a hexadecimal one.
fn is_like(text: &str, form: &str) -> bool {
    let mut form = form.chars();
    let fits = text.chars().all(|character| match form.next() {
        Some('0') => character.is_ascii_digit(),
        Some('f') => character.is_ascii_hexdigit(),
        other => other == Some(character),
    });
    fits && form.next().is_none()
}

/// A UUID in five groups.
pub(crate) fn is_uuid(text: &str) -> bool {
    is_like(text, "ffffffff-ffff-ffff-ffff-ffffffffffff")
}

/// A date of ISO 8601.
pub(crate) fn is_date(text: &str) -> bool {
    is_like(text, "0000-00-00")
}

/// A date and time of ISO 8601, with a blank or T between them; seconds, their fraction and a zone may follow.
pub(crate) fn is_timestamp(text: &str) -> bool {
    let Some((date, time)) = text.split_once([' ', 'T']) else {
        return false;
    };
    let zone = time.find(['Z', '+', '-']).unwrap_or(time.len());
    let (time, zone) = time.split_at(zone);
    is_date(date) && is_time(time) && is_zone(zone)
}

fn is_time(time: &str) -> bool {
    let (seconds, fraction) = time.split_once('.').unwrap_or((time, "0"));
    let whole = is_like(seconds, "00:00:00") || (is_like(seconds, "00:00") && !time.contains('.'));
    whole && !fraction.is_empty() && fraction.bytes().all(|byte| byte.is_ascii_digit())
}

fn is_zone(zone: &str) -> bool {
    let hours = zone.strip_prefix(['+', '-']);
    let forms = ["00", "0000", "00:00"];
    matches!(zone, "" | "Z")
        || hours.is_some_and(|hours| forms.iter().any(|form| is_like(hours, form)))
}

#[cfg(test)]
mod tests {
    use super::{is_date, is_timestamp, is_uuid};

    #[test]
    fn uuids() {
        assert!(is_uuid("5d0c1f7a-0000-4000-8000-00000000ABCD"));
        for wrong in [
            "",
            "5d0c1f7a00004000800000000000abcd",
            "5d0c1f7a-0000-4000-8000-00000000abcg",
            "5d0c1f7a-0000-4000-8000-00000000abcd0",
        ] {
            assert!(!is_uuid(wrong), "{wrong}");
        }
    }

    #[test]
    fn dates_and_timestamps() {
        assert!(is_date("2025-03-08"));
        for wrong in ["2025-3-8", "08.03.2025", "2025-03-08 ", "20250308"] {
            assert!(!is_date(wrong), "{wrong}");
        }
        for right in [
            "2025-03-08 22:00",
            "2025-03-08T22:00:00",
            "2025-03-08 22:00:00.125",
            "2025-03-08 22:00:00Z",
            "2025-03-08 22:00:00+01",
            "2025-03-08 22:00-0530",
            "2025-03-08T22:00:00.5+05:30",
        ] {
            assert!(is_timestamp(right), "{right}");
        }
        for wrong in [
            "2025-03-08",
            "2025-03-08 22",
            "2025-03-08 22:00.5",
            "2025-03-08 22:00:00.",
            "2025-03-08 22:00:00+1",
            "2025-03-08 22:00:00 CET",
        ] {
            assert!(!is_timestamp(wrong), "{wrong}");
        }
    }
}
