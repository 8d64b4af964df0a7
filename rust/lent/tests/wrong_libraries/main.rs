//! Libraries that are right but for one thing: the comparison has to find it.

mod answers;
mod catalogs;
mod states;
mod wrong;

use wrong::{find, Wrong};

#[test]
fn a_library_without_a_fault_differs_nowhere() {
    assert!(find(&Wrong::default()).is_none());
}

#[test]
fn a_difference_tells_what_is_needed_to_see_it() {
    let difference = find(&Wrong {
        overlooks: |lent| {
            lent.marks
                .iter_mut()
                .for_each(|mark| *mark = (*mark).min(1))
        },
        ..Wrong::default()
    });
    let text = difference.expect("a difference").to_string();
    for part in [
        "bytes leave:\n",
        "\nchange: ",
        "\nflaw: a mark above 1\n",
        "\na wrong library: ",
        "\nthe second implementation: ",
        "\nmemory: ",
    ] {
        assert!(text.contains(part), "{part}\nis not in\n{text}");
    }
}
