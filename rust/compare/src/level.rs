//! Levels of the desk: what it answered before a request of document 02.

use notation::{split, Piece};
use reference::design::LONGEST_SCRIPT;

use crate::desk::Reply;
use crate::replay::Replay;

/// The requests that scripts may use.
#[derive(Clone, Copy, Debug, PartialEq, Eq)]
pub struct Level {
    /// The first one that they may not.
    before: u32,
}

impl Level {
    /// All requests there are.
    pub const NOW: Level = Level { before: u32::MAX };

    /// The requests before a number.
    pub fn before(request: u32) -> Level {
        Level { before: request }
    }

    /// Whether scripts may use the request with this number; 0 is document 01.
    pub fn has(self, request: u32) -> bool {
        request < self.before
    }

    /// The script without what it must not use: a desk of this level and any
    /// later one answer the same on what is left. One that is too long isn't read
    /// by any, and stays as it is.
    pub fn script(self, script: Vec<u8>) -> Vec<u8> {
        if self == Level::NOW || script.len() > LONGEST_SCRIPT {
            return script;
        }
        let mut pieces = split(&script);
        pieces.retain(|piece| self.has(request_of(piece)));
        let script: Vec<u8> = pieces.iter().flat_map(Piece::bytes).collect();
        without(&script, |replay| {
            !self.has(7) && replay.is_at_limit() || !self.has(2) && replay.fetches()
        })
    }

    /// A reply as a desk of this level gives it: before request 4 there are no
    /// rows behind a ground.
    pub fn reply(self, reply: Reply) -> Reply {
        match reply {
            Reply::Report(report) if !self.has(4) => Reply::Report(without_rows(&report)),
            reply => reply,
        }
    }
}

/// The request that a piece's command came with, even if it is cut short.
fn request_of(piece: &Piece) -> u32 {
    match piece.bytes().first() {
        Some(0x14) => 1,
        Some(0x15) => 3,
        Some(0x07 | 0x20..=0x23 | 0x25) => 6,
        Some(0x17) => 7,
        Some(0x18) => 8,
        Some(0x19) => 9,
        Some(0x1a | 0x1b) => 10,
        Some(0x1c) => 11,
        Some(0x1d | 0x1e) => 12,
        _ => 0,
    }
}

/// The script without the commands for which something is so where they stand.
fn without(script: &[u8], is_out: impl Fn(&Replay) -> bool) -> Vec<u8> {
    let Some(mut replay) = Replay::new(script) else {
        return script.to_vec();
    };
    let mut kept = script[..replay.place()].to_vec();
    while replay.command().is_some() {
        let place = replay.place();
        if is_out(&replay) {
            replay.skip();
        } else {
            replay.perform();
            kept.extend(&script[place..replay.place()]);
        }
    }
    kept.extend(&script[replay.place()..]);
    kept
}

/// The report without the number of rows behind each ground.
fn without_rows(report: &[u8]) -> Vec<u8> {
    let cut = |line: &[u8]| {
        let words: Vec<&[u8]> = line.split(|&byte| byte == b' ').collect();
        match words[..] {
            [number, b"ground", ground, _] => [number, b"ground", ground].join(&b' '),
            _ => line.to_vec(),
        }
    };
    let lines: Vec<Vec<u8>> = report.split(|&byte| byte == b'\n').map(cut).collect();
    lines.join(&b'\n')
}

#[cfg(test)]
mod tests {
    use super::*;
    use crate::generate;
    use notation::{assemble, disassemble};

    #[test]
    fn only_queries_that_refer_are_taken_out() {
        let text = "table 1\ntable 1\nconstraint 0.0 -> 1.0\nfilling 0.0 1..9\nrow 0 1\nend\n\
            query 0.0 = 1\nquery 0.0 = 10\nquery 1.0 = 1\neven\nrefer 0 1\nquery 0.0 = 1\n\
            query 0.0 = 2\nquery 1.0 = 1\nquery 0.0 = 0\nbytes 0xff\n";
        let left = text
            .replacen("query 0.0 = 1\n", "", 1)
            .replace("query 0.0 = 2\n", "");
        let script = assemble(text).expect("a right text");
        let script = Level::before(2).script(script);
        assert_eq!(disassemble(&script), left);
        let script = Level::before(1).script(script);
        assert_eq!(disassemble(&script), left.replace("even\n", ""));
    }

    #[test]
    fn an_undone_reference_is_one_too() {
        let rows = "row 0 1\n".repeat(50) + &"row 1 1\n".repeat(41);
        let design = "table 1\ntable 1\nconstraint 0.0 -> 1.0\nfilling 0.0 1..9\n";
        let text = format!("{design}{rows}end\nquery 0.0 = 1 join 0 by 0\nprobe 0.0 = 1\n");
        let script = assemble(&text).expect("a right text");
        assert!(reference::report(&script).ends_with("0 refused 11 3117\n1 sent\n"));
        let script = Level::before(2).script(script);
        assert!(reference::report(&script).ends_with("\n0 sent\n"));
    }

    #[test]
    fn totals_are_taken_out_wherever_they_stand() {
        let total = "total 0.0 = 1 of 0 column 0\n";
        let text = format!("table 1\n{total}end\n{total}probe 0.0 = 1\nbytes 0x15 0x00\n");
        let script = assemble(&text).expect("a right text");
        assert_eq!(Level::before(4).script(script.clone()), script);
        let script = Level::before(3).script(script);
        assert_eq!(disassemble(&script), "table 1\nend\nprobe 0.0 = 1\n");
    }

    #[test]
    fn commands_with_issues_are_taken_out() {
        let text = "table 1\nfilling 0.0 1..9\nrow 0 7\nrow 0 7#1\nrow 0 8\nend\n\
            refer 0 7#1\nprobe 0.0 = 7#0\nrefer 0 8\nbytes 0x23 0x00\n";
        let left = "table 1\nfilling 0.0 1..9\nrow 0 7\nrow 0 8\nend\nrefer 0 8\n";
        let script = assemble(text).expect("a right text");
        assert_eq!(Level::before(7).script(script.clone()), script);
        assert_eq!(disassemble(&Level::before(6).script(script)), left);
    }

    /// From 64 held values to 16: what has no room for a 17th has to go, since it was
    /// loaded before.
    #[test]
    fn what_meets_the_limit_of_a_desk_is_taken_out() {
        let loads: String = (1..=18).map(|value| format!("refer 0 {value}\n")).collect();
        let design = "table 1\nfilling 0.0 1..90\nend\n";
        let text = format!(
            "{design}{loads}desk 1\nrefer 0 3\nquery 0.0 = 20\nquery 0.0 = 91\n\
             total 0.0 = 20 of 0 column 0\nrefer 0 17\ndrop 0 2\nrefer 0 18\n"
        );
        let script = assemble(&text).expect("a right text");
        let left = Level::before(7).script(script.clone());
        let loads: String = (1..=16).map(|value| format!("refer 0 {value}\n")).collect();
        let rest = "refer 0 3\nquery 0.0 = 91\ndrop 0 2\nrefer 0 18\n";
        assert_eq!(disassemble(&left), format!("{design}{loads}{rest}"));
        assert_eq!(Level::before(8).script(script.clone()), script);
    }

    #[test]
    fn reports_are_taken_out_by_their_requests() {
        let text = "end\neven\nreason 0\nopener 0.0 = 1\nhold 0 1..2\nrelease 0 1..2\nknot\n\
            put 0 0\ntake 0\n";
        let before_12 = text.replace("put 0 0\ntake 0\n", "");
        let before_11 = before_12.replace("knot\n", "");
        let script = assemble(&format!("{text}end\n")).expect("a right text");
        for (request, left) in [
            (13, text),
            (12, &before_12),
            (11, &before_11),
            (10, "end\neven\nreason 0\nopener 0.0 = 1\n"),
            (9, "end\neven\nreason 0\n"),
            (8, "end\neven\n"),
            (1, "end\n"),
        ] {
            let script = Level::before(request).script(script.clone());
            assert_eq!(disassemble(&script), format!("{left}end\n"));
        }
    }

    #[test]
    fn rows_behind_a_ground_are_taken_out_of_replies() {
        let report = |text: &str| Reply::Report(text.into());
        let now = report("design 1 0 1 2\n0 ground 1 2\n1 answer 1\n0 1 2 3\n2 ground 2 0\n");
        let before = report("design 1 0 1 2\n0 ground 1\n1 answer 1\n0 1 2 3\n2 ground 2\n");
        assert_eq!(Level::before(5).reply(now.clone()), now);
        assert_eq!(Level::before(4).reply(now), before);
        assert_eq!(Level::before(4).reply(before.clone()), before);
        assert_eq!(Level::before(4).reply(Reply::Failed(1)), Reply::Failed(1));
    }

    #[test]
    fn refused_designs_and_the_last_level_stay_as_they_are() {
        for number in 0..500 {
            let script = generate::script(4, number);
            assert_eq!(Level::NOW.script(script.clone()), script);
            let script = Level::before(3).script(script);
            if Replay::new(&script).is_none() {
                let before = Level::before(2).script(script.clone());
                assert_eq!(before, script);
            }
        }
    }

    #[test]
    fn nothing_is_referred_by_what_is_left() {
        let mut taken_out = 0;
        for number in 0..1_000 {
            let script = generate::script(4, number);
            let left = Level::before(2).script(script.clone());
            taken_out += usize::from(left != script);
            let Some(mut replay) = Replay::new(&left) else {
                continue;
            };
            while replay.command().is_some() {
                assert!(!replay.fetches(), "{}", disassemble(&left));
                replay.perform();
            }
        }
        assert!(taken_out > 200, "{taken_out}");
    }
}
