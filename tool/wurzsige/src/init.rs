//! `init`: a draft of a design from a database.

use source::Failure;

use crate::status::Status;

/// The draft's text, or how to end and why.
pub fn draft(argument: &str) -> Result<String, (Status, String)> {
    let place = source::given(argument).map_err(|message| (Status::Refused, message))?;
    source::draft(&place).map_err(|failure| match failure {
        Failure::Unreadable(why) => (Status::Unreadable, why),
        Failure::Unfit(why) => (Status::Refused, why),
    })
}
