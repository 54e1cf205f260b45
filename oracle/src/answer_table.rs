//! The answers about offset tables: what is found in one, or the place of the layout that makes it.

use crate::offset_table::{answer_table, Finding, TableAnswer};
use crate::refusal::Refusal;
use crate::request_table::TableRequest;

pub fn table_answer(request: &TableRequest) -> Result<String, Refusal> {
    answer_table(&request.table, &request.question).map(text)
}

fn text(answer: TableAnswer) -> String {
    match answer {
        TableAnswer::Found(Finding::Sound) => "sound".to_string(),
        TableAnswer::Found(Finding::Outside { element }) => format!("outside {element}"),
        TableAnswer::Found(Finding::Shared { earlier, later }) => {
            format!("shared {earlier} {later}")
        }
        TableAnswer::Layout(place) => format!("layout {place}"),
    }
}
