//! Refusal numbers of the table in document 01 and of document 02, as far as the calls here give them.

#[derive(Clone, Copy, Debug, PartialEq, Eq)]
pub enum Refusal {
    Shape,
    Limit,
    /// Number 2 of a list that names a dimension twice, with the two places.
    Repeat {
        earlier: usize,
        later: usize,
    },
    Layout,
    /// Number 3 of a station that holds a layout twice, with the station and the two places.
    RepeatedLayout {
        station: usize,
        earlier: usize,
        later: usize,
    },
    PaddedSize,
    Outside,
    Length,
    Counts,
    Working,
    ShortBuffer,
    NoPlan,
    NoLayout,
}

impl Refusal {
    pub fn number(self) -> u32 {
        match self {
            Refusal::Shape => 1,
            Refusal::Limit | Refusal::Repeat { .. } => 2,
            Refusal::Layout | Refusal::RepeatedLayout { .. } => 3,
            Refusal::PaddedSize => 4,
            Refusal::Outside => 5,
            Refusal::Length => 6,
            Refusal::Counts => 7,
            Refusal::Working => 8,
            Refusal::ShortBuffer => 9,
            Refusal::NoPlan => 10,
            Refusal::NoLayout => 12,
        }
    }

    /// The answer: the number, and where a repeat is.
    pub fn text(self) -> String {
        let number = self.number();
        match self {
            Refusal::Repeat { earlier, later } => format!("refused {number} at {earlier} {later}"),
            Refusal::RepeatedLayout {
                station,
                earlier,
                later,
            } => format!("refused {number} at {station} {earlier} {later}"),
            _ => format!("refused {number}"),
        }
    }
}
