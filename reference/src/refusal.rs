//! The numbers of the table "Where input is turned down", with those that later
//! requests added, and their meanings.

/// Why an input is turned down. The discriminant is the number of the row.
#[derive(Clone, Copy, Debug, PartialEq, Eq, PartialOrd, Ord, Hash)]
#[repr(u8)]
pub enum Refusal {
    /// A lent buffer is too small.
    Buffer = 1,
    /// The policy has fewer than 9 bytes.
    PolicyShort = 2,
    /// The policy does not begin with `POL`.
    PolicyMark = 3,
    /// The policy's version is neither 1 nor 2.
    PolicyVersion = 4,
    /// E, F, P or R is outside its range.
    PolicySizes = 5,
    /// The policy's length is not the one its sizes demand.
    PolicyLength = 6,
    /// A value count is outside 1 to 16, or there are over 64 requests.
    PolicyCounts = 7,
    /// A mask has no bit set, or one at or above its field's count.
    PolicyMask = 8,
    /// A decision, test or change is outside its values.
    PolicyValue = 9,
    /// There are over 64 valuations.
    Valuations = 10,
    /// Over 127 situations are reached.
    Situations = 11,
    /// The book has fewer than 12 bytes, or its mark or version is wrong.
    BookHead = 12,
    /// A size of the book is outside its range, or its length is wrong.
    BookSizes = 13,
    /// An entry of the book is above n, or 0 for an event.
    BookEntry = 14,
    /// The frames of the two books differ.
    Frames = 15,
    /// The opened book's state, the request or the code is outside its range,
    /// or the step is not possible.
    Walk = 16,
    /// A starting value is above 63; judged after 7 and before 8.
    PolicyStart = 17,
    /// The outcome asked for is above 3; judged after 14 and before 16.
    Outcome = 18,
}

impl Refusal {
    /// Every refusal, in the order of the numbers.
    pub const ALL: [Refusal; 18] = [
        Refusal::Buffer,
        Refusal::PolicyShort,
        Refusal::PolicyMark,
        Refusal::PolicyVersion,
        Refusal::PolicySizes,
        Refusal::PolicyLength,
        Refusal::PolicyCounts,
        Refusal::PolicyMask,
        Refusal::PolicyValue,
        Refusal::Valuations,
        Refusal::Situations,
        Refusal::BookHead,
        Refusal::BookSizes,
        Refusal::BookEntry,
        Refusal::Frames,
        Refusal::Walk,
        Refusal::PolicyStart,
        Refusal::Outcome,
    ];

    /// The number of the row.
    pub fn number(self) -> u8 {
        self as u8
    }

    /// The row in words.
    pub fn meaning(self) -> &'static str {
        match self {
            Refusal::Buffer => "a lent buffer is too small",
            Refusal::PolicyShort => "the policy has fewer than 9 bytes",
            Refusal::PolicyMark => "the policy does not begin with the mark POL",
            Refusal::PolicyVersion => "the policy's version is neither 1 nor 2",
            Refusal::PolicySizes => {
                "the number of events, fields, variables or rules is outside its range"
            }
            Refusal::PolicyLength => "the policy's length does not follow from its sizes",
            Refusal::PolicyCounts => {
                "a value count is outside 1 to 16, or there are over 64 requests"
            }
            Refusal::PolicyMask => "a mask is empty or has a bit at or above its field's count",
            Refusal::PolicyValue => "a decision, test or change is outside its values",
            Refusal::Valuations => "there are over 64 valuations",
            Refusal::Situations => "over 127 situations are reached",
            Refusal::BookHead => "the book has fewer than 12 bytes, or its mark or version is wrong",
            Refusal::BookSizes => {
                "a size of the book is outside its range, or its length does not follow from its sizes"
            }
            Refusal::BookEntry => "an entry of the book is above its number of states, or 0 for an event",
            Refusal::Frames => "the frames of the two books differ",
            Refusal::Walk => {
                "the state, request or code is outside its range, or the step is not possible"
            }
            Refusal::PolicyStart => "a starting value is above 63",
            Refusal::Outcome => "the outcome is above 3",
        }
    }
}
