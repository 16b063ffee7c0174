//! The frame of a policy or book: how many events there are and how many values
//! each field has. It fixes the numbers of the requests and the codes of the steps.

/// The most events.
pub const MOST_EVENTS: usize = 8;
/// The most fields of a request.
pub const MOST_FIELDS: usize = 4;
/// The most values of a field.
pub const MOST_VALUES: usize = 16;
/// The most requests.
pub const MOST_REQUESTS: usize = 64;

/// The number of events, and of values of each field.
#[derive(Clone, Debug, PartialEq, Eq)]
pub struct Frame {
    pub events: usize,
    pub counts: Vec<usize>,
}

/// What a code stands for.
#[derive(Clone, Copy, Debug, PartialEq, Eq)]
pub enum Step {
    Event(usize),
    Decided { request: usize, accepted: bool },
}

impl Frame {
    /// The number of requests, Q.
    pub fn requests(&self) -> usize {
        self.counts.iter().product()
    }

    /// The number of codes, w.
    pub fn width(&self) -> usize {
        self.events + 2 * self.requests()
    }

    /// The frame in words.
    pub fn words(&self) -> String {
        let counts: Vec<String> = self.counts.iter().map(usize::to_string).collect();
        let fields = match &counts[..] {
            [one] => format!("1 field, of {one} values"),
            [first @ .., last] => format!("{} fields, of {} and {last} values", counts.len(), first.join(", ")),
            [] => "no field".to_string(),
        };
        match self.events {
            1 => format!("1 event and {fields}"),
            events => format!("{events} events and {fields}"),
        }
    }

    /// The value that a request has in each field.
    pub fn values(&self, request: usize) -> Vec<usize> {
        let mut rest = request;
        let mut values: Vec<usize> = self
            .counts
            .iter()
            .rev()
            .map(|count| {
                let value = rest % count;
                rest /= count;
                value
            })
            .collect();
        values.reverse();
        values
    }

    /// The number of the request that has these values.
    pub fn request(&self, values: &[usize]) -> usize {
        self.counts.iter().zip(values).fold(0, |number, (count, value)| number * count + value)
    }

    /// The step of a code below the width.
    pub fn step(&self, code: usize) -> Step {
        match code.checked_sub(self.events) {
            None => Step::Event(code),
            Some(rest) => Step::Decided { request: rest / 2, accepted: rest % 2 == 0 },
        }
    }

    /// The code of a step.
    pub fn code(&self, step: Step) -> usize {
        match step {
            Step::Event(event) => event,
            Step::Decided { request, accepted } => self.events + 2 * request + usize::from(!accepted),
        }
    }
}
