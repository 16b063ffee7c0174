//! The frame: the number of events and the value counts of the fields.
//! Requests and codes are numbered by it.

/// The greatest number of events.
pub const MOST_EVENTS: usize = 8;
/// The greatest number of fields.
pub const MOST_FIELDS: usize = 4;
/// The greatest number of values of a field.
pub const MOST_VALUES: usize = 16;
/// The greatest number of requests.
pub const MOST_REQUESTS: usize = 64;

/// What two books must share to be compared.
#[derive(Clone, Debug, PartialEq, Eq)]
pub struct Frame {
    /// The number of events, E.
    pub events: usize,
    /// The number of values of each field, one entry for each of the F fields.
    pub counts: Vec<usize>,
}

impl Frame {
    /// Q, the number of requests.
    pub fn requests(&self) -> usize {
        self.counts.iter().product()
    }

    /// w, the number of codes: one for each event, two for each request.
    pub fn width(&self) -> usize {
        self.events + 2 * self.requests()
    }

    /// The code of the step in which `request` is accepted.
    pub fn accept_code(&self, request: usize) -> usize {
        self.events + 2 * request
    }

    /// The code of the step in which `request` is rejected.
    pub fn reject_code(&self, request: usize) -> usize {
        self.events + 2 * request + 1
    }

    /// The number of the request that has these values.
    pub fn request_with(&self, values: &[usize]) -> usize {
        let mut request = 0;
        for (count, value) in self.counts.iter().zip(values) {
            request = request * count + value;
        }
        request
    }

    /// The values of a request, one for each field.
    pub fn values_of(&self, request: usize) -> Vec<usize> {
        let mut rest = request;
        let mut values = vec![0; self.counts.len()];
        for field in (0..self.counts.len()).rev() {
            values[field] = rest % self.counts[field];
            rest /= self.counts[field];
        }
        values
    }
}

/// Whether each count is 1 to 16 and their product is at most 64.
pub fn counts_are_legal(counts: &[usize]) -> bool {
    counts
        .iter()
        .all(|&count| (1..=MOST_VALUES).contains(&count))
        && counts.iter().product::<usize>() <= MOST_REQUESTS
}
