//! Steps and histories in words, with names for the events and requests.

use crate::frame::Frame;

/// The names of a frame's events and requests.
pub struct Names {
    events: Vec<String>,
    requests: Vec<String>,
}

impl Names {
    /// `event 0`, `event 1`, .., `request 0`, `request 1`, ..
    pub fn plain(frame: &Frame) -> Names {
        Names {
            events: (0..frame.events).map(|e| format!("event {e}")).collect(),
            requests: (0..frame.requests())
                .map(|r| format!("request {r}"))
                .collect(),
        }
    }

    /// These names, first of the events, then of the requests; nothing if there
    /// are more or fewer than events and requests.
    pub fn given(frame: &Frame, names: &[&str]) -> Option<Names> {
        if names.len() != frame.events + frame.requests() {
            return None;
        }
        let names: Vec<String> = names.iter().map(|name| name.to_string()).collect();
        let (events, requests) = names.split_at(frame.events);
        Some(Names {
            events: events.to_vec(),
            requests: requests.to_vec(),
        })
    }

    /// The name of a request.
    pub fn request(&self, request: usize) -> &str {
        &self.requests[request]
    }

    /// The name of an event.
    pub fn event(&self, event: usize) -> &str {
        &self.events[event]
    }

    /// A step in words: an event's name, or a request's and what was decided.
    pub fn step(&self, code: usize) -> String {
        match code.checked_sub(self.events.len()) {
            None => self.events[code].clone(),
            Some(rest) => {
                let decided = ["accepted", "rejected"][rest % 2];
                format!("{} {decided}", self.requests[rest / 2])
            }
        }
    }

    /// The steps of a history, separated by commas.
    pub fn history(&self, history: &[u8]) -> String {
        let steps: Vec<String> = history
            .iter()
            .map(|&code| self.step(code as usize))
            .collect();
        steps.join(", ")
    }
}
