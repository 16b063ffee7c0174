//! The names of events, fields, values and variables, and steps, requests and
//! histories said by them.

use crate::frame::{Frame, Step};
use crate::notation::quoted;

/// A field of a request: its name, and those of its values.
#[derive(Clone, Debug, PartialEq, Eq)]
pub struct Field {
    pub name: String,
    pub values: Vec<String>,
}

/// The names that a text declares, or made-up ones.
#[derive(Clone, Debug, Default, PartialEq, Eq)]
pub struct Names {
    pub events: Vec<String>,
    pub fields: Vec<Field>,
    pub variables: Vec<String>,
}

impl Names {
    /// Events `e0`, `e1`, ..; fields `a` to `d` with the values `a0`, `a1`, ..;
    /// variables `v0`, `v1`, .. The numbers are those that stand in the bytes.
    pub fn made_up(frame: &Frame, variables: usize) -> Names {
        let numbered = |letter: char, count: usize| -> Vec<String> {
            (0..count).map(|number| format!("{letter}{number}")).collect()
        };
        let fields = frame
            .counts
            .iter()
            .zip('a'..)
            .map(|(&count, letter)| Field { name: letter.to_string(), values: numbered(letter, count) });
        Names { events: numbered('e', frame.events), fields: fields.collect(), variables: numbered('v', variables) }
    }

    /// The frame that these names are for.
    pub fn frame(&self) -> Frame {
        Frame { events: self.events.len(), counts: self.fields.iter().map(|field| field.values.len()).collect() }
    }

    /// An event's name, as it is written in a text.
    pub fn event(&self, event: usize) -> String {
        quoted(&self.events[event])
    }

    /// A request: the names of its values, one blank apart.
    pub fn request(&self, request: usize) -> String {
        let values = self.frame().values(request);
        let names: Vec<String> =
            self.fields.iter().zip(values).map(|(field, value)| quoted(&field.values[value])).collect();
        names.join(" ")
    }

    /// A step: an event's name, or a request and what was decided.
    pub fn step(&self, code: usize) -> String {
        match self.frame().step(code) {
            Step::Event(event) => self.event(event),
            Step::Decided { request, accepted } => {
                let decided = if accepted { "accepted" } else { "rejected" };
                format!("{} {decided}", self.request(request))
            }
        }
    }

    /// Whether an event or a value has this name.
    pub fn has(&self, name: &str) -> bool {
        let values = self.fields.iter().flat_map(|field| &field.values);
        self.events.iter().chain(values).any(|other| other == name)
    }

    /// A history: its steps, a repeated one said once with the number of times.
    pub fn history(&self, codes: &[u8]) -> String {
        let steps: Vec<String> = codes
            .chunk_by(|one, next| one == next)
            .map(|run| {
                let step = self.step(usize::from(run[0]));
                match run.len() {
                    1 => step,
                    2 if !self.has("twice") => format!("{step} twice"),
                    times => format!("{step} {times} times"),
                }
            })
            .collect();
        steps.join(", ")
    }
}
