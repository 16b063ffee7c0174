//! Reading a policy file of either version into decoded rules, with refusals 2
//! to 10 and 17, and writing decoded rules back into bytes.

use crate::frame::{counts_are_legal, Frame, MOST_EVENTS, MOST_FIELDS};
use crate::refusal::Refusal;
use crate::situation::count_valuations;

/// The greatest number of variables.
pub const MOST_VARIABLES: usize = 4;
/// The greatest number of rules.
pub const MOST_RULES: usize = 32;
/// The greatest number in a test.
pub const MOST_TEST: u8 = 63;
/// The greatest starting value.
pub const MOST_START: u8 = 63;
/// The greatest number of valuations.
pub const MOST_VALUATIONS: usize = 64;

const MARK: &[u8] = b"POL";
const HEADER_LENGTH: usize = 9;

/// The version of a policy file.
#[derive(Clone, Copy, Debug, PartialEq, Eq)]
pub enum Version {
    /// The file says nothing of starting values: all of them are 0.
    One,
    /// The file has a starting value for each variable, after the value counts.
    Two,
}

impl Version {
    /// The two bytes in the header.
    fn bytes(self) -> [u8; 2] {
        match self {
            Version::One => [0, 1],
            Version::Two => [0, 2],
        }
    }
}

/// What a rule or an event does to one variable.
#[derive(Clone, Copy, Debug, PartialEq, Eq)]
pub enum Change {
    /// The variable keeps its value.
    Keep,
    /// One is added, unless the variable is at its bound.
    AddOne,
    /// The variable becomes 0.
    SetToZero,
}

/// What a rule demands of one variable.
#[derive(Clone, Copy, Debug, Default, PartialEq, Eq)]
pub struct Test {
    /// The variable must be at least this, if given.
    pub at_least: Option<u8>,
    /// The variable must be below this, if given.
    pub below: Option<u8>,
}

/// One decoded rule.
#[derive(Clone, Debug, PartialEq, Eq)]
pub struct Rule {
    /// For each field, the mask of the values let through.
    pub masks: Vec<u16>,
    /// Whether the rule accepts; otherwise it rejects.
    pub accepts: bool,
    /// The level; a rule of a greater level goes before.
    pub level: u8,
    /// For each variable, its test.
    pub tests: Vec<Test>,
    /// For each variable, its change.
    pub changes: Vec<Change>,
}

/// A decoded policy.
#[derive(Clone, Debug, PartialEq, Eq)]
pub struct Policy {
    /// The version of the file.
    pub version: Version,
    /// The frame.
    pub frame: Frame,
    /// The number of variables, P.
    pub variables: usize,
    /// For each variable, its starting value as the file gives it, maybe above
    /// the bound; 0 in version 1.
    pub starts: Vec<u8>,
    /// The rules in the order of the file, maybe none.
    pub rules: Vec<Rule>,
    /// For each event, the change of each variable.
    pub events: Vec<Vec<Change>>,
}

/// The version and the four sizes that stand in the header.
struct Header {
    version: Version,
    events: usize,
    fields: usize,
    variables: usize,
    rules: usize,
}

impl Header {
    /// The number of starting values that the file has.
    fn starts(&self) -> usize {
        match self.version {
            Version::One => 0,
            Version::Two => self.variables,
        }
    }

    fn rule_length(&self) -> usize {
        2 * self.fields + 2 + 3 * self.variables
    }

    fn rules_length(&self) -> usize {
        self.rules * self.rule_length()
    }

    fn file_length(&self) -> usize {
        HEADER_LENGTH
            + self.fields
            + self.starts()
            + self.rules_length()
            + self.events * self.variables
    }
}

/// A rule's bytes taken apart, not yet judged.
struct RuleBytes {
    masks: Vec<u16>,
    decision: u8,
    level: u8,
    variables: Vec<[u8; 3]>,
}

/// Reads a policy file, or gives the first number that fits of 2, 3, 4, 5, 6,
/// 7, 17, 8, 9 and 10, which are judged in this order.
pub fn read(bytes: &[u8]) -> Result<Policy, Refusal> {
    let header = read_header(bytes)?;
    if bytes.len() != header.file_length() {
        return Err(Refusal::PolicyLength);
    }
    let (count_bytes, rest) = bytes[HEADER_LENGTH..].split_at(header.fields);
    let (start_bytes, table) = rest.split_at(header.starts());
    let (rule_table, event_table) = table.split_at(header.rules_length());
    let counts = read_counts(count_bytes)?;
    let starts = read_starts(start_bytes, &header)?;
    let rules: Vec<RuleBytes> = rule_table
        .chunks(header.rule_length())
        .map(|record| take_apart(record, header.fields))
        .collect();
    check_masks(&rules, &counts)?;
    let policy = Policy {
        version: header.version,
        frame: Frame {
            events: header.events,
            counts,
        },
        variables: header.variables,
        starts,
        rules: rules.iter().map(decode_rule).collect::<Result<_, _>>()?,
        events: (0..header.events)
            .map(|event| &event_table[event * header.variables..(event + 1) * header.variables])
            .map(decode_changes)
            .collect::<Result<_, _>>()?,
    };
    if count_valuations(&policy) > MOST_VALUATIONS {
        return Err(Refusal::Valuations);
    }
    Ok(policy)
}

/// Numbers 2 to 5.
fn read_header(bytes: &[u8]) -> Result<Header, Refusal> {
    if bytes.len() < HEADER_LENGTH {
        return Err(Refusal::PolicyShort);
    }
    if bytes[..3] != *MARK {
        return Err(Refusal::PolicyMark);
    }
    let header = Header {
        version: read_version(&bytes[3..5])?,
        events: bytes[5] as usize,
        fields: bytes[6] as usize,
        variables: bytes[7] as usize,
        rules: bytes[8] as usize,
    };
    let legal = header.events <= MOST_EVENTS
        && (1..=MOST_FIELDS).contains(&header.fields)
        && header.variables <= MOST_VARIABLES
        && header.rules <= MOST_RULES;
    if legal {
        Ok(header)
    } else {
        Err(Refusal::PolicySizes)
    }
}

/// Number 4.
fn read_version(bytes: &[u8]) -> Result<Version, Refusal> {
    [Version::One, Version::Two]
        .into_iter()
        .find(|version| version.bytes() == bytes)
        .ok_or(Refusal::PolicyVersion)
}

/// Number 7.
fn read_counts(bytes: &[u8]) -> Result<Vec<usize>, Refusal> {
    let counts: Vec<usize> = bytes.iter().map(|&count| count as usize).collect();
    if counts_are_legal(&counts) {
        Ok(counts)
    } else {
        Err(Refusal::PolicyCounts)
    }
}

/// Number 17. Version 1 reads as all zeros.
fn read_starts(bytes: &[u8], header: &Header) -> Result<Vec<u8>, Refusal> {
    if bytes.iter().any(|&start| start > MOST_START) {
        return Err(Refusal::PolicyStart);
    }
    Ok(match header.version {
        Version::One => vec![0; header.variables],
        Version::Two => bytes.to_vec(),
    })
}

fn take_apart(record: &[u8], fields: usize) -> RuleBytes {
    let (masks, rest) = record.split_at(2 * fields);
    RuleBytes {
        masks: masks
            .chunks(2)
            .map(|pair| u16::from_be_bytes([pair[0], pair[1]]))
            .collect(),
        decision: rest[0],
        level: rest[1],
        variables: rest[2..]
            .chunks(3)
            .map(|part| [part[0], part[1], part[2]])
            .collect(),
    }
}

/// Number 8, for every mask of every rule.
fn check_masks(rules: &[RuleBytes], counts: &[usize]) -> Result<(), Refusal> {
    for rule in rules {
        for (&mask, &count) in rule.masks.iter().zip(counts) {
            if mask == 0 || u32::from(mask) >= 1 << count {
                return Err(Refusal::PolicyMask);
            }
        }
    }
    Ok(())
}

/// Number 9 for a rule.
fn decode_rule(rule: &RuleBytes) -> Result<Rule, Refusal> {
    let accepts = match rule.decision {
        0 => false,
        1 => true,
        _ => return Err(Refusal::PolicyValue),
    };
    let mut tests = Vec::new();
    for &[at_least, below, _] in &rule.variables {
        tests.push(Test {
            at_least: decode_test(at_least)?,
            below: decode_test(below)?,
        });
    }
    let changes: Vec<u8> = rule.variables.iter().map(|part| part[2]).collect();
    Ok(Rule {
        masks: rule.masks.clone(),
        accepts,
        level: rule.level,
        tests,
        changes: decode_changes(&changes)?,
    })
}

fn decode_test(byte: u8) -> Result<Option<u8>, Refusal> {
    match byte {
        0 => Ok(None),
        1..=MOST_TEST => Ok(Some(byte)),
        _ => Err(Refusal::PolicyValue),
    }
}

fn decode_changes(bytes: &[u8]) -> Result<Vec<Change>, Refusal> {
    bytes
        .iter()
        .map(|byte| match byte {
            0 => Ok(Change::Keep),
            1 => Ok(Change::AddOne),
            2 => Ok(Change::SetToZero),
            _ => Err(Refusal::PolicyValue),
        })
        .collect()
}

/// Writes a decoded policy as a policy file of its version. Version 1 has no
/// place for the starting values.
pub fn write(policy: &Policy) -> Vec<u8> {
    let mut bytes = MARK.to_vec();
    bytes.extend(policy.version.bytes());
    bytes.push(policy.frame.events as u8);
    bytes.push(policy.frame.counts.len() as u8);
    bytes.push(policy.variables as u8);
    bytes.push(policy.rules.len() as u8);
    bytes.extend(policy.frame.counts.iter().map(|&count| count as u8));
    if policy.version == Version::Two {
        bytes.extend(&policy.starts);
    }
    for rule in &policy.rules {
        write_rule(rule, &mut bytes);
    }
    for changes in &policy.events {
        bytes.extend(changes.iter().map(|&change| change_byte(change)));
    }
    bytes
}

fn write_rule(rule: &Rule, bytes: &mut Vec<u8>) {
    for mask in &rule.masks {
        bytes.extend(mask.to_be_bytes());
    }
    bytes.push(u8::from(rule.accepts));
    bytes.push(rule.level);
    for (test, &change) in rule.tests.iter().zip(&rule.changes) {
        bytes.push(test.at_least.unwrap_or(0));
        bytes.push(test.below.unwrap_or(0));
        bytes.push(change_byte(change));
    }
}

fn change_byte(change: Change) -> u8 {
    match change {
        Change::Keep => 0,
        Change::AddOne => 1,
        Change::SetToZero => 2,
    }
}
