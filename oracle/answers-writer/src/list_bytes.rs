//! A list of calls and questions in bytes, as crate `replay` takes it: the settings' length and the settings, which are the number
//! of terms and the version; how many calls and how many questions, the calls, the questions. Each begins with its tag; a byte string
//! has its length in front.

use model::rust::Block;
use model::version::Version;

/// `replay`'s own numbers: the bytes aren't a list; the answers have no room.
pub const NO_LIST: u64 = 101;
pub const NO_ROOM: u64 = 102;

#[derive(Clone, Debug, PartialEq)]
pub enum Call {
    Add(Block, Vec<u8>),
    Shorten(Vec<u8>),
}

#[derive(Clone, Debug, PartialEq)]
pub enum Question {
    Id(u64),
    Ordinal(u64),
    Key(Vec<u8>),
    Address(Vec<u8>),
    Separator(u64),
    Mark(u64, Vec<u8>),
}

/// Bytes of the settings: the number of terms and the version.
pub const SETTINGS_LEN: u32 = 16;

/// What a list's index is finished and opened with.
#[derive(Clone, Copy, Debug, PartialEq)]
pub struct Settings {
    /// any number, of which two are versions
    pub version: u64,
    pub terms: u64,
}

impl Settings {
    pub fn of(version: Version, terms: u64) -> Settings {
        let version = version.number();
        Settings { version, terms }
    }
}

/// What the bytes say.
#[derive(Clone, Debug, PartialEq)]
pub struct List {
    pub settings: Settings,
    pub calls: Vec<Call>,
    pub questions: Vec<Question>,
}

pub fn encode(settings: Settings, calls: &[Call], questions: &[Question]) -> Vec<u8> {
    let counts = [calls.len() as u32, questions.len() as u32];
    let mut bytes = SETTINGS_LEN.to_le_bytes().to_vec();
    bytes.extend(settings.terms.to_le_bytes());
    bytes.extend(settings.version.to_le_bytes());
    bytes.extend(counts.map(u32::to_le_bytes).concat());
    bytes.extend(calls.iter().flat_map(call_bytes));
    bytes.extend(questions.iter().flat_map(question_bytes));
    let list = List {
        settings,
        calls: calls.to_vec(),
        questions: questions.to_vec(),
    };
    assert_eq!(decode(&bytes), Some(list), "a list isn't read back");
    bytes
}

fn item(tag: u8, numbers: &[u64], string: Option<&[u8]>) -> Vec<u8> {
    let mut bytes = vec![tag];
    bytes.extend(numbers.iter().flat_map(|number| number.to_le_bytes()));
    if let Some(string) = string {
        bytes.extend((string.len() as u32).to_le_bytes());
        bytes.extend(string);
    }
    bytes
}

fn call_bytes(call: &Call) -> Vec<u8> {
    match call {
        Call::Add(block, key) => item(0, &[block.start, block.end, block.ord], Some(key)),
        Call::Shorten(next) => item(1, &[], Some(next)),
    }
}

fn question_bytes(question: &Question) -> Vec<u8> {
    match question {
        Question::Id(id) => item(2, &[*id], None),
        Question::Ordinal(ord) => item(3, &[*ord], None),
        Question::Key(key) => item(4, &[], Some(key)),
        Question::Address(key) => item(5, &[], Some(key)),
        Question::Separator(id) => item(6, &[*id], None),
        Question::Mark(block, table) => item(7, &[*block], Some(table)),
    }
}

/// The list, if the bytes are one and nothing else.
pub fn decode(bytes: &[u8]) -> Option<List> {
    let mut rest = bytes;
    if small(&mut rest)? != SETTINGS_LEN {
        return None;
    }
    let terms = number(&mut rest)?;
    let version = number(&mut rest)?;
    let counts = (small(&mut rest)?, small(&mut rest)?);
    // a count is beyond the bytes at the first item that isn't there, so nothing is set aside for it
    let mut calls = Vec::new();
    for _ in 0..counts.0 {
        calls.push(take_call(&mut rest)?);
    }
    let mut questions = Vec::new();
    for _ in 0..counts.1 {
        questions.push(take_question(&mut rest)?);
    }
    rest.is_empty().then_some(List {
        settings: Settings { version, terms },
        calls,
        questions,
    })
}

fn take<'a>(rest: &mut &'a [u8], count: usize) -> Option<&'a [u8]> {
    let (front, behind) = rest.split_at_checked(count)?;
    *rest = behind;
    Some(front)
}

fn small(rest: &mut &[u8]) -> Option<u32> {
    Some(u32::from_le_bytes(take(rest, 4)?.try_into().unwrap()))
}

fn number(rest: &mut &[u8]) -> Option<u64> {
    Some(u64::from_le_bytes(take(rest, 8)?.try_into().unwrap()))
}

fn string(rest: &mut &[u8]) -> Option<Vec<u8>> {
    let length = small(rest)?;
    Some(take(rest, length as usize)?.to_vec())
}

fn take_call(rest: &mut &[u8]) -> Option<Call> {
    match take(rest, 1)?[0] {
        0 => {
            let (start, end, ord) = (number(rest)?, number(rest)?, number(rest)?);
            Some(Call::Add(Block { start, end, ord }, string(rest)?))
        }
        1 => Some(Call::Shorten(string(rest)?)),
        _ => None,
    }
}

fn take_question(rest: &mut &[u8]) -> Option<Question> {
    match take(rest, 1)?[0] {
        2 => Some(Question::Id(number(rest)?)),
        3 => Some(Question::Ordinal(number(rest)?)),
        4 => Some(Question::Key(string(rest)?)),
        5 => Some(Question::Address(string(rest)?)),
        6 => Some(Question::Separator(number(rest)?)),
        7 => Some(Question::Mark(number(rest)?, string(rest)?)),
        _ => None,
    }
}
