//! Protobuf reflection in process: schemas from sources or descriptor sets, and messages of a type that is named at run time.
//!
//! `tools/c_library` of the repository builds the archive that this is linked with.

use std::fmt;

/// What the library holds of a schema: `matzupol_schema` of `matzupol.h`.
#[repr(C)]
struct Slot {
    at: *mut u8,
    full: bool,
}

#[repr(C)]
#[derive(Default)]
struct PlaceAt {
    line: usize,
    column: usize,
}

unsafe extern "C" {
    fn matzupol_unchecked_open(schema: &mut Slot) -> u32;
    fn matzupol_unchecked_close(schema: &mut Slot);
    fn matzupol_unchecked_source(schema: &mut Slot, name: *const u8, name_len: usize, text: *const u8, text_len: usize) -> u32;
    fn matzupol_unchecked_link(schema: &mut Slot) -> u32;
    fn matzupol_unchecked_forget(schema: &mut Slot) -> u32;
    fn matzupol_unchecked_add_set(schema: &mut Slot, set: *const u8, set_len: usize) -> u32;
    fn matzupol_unchecked_set(schema: &mut Slot) -> u32;
    fn matzupol_unchecked_encode(schema: &mut Slot, name: *const u8, name_len: usize, text: *const u8, text_len: usize) -> u32;
    fn matzupol_unchecked_decode(schema: &mut Slot, name: *const u8, name_len: usize, bytes: *const u8, bytes_len: usize) -> u32;
    fn matzupol_unchecked_recode(schema: &mut Slot, name: *const u8, name_len: usize, bytes: *const u8, bytes_len: usize) -> u32;
    fn matzupol_unchecked_answer_len(schema: &mut Slot) -> usize;
    fn matzupol_unchecked_answer(schema: &mut Slot, into: *mut u8, into_len: usize) -> u32;
    fn matzupol_unchecked_file_len(schema: &mut Slot) -> usize;
    fn matzupol_unchecked_file(schema: &mut Slot, into: *mut u8, into_len: usize) -> u32;
    fn matzupol_unchecked_place(schema: &mut Slot, place: &mut PlaceAt) -> u32;
}

/// Why a call was refused.
#[derive(Clone, Copy, Debug, PartialEq, Eq)]
pub enum Kind {
    Memory,
    NotUtf8,
    Parse,
    Link,
    Options,
    Wire,
    Text,
    UnknownType,
    TooLong,
}

/// A refusal, with the file, the line and the column of its first fault (both from 1) where they are known.
#[derive(Clone, Debug, PartialEq, Eq)]
pub struct Error {
    pub kind: Kind,
    pub text: String,
    pub file: Option<String>,
    pub position: Option<(usize, usize)>,
}

impl fmt::Display for Error {
    fn fmt(&self, f: &mut fmt::Formatter<'_>) -> fmt::Result {
        match (&self.kind, self.text.as_str()) {
            (Kind::Memory, "") => f.write_str("out of memory"),
            (Kind::NotUtf8, "") => f.write_str("not UTF-8"),
            (_, text) => f.write_str(text),
        }
    }
}

impl std::error::Error for Error {}

/// Protobuf files that fit together. A refused call leaves them as they were.
pub struct Schema(Slot);

// Not proved of the library: what a schema owns is memory that names no thread, and a call takes it alone.
unsafe impl Send for Schema {}

impl Schema {
    /// A schema without files.
    pub fn new() -> Result<Schema, Error> {
        let mut slot = Slot { at: std::ptr::null_mut(), full: false };
        let code = unsafe { matzupol_unchecked_open(&mut slot) };
        let mut schema = Schema(slot);
        schema.settle(code)?;
        Ok(schema)
    }

    /// Links sources, files' names and their texts, as one batch.
    pub fn add_sources(&mut self, sources: &[(&str, &str)]) -> Result<(), Error> {
        for (name, text) in sources {
            let code = unsafe { matzupol_unchecked_source(&mut self.0, name.as_ptr(), name.len(), text.as_ptr(), text.len()) };
            if code != 0 {
                unsafe { matzupol_unchecked_forget(&mut self.0) };
                return self.settle(code);
            }
        }
        let code = unsafe { matzupol_unchecked_link(&mut self.0) };
        self.settle(code)
    }

    /// Links the files of a descriptor set as one batch.
    pub fn add_set(&mut self, set: &[u8]) -> Result<(), Error> {
        let code = unsafe { matzupol_unchecked_add_set(&mut self.0, set.as_ptr(), set.len()) };
        self.settle(code)
    }

    /// The descriptor set of all files.
    pub fn set(&mut self) -> Result<Vec<u8>, Error> {
        let code = unsafe { matzupol_unchecked_set(&mut self.0) };
        self.answered(code)
    }

    /// The wire bytes of the message of a type that a text spells.
    pub fn encode(&mut self, name: &str, text: &str) -> Result<Vec<u8>, Error> {
        let code = unsafe { matzupol_unchecked_encode(&mut self.0, name.as_ptr(), name.len(), text.as_ptr(), text.len()) };
        self.answered(code)
    }

    /// The text of the message of a type that wire bytes spell.
    pub fn decode(&mut self, name: &str, bytes: &[u8]) -> Result<String, Error> {
        let code = unsafe { matzupol_unchecked_decode(&mut self.0, name.as_ptr(), name.len(), bytes.as_ptr(), bytes.len()) };
        Ok(String::from_utf8_lossy(&self.answered(code)?).into_owned())
    }

    /// The one form of the message of a type that wire bytes spell.
    pub fn recode(&mut self, name: &str, bytes: &[u8]) -> Result<Vec<u8>, Error> {
        let code = unsafe { matzupol_unchecked_recode(&mut self.0, name.as_ptr(), name.len(), bytes.as_ptr(), bytes.len()) };
        self.answered(code)
    }

    fn answer(&mut self) -> Vec<u8> {
        let mut text = vec![0; unsafe { matzupol_unchecked_answer_len(&mut self.0) }];
        unsafe { matzupol_unchecked_answer(&mut self.0, text.as_mut_ptr(), text.len()) };
        text
    }

    fn file(&mut self) -> Option<String> {
        let mut name = vec![0; unsafe { matzupol_unchecked_file_len(&mut self.0) }];
        unsafe { matzupol_unchecked_file(&mut self.0, name.as_mut_ptr(), name.len()) };
        Some(String::from_utf8_lossy(&name).into_owned()).filter(|name| !name.is_empty())
    }

    fn settle(&mut self, code: u32) -> Result<(), Error> {
        let kind = match code {
            0 => return Ok(()),
            4 => Kind::NotUtf8,
            5 => Kind::Parse,
            6 => Kind::Link,
            7 => Kind::Options,
            8 => Kind::Wire,
            9 => Kind::Text,
            10 => Kind::UnknownType,
            11 => Kind::TooLong,
            _ => Kind::Memory,
        };
        let mut place = PlaceAt::default();
        unsafe { matzupol_unchecked_place(&mut self.0, &mut place) };
        Err(Error {
            kind,
            text: String::from_utf8_lossy(&self.answer()).into_owned(),
            file: self.file(),
            position: (place.line > 0).then_some((place.line, place.column)),
        })
    }

    fn answered(&mut self, code: u32) -> Result<Vec<u8>, Error> {
        self.settle(code)?;
        Ok(self.answer())
    }
}

impl Drop for Schema {
    fn drop(&mut self) {
        unsafe { matzupol_unchecked_close(&mut self.0) }
    }
}
