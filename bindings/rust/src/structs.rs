//! The structs of mabristu.h.

#[repr(C)]
#[derive(Default)]
pub struct Fault {
    pub byte: u64,
    pub steps: usize,
    pub cause: u32,
}

/// A step of a path: the field number of a record, and the count of whole records of this number before it in its parent.
#[repr(C)]
#[derive(Clone, Copy, Debug, Default, PartialEq, Eq)]
pub struct Step {
    pub number: u32,
    pub before: u32,
}

#[repr(C)]
pub struct Handle {
    pub at: *mut u8,
    pub full: bool,
}

/// A field: kinds as numbers of types in descriptor.proto, the shape and the type as numbers of mabristu.h.
#[repr(C)]
#[derive(Clone, Copy, Debug, Default, PartialEq, Eq)]
pub struct Field {
    pub number: u32,
    pub kind: u32,
    pub shape: u32,
    pub key: u32,
    pub type_of: usize,
}

/// A value, or a step of a place, as mabristu.h says.
#[repr(C)]
#[derive(Clone, Copy, Debug, Default, PartialEq, Eq)]
pub struct Value {
    pub kind: u32,
    pub number: u64,
}

/// How the text format is written. The default: each field on a line, bytes that are not ASCII escaped, and unknown records under the number of their
/// field, as `protoc --decode` does.
#[repr(C)]
#[derive(Clone, Copy, Debug, Default, PartialEq, Eq)]
pub struct TextForm {
    /// All fields on one line.
    pub single_line: bool,
    /// Strings as they are, in UTF-8.
    pub utf8: bool,
    /// No unknown records.
    pub omit_unknown: bool,
}

#[repr(C)]
#[derive(Clone, Copy, Debug, Default, PartialEq, Eq)]
pub struct Counts {
    pub files: usize,
    pub messages: usize,
    pub enums: usize,
}

#[repr(C)]
#[derive(Clone, Copy, Debug, Default, PartialEq, Eq)]
pub struct Type {
    pub file: usize,
    pub nested: u32,
    pub parent: usize,
    pub fields: usize,
    pub oneofs: usize,
}

#[repr(C)]
#[derive(Clone, Copy, Debug, Default, PartialEq, Eq)]
pub struct Enum {
    pub file: usize,
    pub nested: u32,
    pub parent: usize,
    pub values: usize,
}

#[repr(C)]
#[derive(Clone, Copy, Debug, Default, PartialEq, Eq)]
pub struct File {
    pub name_len: usize,
    pub package_len: usize,
    pub imports: usize,
    pub proto2: u32,
}

#[repr(C)]
#[derive(Clone, Copy, Debug, Default, PartialEq, Eq)]
pub struct Difference {
    pub old_type: usize,
    pub new_type: usize,
    pub number: u32,
    pub severity: u32,
}

/// The size of a path with names: its steps, the strings among them and their bytes; or the byte where it is refused.
#[repr(C)]
#[derive(Clone, Copy, Debug, Default, PartialEq, Eq)]
pub struct Steps {
    pub steps: usize,
    pub strings: usize,
    pub bytes: usize,
    pub byte: usize,
}

/// How many keys there are, and how many bytes their strings have.
#[repr(C)]
#[derive(Clone, Copy, Debug, Default, PartialEq, Eq)]
pub struct Keys {
    pub keys: usize,
    pub bytes: usize,
}

#[repr(C)]
pub struct MessageHandle {
    pub at: *mut u8,
    pub full: bool,
}

#[repr(C)]
pub struct DecoderHandle {
    pub at: *mut u8,
    pub full: bool,
}

#[repr(C)]
#[derive(Default)]
pub struct Refusal {
    pub file: usize,
    pub byte: u64,
    pub file_len: usize,
    pub name_len: usize,
}

#[repr(C)]
pub struct Bytes {
    pub at: *const u8,
    pub len: usize,
}

#[repr(C)]
#[derive(Default)]
pub struct Frame {
    pub begin: usize,
    pub end: usize,
}
