//! What a pool declares.
use crate::calls;
use crate::message_type::{kind_name, text, Field};
use crate::report::{written_alone, Report};
use crate::structs::{Counts, Enum as EnumReport, Field as FieldReport, File as FileReport, Type as TypeReport};
use crate::{Error, Limits, MessageType, Pool, Shape, Step};
use std::{fmt, ptr};

/// A file.
#[derive(Clone, Debug, PartialEq, Eq)]
pub struct DeclaredFile {
    pub name: String,
    pub package: String,
    /// How many files it imports.
    pub imports: usize,
    pub is_proto2: bool,
}

/// A field of a message type.
#[derive(Clone, Debug, PartialEq, Eq)]
pub struct DeclaredField {
    pub name: String,
    pub field: Field,
    /// The name of its oneof.
    pub oneof: Option<String>,
    /// Whether the list is written packed.
    pub is_packed: bool,
}

/// A message type. Its number in the pool is its index.
#[derive(Clone, Debug, PartialEq, Eq)]
pub struct DeclaredType {
    /// The full name.
    pub name: String,
    /// The index of its file.
    pub file: usize,
    /// The index of the message type that it is declared in.
    pub parent: Option<usize>,
    pub fields: Vec<DeclaredField>,
}

/// An enum.
#[derive(Clone, Debug, PartialEq, Eq)]
pub struct DeclaredEnum {
    /// The full name.
    pub name: String,
    /// The index of its file.
    pub file: usize,
    /// The index of the message type that it is declared in.
    pub parent: Option<usize>,
    /// Names and numbers.
    pub values: Vec<(String, i32)>,
}

/// What a pool declares, in the order of its set. It prints as `pbtool types` prints it.
#[derive(Clone, Debug, PartialEq, Eq)]
pub struct Schema {
    pub files: Vec<DeclaredFile>,
    pub messages: Vec<DeclaredType>,
    pub enums: Vec<DeclaredEnum>,
}

fn parent(nested: u32, number: usize) -> Option<usize> {
    (nested == 1).then_some(number)
}

// SAFETY, of each call: as in pool.rs.
impl Pool {
    fn counts(&self) -> Result<Counts, Error> {
        let mut counts = Counts::default();
        Report::new().judge(unsafe { calls::mb_pool_counts(self.handle(), &mut counts) })?;
        Ok(counts)
    }

    /// The message types, in the order of the set.
    pub fn message_types(&self) -> Result<impl Iterator<Item = MessageType>, Error> {
        let (pool, count) = (self.try_clone()?, self.counts()?.messages as u32);
        Ok((0..count).map(move |number| MessageType { pool: pool.clone(), number, limits: Limits::FULL }))
    }

    /// The enums, in the order of the set.
    pub fn enums(&self) -> Result<impl Iterator<Item = DeclaredEnum>, Error> {
        let enums = (0..self.counts()?.enums).map(|entry| self.declared_enum(entry)).collect::<Result<Vec<_>, _>>()?;
        Ok(enums.into_iter())
    }

    /// The full names of the message types, up to the first name that cannot be read.
    pub(crate) fn type_names(&self) -> Vec<String> {
        let count = self.counts().map_or(0, |counts| counts.messages as u32);
        (0..count).map_while(|number| self.reported_type(number).ok()).map(|(name, _)| name).collect()
    }

    /// What the pool declares.
    pub fn schema(&self) -> Result<Schema, Error> {
        let counts = self.counts()?;
        Ok(Schema {
            files: (0..counts.files).map(|index| self.file(index)).collect::<Result<_, _>>()?,
            messages: (0..counts.messages as u32).map(|number| self.declared_type(number)).collect::<Result<_, _>>()?,
            enums: (0..counts.enums).map(|entry| self.declared_enum(entry)).collect::<Result<_, _>>()?,
        })
    }

    fn file(&self, index: usize) -> Result<DeclaredFile, Error> {
        let mut file = FileReport::default();
        Report::new().judge(unsafe { calls::mb_pool_file(self.handle(), index, &mut file, ptr::null_mut(), 0) })?;
        let mut name = vec![0; file.name_len + file.package_len];
        Report::new().judge(unsafe { calls::mb_pool_file(self.handle(), index, &mut file, name.as_mut_ptr(), name.len()) })?;
        let package = name.split_off(file.name_len);
        Ok(DeclaredFile { name: text(name), package: text(package), imports: file.imports, is_proto2: file.proto2 == 1 })
    }

    /// The full name of the message type of a number, and its report.
    pub(crate) fn reported_type(&self, number: u32) -> Result<(String, TypeReport), Error> {
        let mut report = TypeReport::default();
        let name = written_alone(|out, capacity, size| unsafe {
            calls::mb_pool_message(self.handle(), number, &mut report, out, capacity, size)
        })?;
        Ok((text(name), report))
    }

    fn oneof(&self, number: u32, index: usize) -> Result<String, Error> {
        written_alone(|out, capacity, size| unsafe { calls::mb_pool_oneof(self.handle(), number, index, out, capacity, size) }).map(text)
    }

    fn declared_field(&self, number: u32, index: usize) -> Result<DeclaredField, Error> {
        let (mut report, mut detail) = (FieldReport::default(), 0);
        let name = written_alone(|out, capacity, size| unsafe {
            calls::mb_pool_field_at(self.handle(), number, index, &mut report, &mut detail, out, capacity, size)
        })?;
        let field = Field::of(report);
        let oneof = if field.shape == Shape::Oneof { Some(self.oneof(number, detail as usize)?) } else { None };
        Ok(DeclaredField { name: text(name), field, oneof, is_packed: field.shape == Shape::List && detail == 1 })
    }

    fn declared_type(&self, number: u32) -> Result<DeclaredType, Error> {
        let (name, TypeReport { file, nested, parent: of, fields, .. }) = self.reported_type(number)?;
        let fields = (0..fields).map(|index| self.declared_field(number, index)).collect::<Result<_, _>>()?;
        Ok(DeclaredType { name, file, parent: parent(nested, of), fields })
    }

    /// The name of a value of an enum, and its number.
    fn value(&self, entry: usize, index: usize) -> Result<(String, i32), Error> {
        let mut number = 0;
        let name = written_alone(|out, capacity, size| unsafe {
            calls::mb_pool_enum_value(self.handle(), entry, index, &mut number, out, capacity, size)
        })?;
        Ok((text(name), number))
    }

    fn declared_enum(&self, entry: usize) -> Result<DeclaredEnum, Error> {
        let mut report = EnumReport::default();
        let name =
            written_alone(|out, capacity, size| unsafe { calls::mb_pool_enum(self.handle(), entry, &mut report, out, capacity, size) })?;
        let values = (0..report.values).map(|index| self.value(entry, index)).collect::<Result<_, _>>()?;
        Ok(DeclaredEnum { name: text(name), file: report.file, parent: parent(report.nested, report.parent), values })
    }
}

impl MessageType {
    /// The full name.
    pub fn name(&self) -> Result<String, Error> {
        Ok(self.pool.reported_type(self.number)?.0)
    }

    /// The simple names of the fields and of the oneofs.
    pub(crate) fn names_inside(&self) -> Vec<String> {
        let fields = self.pool.declared_type(self.number).map_or(Vec::new(), |declared| declared.fields);
        let (names, oneofs): (Vec<_>, Vec<_>) = fields.into_iter().map(|it| (it.name, it.oneof)).unzip();
        names.into_iter().chain(oneofs.into_iter().flatten()).collect()
    }

    /// The index of the oneof of a name, if the type has it.
    pub(crate) fn oneof_index(&self, name: &str) -> Result<Option<u32>, Error> {
        for index in 0..self.pool.reported_type(self.number)?.1.oneofs {
            if self.pool.oneof(self.number, index)? == name {
                return Ok(Some(index as u32));
            }
        }
        Ok(None)
    }

    /// The names of the steps of a fault's path, by the type that the bytes should have: a field's name; `key` or `value` in an entry of a map; or the
    /// number if no field has it.
    pub fn path_names(&self, path: &[Step]) -> Result<Vec<String>, Error> {
        let (mut names, mut inside, mut entry) = (Vec::new(), Some(self.clone()), None);
        for Step { number, .. } in path {
            if let Some(field) = entry.take() {
                names.push(match number {
                    1 => "key".to_owned(),
                    2 => "value".to_owned(),
                    _ => number.to_string(),
                });
                inside = if *number == 2 { self.inner(&field) } else { None };
                continue;
            }
            let fields = inside.as_ref().map_or(Ok(Vec::new()), MessageType::fields)?;
            let Some(DeclaredField { name, field, .. }) = fields.into_iter().find(|it| it.field.number == *number) else {
                names.push(number.to_string());
                inside = None;
                continue;
            };
            names.push(name);
            inside = if field.shape == Shape::Map { None } else { self.inner(&field) };
            entry = (field.shape == Shape::Map).then_some(field);
        }
        Ok(names)
    }

    /// The fields, in the order of their declarations.
    pub fn fields(&self) -> Result<Vec<DeclaredField>, Error> {
        Ok(self.pool.declared_type(self.number)?.fields)
    }
}

impl Schema {
    /// The full name of the message type or enum that a field names, or the kind of its values.
    pub fn type_name(&self, field: &Field) -> &str {
        let named = match field.kind {
            10 | 11 => self.messages.get(field.type_of).map(|it| &it.name),
            14 => self.enums.get(field.type_of).map(|it| &it.name),
            _ => None,
        };
        named.map_or(field.kind_name(), String::as_str)
    }

    fn file_name(&self, file: usize) -> &str {
        self.files.get(file).map_or("?", |it| &it.name)
    }

    fn write_field(&self, f: &mut fmt::Formatter<'_>, owner: &str, declared: &DeclaredField) -> fmt::Result {
        let DeclaredField { name, field, oneof, is_packed } = declared;
        write!(f, "field {owner}.{name} {} ", field.number)?;
        match (field.shape, oneof) {
            (Shape::Implicit | Shape::Optional, _) => write!(f, "{} ", field.shape.name())?,
            (_, Some(oneof)) => write!(f, "oneof:{oneof} ")?,
            _ => f.write_str("repeated ")?,
        }
        let type_name = format!("{}{}", if field.kind == 10 { "group " } else { "" }, self.type_name(field));
        match field.key {
            Some(key) => writeln!(f, "map<{}, {type_name}>", kind_name(key)),
            None => writeln!(f, "{type_name}{}", if *is_packed { " packed" } else { "" }),
        }
    }
}

impl fmt::Display for Schema {
    fn fmt(&self, f: &mut fmt::Formatter<'_>) -> fmt::Result {
        for DeclaredFile { name, is_proto2, .. } in &self.files {
            writeln!(f, "file {name} {}", if *is_proto2 { "proto2" } else { "proto3" })?;
        }
        for DeclaredType { name, file, fields, .. } in &self.messages {
            writeln!(f, "message {name} {}", self.file_name(*file))?;
            fields.iter().try_for_each(|field| self.write_field(f, name, field))?;
        }
        for DeclaredEnum { name, file, values, .. } in &self.enums {
            writeln!(f, "enum {name} {}", self.file_name(*file))?;
            values.iter().try_for_each(|(value, number)| writeln!(f, "value {name} {value} {number}"))?;
        }
        Ok(())
    }
}
