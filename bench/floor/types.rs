//! Types from the lines that bench/texts/table.py writes.

#[derive(Clone, Copy, PartialEq)]
pub enum Kind {
    Double,
    Float,
    Int64,
    Uint64,
    Int32,
    Fixed64,
    Fixed32,
    Bool,
    Text,
    Bytes,
    Uint32,
    Sfixed32,
    Sfixed64,
    Sint32,
    Sint64,
    Enum,
    Closed(usize),
    Message(usize),
    Group(usize),
}

#[derive(Clone, Copy)]
pub enum Shape {
    Implicit,
    Explicit,
    List,
    Map(Kind),
}

#[derive(Clone, Copy)]
pub struct Field {
    pub number: u32,
    pub kind: Kind,
    pub shape: Shape,
}

#[derive(Default)]
pub struct Type {
    pub name: String,
    fields: Vec<Option<Field>>,
}

impl Type {
    pub fn field(&self, number: u32) -> Option<Field> {
        *self.fields.get(number as usize)?
    }
}

#[derive(Default)]
pub struct Types {
    pub messages: Vec<Type>,
    enums: Vec<Vec<i32>>,
}

impl Types {
    pub fn declares(&self, entry: usize, number: i32) -> bool {
        self.enums[entry].binary_search(&number).is_ok()
    }

    pub fn of_table(table: &str) -> Types {
        let mut types = Types::default();
        for line in table.lines() {
            let words: Vec<&str> = line.split(' ').collect();
            match words[0] {
                "message" => types.messages.push(Type { name: types.full_name(&words), fields: vec![] }),
                "field" => put_field(&mut types.messages.last_mut().unwrap().fields, &words),
                "enum" => types.enums.push(vec![]),
                "value" => types.enums.last_mut().unwrap().push(words[2].parse().unwrap()),
                _ => {}
            }
        }
        types.enums.iter_mut().for_each(|it| it.sort());
        types
    }

    /// The name after that of the parent; the package is left out.
    fn full_name(&self, words: &[&str]) -> String {
        match words[3].parse::<usize>() {
            Ok(parent) => format!("{}.{}", self.messages[parent].name, words[1]),
            Err(_) => words[1].to_owned(),
        }
    }
}

fn put_field(fields: &mut Vec<Option<Field>>, words: &[&str]) {
    let number: u32 = words[2].parse().unwrap();
    let shape = match words[5] {
        "implicit" => Shape::Implicit,
        "list" | "packed" => Shape::List,
        "map" => Shape::Map(kind(words[6], "-")),
        _ => Shape::Explicit,
    };
    fields.resize(fields.len().max(number as usize + 1), None);
    fields[number as usize] = Some(Field { number, kind: kind(words[3], words[4]), shape });
}

fn kind(name: &str, index: &str) -> Kind {
    let index = index.parse().unwrap_or(0);
    match name {
        "double" => Kind::Double,
        "float" => Kind::Float,
        "int64" => Kind::Int64,
        "uint64" => Kind::Uint64,
        "int32" => Kind::Int32,
        "fixed64" => Kind::Fixed64,
        "fixed32" => Kind::Fixed32,
        "bool" => Kind::Bool,
        "string" => Kind::Text,
        "bytes" => Kind::Bytes,
        "uint32" => Kind::Uint32,
        "sfixed32" => Kind::Sfixed32,
        "sfixed64" => Kind::Sfixed64,
        "sint32" => Kind::Sint32,
        "sint64" => Kind::Sint64,
        "enum" => Kind::Enum,
        "closed" => Kind::Closed(index),
        "message" => Kind::Message(index),
        "group" => Kind::Group(index),
        _ => panic!("no kind {name}"),
    }
}
