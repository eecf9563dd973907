//! The heap as objects, each with its place.

use crate::wire::Tree;

/// A field of a cell: "each field a reference or None".
#[derive(Clone, Copy, Debug, PartialEq, Eq)]
pub enum Field {
    Place(usize),
    None,
}

/// A heap cell.
#[derive(Clone, Debug, PartialEq)]
pub enum Object {
    Bool(bool),
    Int(i32),
    Float(f32),
    Tuple(Vec<Field>),
    Constr(u16, Vec<Field>),
    Exn(u16, Field),
}

/// Kinds of headers: "The header is kind × 65536 + tag".
pub const BOOL: u32 = 1;
pub const INT: u32 = 2;
pub const FLOAT: u32 = 3;
pub const TUPLE: u32 = 4;
pub const CONSTR: u32 = 5;
pub const EXN: u32 = 6;
pub const NONE: u32 = 7;

pub fn header(kind: u32, tag: u16) -> u32 {
    kind * 65536 + u32::from(tag)
}

impl Object {
    /// "Heap object sizes: Bool, Int, Float 2; Tuple and Constr 2 + n; Exn 3."
    pub fn size(&self) -> usize {
        match self {
            Object::Bool(_) | Object::Int(_) | Object::Float(_) => 2,
            Object::Tuple(fields) | Object::Constr(_, fields) => 2 + fields.len(),
            Object::Exn(..) => 3,
        }
    }

    /// "Constr and Exn keep their tag in the header; header, size, then fields, as on a wire."
    fn words(&self) -> Vec<u32> {
        match self {
            Object::Bool(truth) => vec![header(BOOL, 0), u32::from(*truth)],
            Object::Int(integer) => vec![header(INT, 0), *integer as u32],
            Object::Float(float) => vec![header(FLOAT, 0), float.to_bits()],
            Object::Tuple(fields) => with_fields(header(TUPLE, 0), fields),
            Object::Constr(tag, fields) => with_fields(header(CONSTR, *tag), fields),
            Object::Exn(exception, field) => with_fields(header(EXN, *exception), &[*field]),
        }
    }
}

fn with_fields(header: u32, fields: &[Field]) -> Vec<u32> {
    let mut words = vec![header, fields.len() as u32];
    words.extend(fields.iter().map(|field| field.word()));
    words
}

impl Field {
    /// "type × 2^28 + payload: ... 1 reference to a heap place, 2 None"
    pub fn word(&self) -> u32 {
        match self {
            Field::Place(place) => (1 << 28) + *place as u32,
            Field::None => 2 << 28,
        }
    }
}

/// The objects in the order they were placed, and the words they take.
#[derive(Clone, Debug, Default)]
pub struct Heap {
    cells: Vec<(usize, Object)>,
    used: usize,
}

impl Heap {
    /// hp: the place of the next object.
    pub fn used(&self) -> usize {
        self.used
    }

    pub fn place(&mut self, object: Object) {
        let place = self.used;
        self.used += object.size();
        self.cells.push((place, object));
    }

    /// The object at a place. References are made by placing alone, so there always is one.
    pub fn at(&self, place: usize) -> &Object {
        let index = self
            .cells
            .binary_search_by_key(&place, |(place, _)| *place)
            .expect("a reference to an object");
        &self.cells[index].1
    }

    /// "A value copied to a wire is spread out in prefix form." `None` where it takes more than `room` words.
    pub fn spread(&self, place: usize, room: &mut usize) -> Option<Tree> {
        let object = self.at(place);
        let own = match object {
            Object::Bool(_) | Object::Int(_) | Object::Float(_) => object.size(),
            Object::Tuple(_) | Object::Constr(..) | Object::Exn(..) => 2,
        };
        take_room(room, own)?;
        let tree = match object {
            Object::Bool(truth) => Tree::Bool(*truth),
            Object::Int(integer) => Tree::Int(*integer),
            Object::Float(float) => Tree::Float(*float),
            Object::Tuple(fields) => Tree::Tuple(self.spread_all(fields, room)?),
            Object::Constr(tag, fields) => Tree::Constr(*tag, self.spread_all(fields, room)?),
            Object::Exn(exception, field) => Tree::Exn(*exception, Box::new(self.spread_field(field, room)?)),
        };
        Some(tree)
    }

    fn spread_all(&self, fields: &[Field], room: &mut usize) -> Option<Vec<Tree>> {
        fields.iter().map(|field| self.spread_field(field, room)).collect()
    }

    fn spread_field(&self, field: &Field, room: &mut usize) -> Option<Tree> {
        match field {
            Field::Place(place) => self.spread(*place, room),
            // "7 None (header only ...)"
            Field::None => take_room(room, 1).map(|()| Tree::None),
        }
    }

    /// The whole area: the objects, then zeros.
    pub fn encode(&self, area: &mut [u32]) {
        area.fill(0);
        for (place, object) in &self.cells {
            let words = object.words();
            area[*place..*place + words.len()].copy_from_slice(&words);
        }
    }
}

fn take_room(room: &mut usize, words: usize) -> Option<()> {
    *room = room.checked_sub(words)?;
    Some(())
}

/// "A copy to the heap places all fields, in order, before their object, so fields always refer lower."
/// The objects, in the order of placing, are added to `objects`; the first of them all goes to `start`.
pub fn copy(tree: &Tree, start: usize, objects: &mut Vec<Object>) -> Field {
    let object = match tree {
        Tree::None => return Field::None,
        Tree::Bool(truth) => Object::Bool(*truth),
        Tree::Int(integer) => Object::Int(*integer),
        Tree::Float(float) => Object::Float(*float),
        Tree::Tuple(trees) => Object::Tuple(copy_all(trees, start, objects)),
        Tree::Constr(tag, trees) => Object::Constr(*tag, copy_all(trees, start, objects)),
        Tree::Exn(exception, tree) => Object::Exn(*exception, copy(tree, start, objects)),
    };
    let place = start + size_of_all(objects);
    objects.push(object);
    Field::Place(place)
}

fn copy_all(trees: &[Tree], start: usize, objects: &mut Vec<Object>) -> Vec<Field> {
    trees.iter().map(|tree| copy(tree, start, objects)).collect()
}

pub fn size_of_all(objects: &[Object]) -> usize {
    objects.iter().map(Object::size).sum()
}
