//! The objects of one heap as a graph: what registers and cells hold, and what each call does to them.

use crate::call::{Call, Given};
use crate::object::{Identity, Object, Value, WORD_BITS};
use crate::ranges::{FIXNUM_MAX, FIXNUM_MIN, REGISTERS, counted, entry_bits, register};
use crate::refusal::Refusal;
use crate::windows::{Kind, Space, Windows};

const STRING_ACCESS: u32 = 3;
const PROPERTY_LIST: usize = 2;
const PRINT_NAME: usize = 3;

/// One heap's objects, registers and allocation space.
#[derive(Clone, Debug)]
pub struct Graph {
    windows: Windows,
    objects: Vec<Object>,
    registers: [Value; REGISTERS],
    space: Space,
}

impl Graph {
    /// A heap as it is made: no objects, every register null, allocation in dynamic space.
    pub fn new(windows: Windows) -> Graph {
        Graph { windows, objects: Vec::new(), registers: [Value::Null; REGISTERS], space: Space::Dynamic }
    }

    /// What each register holds.
    pub fn registers(&self) -> &[Value; REGISTERS] {
        &self.registers
    }

    /// The object of this identity.
    pub fn at(&self, Identity(place): Identity) -> &Object {
        &self.objects[place]
    }

    /// The object that a value is, if it is one.
    pub fn object(&self, value: Value) -> Option<&Object> {
        match value {
            Value::Object(identity) => Some(self.at(identity)),
            _ => None,
        }
    }

    /// The kind of object that a value is, if it is one.
    pub fn kind(&self, value: Value) -> Option<Kind> {
        self.object(value).map(|object| object.kind)
    }

    /// The words of a window that no object has taken yet.
    pub fn room(&self, kind: Kind, space: Space) -> usize {
        let here = self.objects.iter().filter(|object| (object.kind, object.space) == (kind, space));
        self.windows.length(kind, space) - here.map(Object::words).sum::<usize>()
    }

    /// The space in which objects are made.
    pub fn space(&self) -> Space {
        self.space
    }

    /// From now on, objects are made in this space.
    pub fn set_space(&mut self, space: Space) {
        self.space = space;
    }

    /// The present read-only objects take no more writes.
    pub fn freeze(&mut self) {
        for object in self.objects.iter_mut().filter(|object| object.space == Space::ReadOnly) {
            object.frozen = true;
        }
    }

    /// Does what a line asks for, or says why not and changes nothing.
    pub fn run(&mut self, call: Call) -> Result<(), Refusal> {
        match call {
            Call::Put { to, value } => self.put(to, value),
            Call::List { to, car, cdr } => {
                let (to, car, cdr) = (register(to)?, register(car)?, register(cdr)?);
                let cells = vec![Some(self.registers[car]), Some(self.registers[cdr])];
                self.make(to, Kind::List, WORD_BITS, cells)
            }
            Call::Symbol { to, name } => self.symbol(to, name),
            Call::Vector { to, count, fill } => {
                let (to, fill) = (register(to)?, register(fill)?);
                let cells = vec![Some(self.registers[fill]); counted(count)?];
                self.make(to, Kind::BVector, WORD_BITS, cells)
            }
            Call::String { to, count } => {
                let to = register(to)?;
                let cells = vec![Some(Value::Character(0)); counted(count)?];
                self.make(to, Kind::String, entry_bits(STRING_ACCESS)?, cells)
            }
            Call::Words { to, count, access } => {
                let (to, bits) = (register(to)?, entry_bits(access)?);
                let cells = vec![Some(Value::Fixnum(0)); counted(count)?];
                self.make(to, Kind::UVector, bits, cells)
            }
            Call::Read { to, from, at } => self.read(to, from, at),
            Call::Write { into, at, value } => self.write(into, at, value),
        }
    }

    /// Sets a register to a fixnum, a character or null.
    fn put(&mut self, to: u32, value: Given) -> Result<(), Refusal> {
        let to = register(to)?;
        self.registers[to] = match value {
            Given::Null => Value::Null,
            Given::Fixnum(number @ FIXNUM_MIN..=FIXNUM_MAX) => Value::Fixnum(number),
            Given::Fixnum(_) => return Err(Refusal::OutOfRange),
            Given::Character(code) => Value::Character(u8::try_from(code).map_err(|_| Refusal::OutOfRange)?),
        };
        Ok(())
    }

    /// Makes a symbol whose value and definition are unset and whose other cells are null but the name.
    fn symbol(&mut self, to: u32, name: u32) -> Result<(), Refusal> {
        let (to, name) = (register(to)?, self.registers[register(name)?]);
        if self.kind(name) != Some(Kind::String) {
            return Err(Refusal::NoObject);
        }
        let null = Some(Value::Null);
        self.make(to, Kind::Symbol, WORD_BITS, vec![None, None, null, Some(name), null, null])
    }

    /// Makes an object in the allocation space, if it may hold its cells there and there is room.
    fn make(&mut self, to: usize, kind: Kind, bits: usize, cells: Vec<Option<Value>>) -> Result<(), Refusal> {
        let space = self.space;
        if space == Space::ReadOnly && cells.iter().flatten().any(|value| self.is_dynamic(*value)) {
            return Err(Refusal::HoldsDynamic);
        }
        let object = Object { kind, space, frozen: false, bits, cells };
        if object.words() > self.room(kind, space) {
            return Err(Refusal::NoRoom);
        }
        self.registers[to] = Value::Object(Identity(self.objects.len()));
        self.objects.push(object);
        Ok(())
    }

    /// Sets a register to what a cell or entry holds.
    fn read(&mut self, to: u32, from: u32, at: u32) -> Result<(), Refusal> {
        let (to, from) = (register(to)?, register(from)?);
        let object = self.object(self.registers[from]).ok_or(Refusal::NoObject)?;
        let cell = object.cells.get(at as usize).ok_or(Refusal::OutOfRange)?;
        self.registers[to] = cell.ok_or(Refusal::Unset)?;
        Ok(())
    }

    /// Sets a cell or entry to what a register holds.
    fn write(&mut self, into: u32, at: u32, value: u32) -> Result<(), Refusal> {
        let (into, value) = (register(into)?, self.registers[register(value)?]);
        let Value::Object(Identity(into)) = self.registers[into] else {
            return Err(Refusal::NoObject);
        };
        let (object, at) = (&self.objects[into], at as usize);
        if at >= object.cells.len() {
            return Err(Refusal::OutOfRange);
        }
        if !self.fits(object, at, value) {
            return Err(Refusal::Unfit);
        }
        if object.frozen {
            return Err(Refusal::Frozen);
        }
        if object.space == Space::ReadOnly && self.is_dynamic(value) {
            return Err(Refusal::HoldsDynamic);
        }
        self.objects[into].cells[at] = Some(value);
        Ok(())
    }

    /// The value may stand in this cell or entry of the object.
    fn fits(&self, object: &Object, at: usize, value: Value) -> bool {
        match (object.kind, at) {
            (Kind::UVector, _) => matches!(value, Value::Fixnum(number) if (0..1 << object.bits).contains(&number)),
            (Kind::String, _) => matches!(value, Value::Character(_)),
            (Kind::Symbol, PROPERTY_LIST) => value == Value::Null || self.kind(value) == Some(Kind::List),
            (Kind::Symbol, PRINT_NAME) => self.kind(value) == Some(Kind::String),
            (Kind::Symbol | Kind::List | Kind::BVector, _) => true,
        }
    }

    /// The value is an object in dynamic space.
    fn is_dynamic(&self, value: Value) -> bool {
        self.object(value).is_some_and(|object| object.space == Space::Dynamic)
    }
}
