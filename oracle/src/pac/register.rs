//! Access to one hardware register, as fields of document 01's registers.

use crate::head::Registers;
use crate::world;
use std::marker::PhantomData;

/// Where a field lies: a document 01 register, its lowest bit and its width.
#[derive(Clone, Copy)]
pub struct Field {
    number: usize,
    shift: u32,
    width: u32,
}

pub const fn a(number: usize) -> Field {
    field(number, 16, 8)
}

pub const fn b(number: usize) -> Field {
    field(number, 8, 8)
}

pub const fn c(number: usize) -> Field {
    field(number, 0, 8)
}

/// A value of so many bits in b and c.
pub const fn bc(number: usize, width: u32) -> Field {
    field(number, 0, width)
}

const fn field(number: usize, shift: u32, width: u32) -> Field {
    Field {
        number,
        shift,
        width,
    }
}

/// A type that a field holds.
pub trait Code {
    fn from_code(code: u32) -> Self;
    fn code(self) -> u32;
}

impl Code for bool {
    fn from_code(code: u32) -> Self {
        code != 0
    }
    fn code(self) -> u32 {
        self.into()
    }
}

impl Code for u8 {
    fn from_code(code: u32) -> Self {
        code as u8
    }
    fn code(self) -> u32 {
        self.into()
    }
}

impl Code for u16 {
    fn from_code(code: u32) -> Self {
        code as u16
    }
    fn code(self) -> u32 {
        self.into()
    }
}

/// The content of a hardware register: the head's registers as they were read,
/// with the fields set since, and the number of the register they belong to.
#[derive(Clone, Copy)]
pub struct View {
    registers: Registers,
    /// Added to every field's number: 0, or 1 for the second DLL.
    pub index: usize,
    set: Option<usize>,
}

impl View {
    pub fn get<T: Code>(&self, field: Field) -> T {
        let value = self.registers[field.number + self.index] >> field.shift;
        T::from_code(value & mask(field))
    }

    /// # Panics
    ///
    /// One `modify` is one store, so it may not set fields of two registers.
    pub fn set<T: Code>(&mut self, field: Field, value: T) {
        let number = field.number + self.index;
        assert!(
            self.set.is_none_or(|other| other == number),
            "one modify sets fields of two registers of document 01"
        );
        self.set = Some(number);
        let cleared = self.registers[number] & !(mask(field) << field.shift);
        self.registers[number] = cleared | (value.code() & mask(field)) << field.shift;
    }
}

fn mask(field: Field) -> u32 {
    (1 << field.width) - 1
}

/// The content of one kind of hardware register.
pub trait Register {
    /// The document 01 register that a `modify` without a field set stores.
    const WITHOUT_FIELD: usize;
    fn from_view(view: View) -> Self;
    fn view(&self) -> &View;
}

/// One hardware register.
pub struct Reg<R> {
    index: usize,
    content: PhantomData<R>,
}

impl<R> Reg<R> {
    pub const fn at(index: usize) -> Self {
        Self {
            index,
            content: PhantomData,
        }
    }
}

impl<R: Register> Reg<R> {
    pub fn read(&self) -> R {
        R::from_view(View {
            registers: world::registers(),
            index: self.index,
            set: None,
        })
    }

    /// One store, of the register whose fields `change` sets.
    pub fn modify(&self, change: impl FnOnce(&mut R)) {
        let mut content = self.read();
        change(&mut content);
        let view = content.view();
        let number = view.set.unwrap_or(R::WITHOUT_FIELD);
        world::store(number, view.registers[number]);
    }
}

/// Declares the content of a hardware register: its name, the document 01
/// register stored where no field is set, and per field its reading, its
/// setter, its type and its place.
macro_rules! register {
    ($name:ident else $number:literal { $($get:ident, $set:ident: $type:ty = $field:expr;)* }) => {
        #[derive(Clone, Copy)]
        pub struct $name(View);

        #[allow(dead_code)]
        impl $name {
            $(
                pub fn $get(&self) -> $type {
                    self.0.get($field)
                }
                pub fn $set(&mut self, value: $type) {
                    self.0.set($field, value);
                }
            )*
        }

        impl Register for $name {
            const WITHOUT_FIELD: usize = $number;
            fn from_view(view: View) -> Self {
                Self(view)
            }
            fn view(&self) -> &View {
                &self.0
            }
        }
    };
}

/// Declares a peripheral: its constant, its type and its registers.
macro_rules! peripheral {
    ($constant:ident: $type:ident { $($register:ident: $content:ty;)* }) => {
        pub struct $type;
        pub const $constant: $type = $type;

        impl $type {
            $(
                pub const fn $register(&self) -> Reg<$content> {
                    Reg::at(0)
                }
            )*
        }
    };
}

/// A memory timing register, as document 01 lays it out: ram_rm and ram_ra in
/// b, ram_wa and rom_rm in c. The two `rme` bits are set in every row and are
/// not in the record.
macro_rules! memory_timing {
    ($number:literal) => {
        #[derive(Debug, Clone, Copy)]
        pub struct Ulpmcr(pub u32);

        impl Ulpmcr {
            pub const fn set_ram_rm(&mut self, value: u8) {
                self.0 |= (value as u32) << 12;
            }
            pub const fn set_ram_ra(&mut self, value: u8) {
                self.0 |= (value as u32) << 8;
            }
            pub const fn set_ram_wa(&mut self, value: u8) {
                self.0 |= (value as u32) << 4;
            }
            pub const fn set_rom_rm(&mut self, value: u8) {
                self.0 |= value as u32;
            }
            pub const fn set_ram_rme(&mut self, _on: bool) {}
            pub const fn set_rom_rme(&mut self, _on: bool) {}
        }

        impl crate::pac::register::Reg<Ulpmcr> {
            pub fn write_value(&self, value: Ulpmcr) {
                crate::world::store($number, value.0);
            }
        }
    };
}

pub(super) use {memory_timing, peripheral, register};
