//! Stand-ins for the Rust types of Starlark values and for the views that the
//! matchers take of them. Numbers: 1 int, 2 bool, 3 None, 4 str, 5 list, 6 dict,
//! 7 set, 8 tuple.

use crate::values::heap::Value;
use crate::values::traits::StarlarkValue;

macro_rules! kind {
    ($name:ident, $ty:literal, $number:literal) => {
        pub struct $name;

        impl<'v> StarlarkValue<'v> for $name {
            type Canonical = Self;
            const TYPE: &'static str = $ty;
            const NUMBER: u16 = $number;
        }
    };
}

kind!(StarlarkBigInt, "int", 1);
kind!(StarlarkBool, "bool", 2);
kind!(NoneType, "NoneType", 3);
kind!(StarlarkStr, "string", 4);
kind!(FrozenList, "list", 5);
kind!(FrozenDict, "dict", 6);
kind!(FrozenSet, "set", 7);
// Named by the crate's text, met in no job.
kind!(StarlarkFloat, "float", 9);
kind!(TypingAny, "typing.Any", 10);
kind!(TypingNever, "typing.Never", 11);

/// A tuple's view; also the Rust type that stands for tuples.
#[derive(Clone, Copy)]
pub struct Tuple<'v>(&'v [Value<'v>]);

impl<'v> StarlarkValue<'v> for Tuple<'v> {
    type Canonical = Self;
    const TYPE: &'static str = "tuple";
    const NUMBER: u16 = 8;
}

impl<'v> Tuple<'v> {
    #[inline]
    pub fn from_value(value: Value<'v>) -> Option<Tuple<'v>> {
        (value.cell().number == 8).then(|| Tuple(value.parts()))
    }

    #[inline]
    pub fn content(self) -> &'v [Value<'v>] {
        self.0
    }

    #[inline]
    pub fn len(self) -> usize {
        self.0.len()
    }

    #[inline]
    pub fn iter(self) -> impl Iterator<Item = Value<'v>> {
        self.0.iter().copied()
    }
}

#[derive(Clone, Copy)]
pub struct ListRef<'v>(&'v [Value<'v>]);

impl<'v> ListRef<'v> {
    #[inline]
    pub fn from_value(value: Value<'v>) -> Option<ListRef<'v>> {
        (value.cell().number == 5).then(|| ListRef(value.parts()))
    }

    #[inline]
    pub fn iter(self) -> impl Iterator<Item = Value<'v>> {
        self.0.iter().copied()
    }
}

/// A dict's parts are key, value by turns.
#[derive(Clone, Copy)]
pub struct DictRef<'v>(&'v [Value<'v>]);

impl<'v> DictRef<'v> {
    #[inline]
    pub fn from_value(value: Value<'v>) -> Option<DictRef<'v>> {
        (value.cell().number == 6).then(|| DictRef(value.parts()))
    }

    #[inline]
    pub fn iter(self) -> impl Iterator<Item = (Value<'v>, Value<'v>)> {
        self.0.chunks_exact(2).map(|kv| (kv[0], kv[1]))
    }
}

pub struct SetRef<'v> {
    pub aref: SetData<'v>,
}

#[derive(Clone, Copy)]
pub struct SetData<'v>(&'v [Value<'v>]);

impl<'v> SetData<'v> {
    #[inline]
    pub fn iter(self) -> impl Iterator<Item = Value<'v>> {
        self.0.iter().copied()
    }
}

pub trait UnpackValue<'v>: Sized {
    fn unpack_value_opt(value: Value<'v>) -> Option<Self>;
}

impl<'v> UnpackValue<'v> for SetRef<'v> {
    #[inline]
    fn unpack_value_opt(value: Value<'v>) -> Option<Self> {
        (value.cell().number == 7).then(|| SetRef {
            aref: SetData(value.parts()),
        })
    }
}

/// An int has flags 0 and its number as mark, or flags 8 (too big) and mark 0.
pub enum StarlarkIntRef {
    Small(i64),
    Big,
}

impl StarlarkIntRef {
    #[inline]
    pub fn unpack(value: Value<'_>) -> Option<StarlarkIntRef> {
        let cell = value.cell();
        match (cell.number, cell.flags) {
            (1, 0) => Some(StarlarkIntRef::Small(cell.mark)),
            (1, _) => Some(StarlarkIntRef::Big),
            _ => None,
        }
    }
}
