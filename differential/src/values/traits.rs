//! Stand-ins for the trait of Starlark values, its table of flags and type ids.
//! A type id is the type number.

use crate::typing::Ty;
use crate::typing::TyBasic;
use crate::typing::TypingBinOp;

#[derive(Clone, Copy, Debug, PartialEq, Eq, PartialOrd, Ord, Hash)]
pub struct StarlarkTypeId(pub u16);

impl StarlarkTypeId {
    pub const fn of<'v, T: StarlarkValue<'v>>() -> StarlarkTypeId {
        StarlarkTypeId(T::NUMBER)
    }

    pub const fn of_canonical<'v, T: StarlarkValue<'v>>() -> StarlarkTypeId {
        StarlarkTypeId(<T::Canonical as StarlarkValue<'v>>::NUMBER)
    }
}

pub trait StarlarkValue<'v>: 'v + Sized {
    type Canonical: StarlarkValue<'v>;
    /// The name by which the crate sorts.
    const TYPE: &'static str;
    /// The type number of a cell.
    const NUMBER: u16;
}

pub struct Methods;

impl Methods {
    pub fn get_ty(&self, _name: &str) -> Option<Ty> {
        unreachable!()
    }
}

#[allow(non_snake_case)]
pub struct StarlarkValueVTable {
    pub HAS_plus: bool,
    pub HAS_minus: bool,
    pub HAS_bit_not: bool,
    pub HAS_at: bool,
    pub HAS_slice: bool,
    pub HAS_invoke: bool,
    pub HAS_iterate: bool,
    pub HAS_iterate_collect: bool,
    pub HAS_eval_type: bool,
    pub bin_op_ty: fn(TypingBinOp, &TyBasic) -> Option<Ty>,
    pub rbin_op_ty: fn(&TyBasic, TypingBinOp) -> Option<Ty>,
    pub get_methods: fn() -> Option<&'static Methods>,
    pub attr_ty: fn(&str) -> Option<Ty>,
}

/// The table of flags: 1 callable, 2 iterable, 4 stands for a type.
pub const fn vtable_of(flags: u8) -> StarlarkValueVTable {
    StarlarkValueVTable {
        HAS_plus: false,
        HAS_minus: false,
        HAS_bit_not: false,
        HAS_at: false,
        HAS_slice: false,
        HAS_invoke: flags & 1 != 0,
        HAS_iterate: flags & 2 != 0,
        HAS_iterate_collect: false,
        HAS_eval_type: flags & 4 != 0,
        bin_op_ty: |_, _| None,
        rbin_op_ty: |_, _| None,
        get_methods: || None,
        attr_ty: |_| None,
    }
}

pub const NO_VTABLE: StarlarkValueVTable = vtable_of(0);

pub struct StarlarkValueVTableGet<T>(std::marker::PhantomData<T>);

impl<T> StarlarkValueVTableGet<T> {
    /// No annotation reads the flags of a type, only those of a value.
    pub const VTABLE: StarlarkValueVTable = NO_VTABLE;
}

pub struct AValueVTable {
    pub starlark_value: StarlarkValueVTable,
}

pub static VTABLES: [AValueVTable; 8] = [
    AValueVTable {
        starlark_value: vtable_of(0),
    },
    AValueVTable {
        starlark_value: vtable_of(1),
    },
    AValueVTable {
        starlark_value: vtable_of(2),
    },
    AValueVTable {
        starlark_value: vtable_of(3),
    },
    AValueVTable {
        starlark_value: vtable_of(4),
    },
    AValueVTable {
        starlark_value: vtable_of(5),
    },
    AValueVTable {
        starlark_value: vtable_of(6),
    },
    AValueVTable {
        starlark_value: vtable_of(7),
    },
];
