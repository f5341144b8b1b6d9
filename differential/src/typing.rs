//! The crate's `typing`: four files of its own text, and stand-ins for what they
//! name besides.

#![allow(warnings)]

pub mod ty {
    include!(concat!(env!("STARLARK_TEXT"), "/typing/ty.rs"));
}

pub mod basic {
    include!(concat!(env!("STARLARK_TEXT"), "/typing/basic.rs"));
}

pub mod tuple {
    include!(concat!(env!("STARLARK_TEXT"), "/typing/tuple.rs"));
}

pub mod starlark_value {
    include!(concat!(env!("STARLARK_TEXT"), "/typing/starlark_value.rs"));

    impl TyStarlarkValue {
        /// Added here: a host's type has no Rust type of its own, only a number
        /// and a name.
        pub fn of_number(number: u16, type_name: &'static str) -> TyStarlarkValue {
            TyStarlarkValue {
                vtable: Box::leak(Box::new(TyStarlarkValueVTable {
                    type_name,
                    vtable: crate::values::traits::NO_VTABLE,
                    starlark_type_id: StarlarkTypeId(number),
                    starlark_type_id_check: StarlarkTypeId(number),
                })),
            }
        }
    }
}

pub mod arc_ty;
pub mod custom;
pub mod small_arc_vec;
mod unused;

pub use basic::TyBasic;
pub use ty::Ty;
pub use unused::*;
