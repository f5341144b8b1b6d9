//! The crate's `values`: four files of its own text, and stand-ins for values.

#![allow(warnings)]

pub mod heap;
pub mod kinds;
pub mod traits;

pub use heap::FrozenValue;
pub use heap::Heap;
pub use heap::Value;
pub use kinds::UnpackValue;
pub use traits::StarlarkValue;

pub mod bool {
    pub use super::kinds::StarlarkBool;
}

pub mod dict {
    pub use super::kinds::DictRef;
    pub mod value {
        pub use super::super::kinds::FrozenDict;
    }
}

pub mod float {
    pub use super::kinds::StarlarkFloat;
}

pub mod list {
    pub use super::kinds::ListRef;
    pub mod value {
        pub use super::super::kinds::FrozenList;
    }
}

pub mod none {
    pub use super::kinds::NoneType;
}

pub mod set {
    pub mod refs {
        pub use super::super::kinds::SetRef;
    }
    pub mod value {
        pub use super::super::kinds::FrozenSet;
    }
}

pub mod starlark_type_id {
    pub use super::traits::StarlarkTypeId;
}

pub mod string {
    pub mod str_type {
        pub use super::super::kinds::StarlarkStr;
    }
}

pub mod tuple {
    pub mod value {
        pub use super::super::kinds::Tuple;
    }
}

pub mod types {
    pub mod bigint {
        pub use super::super::kinds::StarlarkBigInt;
    }
    pub mod int {
        pub mod int_or_big {
            pub use super::super::super::kinds::StarlarkIntRef;
        }
    }
}

pub mod typing {
    pub mod any {
        pub use super::super::kinds::TypingAny;
    }
    pub mod never {
        pub use super::super::kinds::TypingNever;
    }
    pub mod type_compiled {
        pub mod alloc {
            include!(concat!(
                env!("STARLARK_TEXT"),
                "/values/typing/type_compiled/alloc.rs"
            ));
        }
        pub mod factory {
            include!(concat!(
                env!("STARLARK_TEXT"),
                "/values/typing/type_compiled/factory.rs"
            ));
        }
        pub mod matcher {
            include!(concat!(
                env!("STARLARK_TEXT"),
                "/values/typing/type_compiled/matcher.rs"
            ));
        }
        pub mod matchers {
            include!(concat!(
                env!("STARLARK_TEXT"),
                "/values/typing/type_compiled/matchers.rs"
            ));
        }
        pub mod compiled {
            pub use super::super::super::heap::TypeCompiled;
        }
        pub mod type_matcher_factory {
            pub use super::super::super::heap::TypeMatcherFactory;
        }
    }
}
