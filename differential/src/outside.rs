//! Stand-ins for the packages that the crate's text names: `pagable`,
//! `allocative`, `dupe`, `either`, `starlark_derive`, `starlark_syntax`,
//! `thiserror`, `display_container`. Paging and memory accounting are empty here.

use std::fmt;
use std::fmt::Display;

pub use standins_derive::pagable_tagged;
pub use standins_derive::pagable_typetag;
pub use standins_derive::type_matcher;
pub use standins_derive::Allocative;
pub use standins_derive::Dupe;
pub use standins_derive::Error;
pub use standins_derive::Pagable;
pub use standins_derive::Trace;

/// The text's own result type, of `crate::Result` and `pagable::Result`.
pub type Result<T, E = Fault> = std::result::Result<T, E>;

#[derive(Debug)]
pub struct Fault;

// allocative, dupe, either

pub trait Allocative {}
impl<T: ?Sized> Allocative for T {}

pub trait Dupe: Clone {
    fn dupe(&self) -> Self {
        self.clone()
    }
}
impl<T: Clone> Dupe for T {}

pub trait IterDupedExt<'a, T: Clone + 'a>: Iterator<Item = &'a T> + Sized {
    fn duped(self) -> std::iter::Cloned<Self> {
        self.cloned()
    }
}
impl<'a, T: Clone + 'a, I: Iterator<Item = &'a T>> IterDupedExt<'a, T> for I {}

pub enum Either<L, R> {
    Left(L),
    Right(R),
}

// pagable

pub trait Pagable {}
impl<T: ?Sized> Pagable for T {}

pub mod typetag {
    pub trait PagableTagged {}
    impl<T: ?Sized> PagableTagged for T {}

    pub trait PagableRegisteredFor<D: ?Sized> {}
    impl<T: ?Sized, D: ?Sized> PagableRegisteredFor<D> for T {}
}
pub use typetag::PagableRegisteredFor;

pub trait PagableSerializer {}
pub trait PagableSerialize {
    fn pagable_serialize(&self, serializer: &mut dyn PagableSerializer) -> Result<()>;
}
pub trait PagableDeserializer<'de> {}
pub trait PagableDeserialize<'de>: Sized {
    fn pagable_deserialize<D: PagableDeserializer<'de> + ?Sized>(d: &mut D) -> Result<Self>;
}

#[macro_export]
macro_rules! declare_static_value_type {
    ($($t:tt)*) => {};
}

#[macro_export]
macro_rules! register_type_matcher {
    ($($t:tt)*) => {};
}

/// The place of the four annotations that the crate compiles once for all.
pub mod static_value {
    macro_rules! static_type_compiled {
        ($name:ident: $matcher:expr, $ty:expr) => {
            pub(crate) static $name: crate::values::heap::StaticTypeCompiled =
                crate::values::heap::StaticTypeCompiled::new(|| {
                    (
                        crate::values::typing::type_compiled::matcher::TypeMatcherBox::new(
                            $matcher,
                        ),
                        $ty,
                    )
                });
        };
    }
    pub(crate) use static_type_compiled;
}

// starlark_syntax

pub mod slice_vec_ext {
    pub trait SliceExt<T> {
        fn map<U>(&self, f: impl FnMut(&T) -> U) -> Vec<U>;
    }
    impl<T> SliceExt<T> for [T] {
        fn map<U>(&self, f: impl FnMut(&T) -> U) -> Vec<U> {
            self.iter().map(f).collect()
        }
    }
}

pub mod codemap {
    pub struct CodeMap;
    impl CodeMap {
        pub fn empty_static() -> &'static CodeMap {
            &CodeMap
        }
    }
    #[derive(Clone, Copy, Default)]
    pub struct Span;
    pub struct Spanned<T> {
        pub span: Span,
        pub node: T,
    }
}

// display_container

pub fn fmt_container<T: Display>(
    f: &mut fmt::Formatter<'_>,
    before: &str,
    after: &str,
    items: impl IntoIterator<Item = T>,
) -> fmt::Result {
    f.write_str(before)?;
    for (i, item) in items.into_iter().enumerate() {
        if i != 0 {
            f.write_str(", ")?;
        }
        write!(f, "{item}")?;
    }
    f.write_str(after)
}
