//! Stand-in: a host's own test as a type. Two customs are the same when their
//! numbers are, no custom merges with another, and a wildcard is compiled to the
//! crate's `IsAny`.

use std::cmp::Ordering;
use std::fmt;
use std::fmt::Debug;
use std::fmt::Display;
use std::hash::Hash;
use std::hash::Hasher;
use std::sync::Arc;

use crate::typing::TyFunction;
use crate::values::typing::type_compiled::alloc::TypeMatcherAlloc;
use crate::values::typing::type_compiled::compiled::TypeCompiled;
use crate::values::typing::type_compiled::factory::TypeCompiledFactory;
use crate::values::typing::type_compiled::matcher::TypeMatcher;
use crate::values::typing::type_compiled::matcher::TypeMatcherBox;
use crate::values::typing::type_compiled::matcher::TypeMatcherBoxAlloc;
use crate::values::Value;

pub trait TyCustomImpl: Debug + Send + Sync + 'static {
    fn number(&self) -> u16;
    fn matcher<T: TypeMatcherAlloc>(&self, factory: T) -> T::Result;
}

pub(crate) trait TyCustomDyn: Debug + Send + Sync + 'static {
    fn number_dyn(&self) -> u16;
    fn as_function_dyn(&self) -> Option<&TyFunction> {
        None
    }
    fn matcher_box_dyn(&self) -> TypeMatcherBox;
    fn type_compiled_dyn<'v>(&self, f: TypeCompiledFactory<'_, 'v>) -> TypeCompiled<Value<'v>>;
}

impl<C: TyCustomImpl> TyCustomDyn for C {
    fn number_dyn(&self) -> u16 {
        self.number()
    }

    fn matcher_box_dyn(&self) -> TypeMatcherBox {
        self.matcher(TypeMatcherBoxAlloc)
    }

    fn type_compiled_dyn<'v>(&self, f: TypeCompiledFactory<'_, 'v>) -> TypeCompiled<Value<'v>> {
        self.matcher(f)
    }
}

#[derive(Clone, Debug)]
pub struct TyCustom(pub(crate) Arc<dyn TyCustomDyn>);

impl TyCustom {
    pub fn new(custom: impl TyCustomImpl) -> TyCustom {
        TyCustom(Arc::new(custom))
    }

    pub fn number(&self) -> u16 {
        self.0.number_dyn()
    }

    pub fn as_name(&self) -> Option<&str> {
        None
    }

    pub(crate) fn union2(
        x: TyCustom,
        y: TyCustom,
    ) -> std::result::Result<TyCustom, (TyCustom, TyCustom)> {
        Err((x, y))
    }

    pub(crate) fn matcher_with_box(&self) -> TypeMatcherBox {
        self.0.matcher_box_dyn()
    }

    pub(crate) fn matcher_with_type_compiled_factory<'v>(
        &self,
        factory: TypeCompiledFactory<'_, 'v>,
    ) -> TypeCompiled<Value<'v>> {
        self.0.type_compiled_dyn(factory)
    }
}

impl Display for TyCustom {
    fn fmt(&self, f: &mut fmt::Formatter<'_>) -> fmt::Result {
        write!(f, "custom.{}", self.number())
    }
}

impl PartialEq for TyCustom {
    fn eq(&self, other: &Self) -> bool {
        self.number() == other.number()
    }
}

impl Eq for TyCustom {}

impl Hash for TyCustom {
    fn hash<H: Hasher>(&self, state: &mut H) {
        self.number().hash(state)
    }
}

impl PartialOrd for TyCustom {
    fn partial_cmp(&self, other: &Self) -> Option<Ordering> {
        Some(self.cmp(other))
    }
}

impl Ord for TyCustom {
    fn cmp(&self, other: &Self) -> Ordering {
        self.number().cmp(&other.number())
    }
}

/// What a custom number means in one job.
#[derive(Clone, Copy, Debug)]
pub enum Entry {
    /// Says yes to this type number and mark; type number 0 says yes to all.
    Mark { number: u16, mark: i64 },
    /// Says yes to small ints that are not outside.
    Range { low: i64, high: i64 },
    /// No entry of this number: says no.
    Missing,
}

impl Entry {
    pub fn is_wildcard(self) -> bool {
        matches!(self, Entry::Mark { number: 0, .. })
    }

    pub fn says(self, number: u16, flags: u8, mark: i64) -> bool {
        match self {
            Entry::Mark { number: 0, .. } => true,
            Entry::Mark { number: n, mark: m } => n == number && m == mark,
            Entry::Range { low, high } => number == 1 && flags == 0 && low <= mark && mark <= high,
            Entry::Missing => false,
        }
    }
}

#[derive(Clone, Copy, Debug)]
pub struct HostCustom {
    pub number: u16,
    pub entry: Entry,
}

impl TyCustomImpl for HostCustom {
    fn number(&self) -> u16 {
        self.number
    }

    fn matcher<T: TypeMatcherAlloc>(&self, factory: T) -> T::Result {
        if self.entry.is_wildcard() {
            factory.any()
        } else {
            factory.alloc(Custom(*self))
        }
    }
}

/// The matcher of a custom that is no wildcard.
#[derive(Clone, Copy)]
pub struct Custom(HostCustom);

impl Debug for Custom {
    fn fmt(&self, f: &mut fmt::Formatter<'_>) -> fmt::Result {
        write!(f, "Custom({})", self.0.number)
    }
}

impl TypeMatcher for Custom {
    fn matches(&self, value: Value) -> bool {
        let cell = value.cell();
        self.0.entry.says(cell.number, cell.flags, cell.mark)
    }
}
