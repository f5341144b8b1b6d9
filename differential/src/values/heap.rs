//! Stand-ins for values and heaps. A value is a pointer to a cell; a cell has a
//! type number, flags, a mark and parts, or holds a compiled annotation.

use std::cell::RefCell;
use std::marker::PhantomData;
use std::sync::Arc;
use std::sync::OnceLock;

use crate::typing::Ty;
use crate::values::traits::AValueVTable;
use crate::values::traits::StarlarkTypeId;
use crate::values::traits::VTABLES;
use crate::values::typing::type_compiled::factory::TypeCompiledFactory;
use crate::values::typing::type_compiled::matcher::TypeMatcher;
use crate::values::typing::type_compiled::matcher::TypeMatcherBox;

pub struct Cell {
    pub number: u16,
    pub flags: u8,
    pub mark: i64,
    parts: Box<[Value<'static>]>,
    compiled: Option<(TypeMatcherBox, Ty)>,
}

#[derive(Clone, Copy)]
pub struct Value<'v>(*const Cell, PhantomData<&'v Cell>);

impl<'v> Value<'v> {
    #[inline]
    pub fn cell(self) -> &'v Cell {
        // A value is made by an arena that outlives 'v, whose cells no longer change.
        unsafe { &*self.0 }
    }

    #[inline]
    pub fn parts(self) -> &'v [Value<'v>] {
        &self.cell().parts
    }

    #[inline]
    pub fn starlark_type_id(self) -> StarlarkTypeId {
        StarlarkTypeId(self.cell().number)
    }

    #[inline]
    pub fn is_none(self) -> bool {
        self.cell().number == 3
    }

    #[inline]
    pub fn unpack_bool(self) -> Option<bool> {
        (self.cell().number == 2).then(|| self.cell().mark != 0)
    }

    #[inline]
    pub fn unpack_str(self) -> Option<&'v str> {
        (self.cell().number == 4).then_some("")
    }

    #[inline]
    pub fn vtable(self) -> &'static AValueVTable {
        &VTABLES[(self.cell().flags & 7) as usize]
    }

    // The two that follow serve `Ty::of_value`, which no job reaches.

    pub fn get_ref(self) -> Value<'v> {
        self
    }

    pub fn typechecker_ty(self) -> Option<Ty> {
        unreachable!()
    }

    pub fn get_type_starlark_repr(self) -> Ty {
        unreachable!()
    }
}

/// A cell as a job gives it.
pub struct CellText {
    pub number: u16,
    pub flags: u8,
    pub mark: i64,
    pub parts: Vec<u16>,
}

/// Owns the cells of one job and its compiled annotations.
#[derive(Default)]
pub struct Arena {
    cells: Vec<*mut Cell>,
    compiled: RefCell<Vec<*mut Cell>>,
}

impl Arena {
    /// Every part names a cell of the list, later ones too.
    pub fn new(cells: &[CellText]) -> Arena {
        let made: Vec<*mut Cell> = cells
            .iter()
            .map(|c| {
                Box::into_raw(Box::new(Cell {
                    number: c.number,
                    flags: c.flags,
                    mark: c.mark,
                    parts: Box::new([]),
                    compiled: None,
                }))
            })
            .collect();
        for (cell, text) in made.iter().zip(cells) {
            let parts = text
                .parts
                .iter()
                .map(|p| Value(made[*p as usize], PhantomData))
                .collect();
            // No reference to a cell has been made yet.
            unsafe { (**cell).parts = parts };
        }
        Arena {
            cells: made,
            compiled: RefCell::new(Vec::new()),
        }
    }

    pub fn value(&self, number: usize) -> Option<Value<'_>> {
        Some(Value(*self.cells.get(number)?, PhantomData))
    }

    pub fn heap(&self) -> Heap<'_> {
        Heap(self)
    }
}

impl Drop for Arena {
    fn drop(&mut self) {
        for cell in self
            .cells
            .drain(..)
            .chain(self.compiled.get_mut().drain(..))
        {
            drop(unsafe { Box::from_raw(cell) });
        }
    }
}

#[derive(Clone, Copy)]
pub struct Heap<'v>(&'v Arena);

fn compiled_cell(matcher: TypeMatcherBox, ty: Ty) -> *mut Cell {
    Box::into_raw(Box::new(Cell {
        number: 0,
        flags: 4,
        mark: 0,
        parts: Box::new([]),
        compiled: Some((matcher, ty)),
    }))
}

/// A value that holds a compiled annotation.
#[derive(Clone, Copy)]
pub struct TypeCompiled<V>(V);

impl<V> TypeCompiled<V> {
    pub(crate) fn unchecked_new(value: V) -> TypeCompiled<V> {
        TypeCompiled(value)
    }
}

impl<'v> TypeCompiled<Value<'v>> {
    pub(crate) fn alloc(
        type_compiled_impl: impl TypeMatcher,
        ty: Ty,
        heap: Heap<'v>,
    ) -> TypeCompiled<Value<'v>> {
        let cell = compiled_cell(TypeMatcherBox::new(type_compiled_impl), ty);
        heap.0.compiled.borrow_mut().push(cell);
        TypeCompiled(Value(cell, PhantomData))
    }

    #[inline]
    pub fn matcher(&self) -> &'v TypeMatcherBox {
        match &self.0.cell().compiled {
            Some((matcher, _)) => matcher,
            None => unreachable!(),
        }
    }

    /// Asks the matcher that was allocated, as the crate's value does.
    #[inline]
    pub fn matches(&self, value: Value<'v>) -> bool {
        self.matcher().matches(value)
    }
}

#[derive(Clone, Copy)]
pub struct FrozenValue(*const Cell);

impl FrozenValue {
    pub fn to_value<'v>(self) -> Value<'v> {
        Value(self.0, PhantomData)
    }
}

crate::static_value::static_type_compiled!(
    TYPE_COMPILED_ANY: crate::values::typing::type_compiled::matchers::IsAny, Ty::any());

impl TypeCompiled<FrozenValue> {
    pub fn any() -> TypeCompiled<FrozenValue> {
        TypeCompiled(TYPE_COMPILED_ANY.to_frozen_value())
    }

    pub fn to_value<'v>(self) -> TypeCompiled<Value<'v>> {
        TypeCompiled(self.0.to_value())
    }
}

/// An annotation that is compiled once for the whole program.
pub struct StaticTypeCompiled {
    make: fn() -> (TypeMatcherBox, Ty),
    made: OnceLock<Kept>,
}

struct Kept(*const Cell);

// The cell never changes after it is made; matchers and types are Send and Sync.
unsafe impl Send for Kept {}
unsafe impl Sync for Kept {}

impl StaticTypeCompiled {
    pub const fn new(make: fn() -> (TypeMatcherBox, Ty)) -> StaticTypeCompiled {
        StaticTypeCompiled {
            make,
            made: OnceLock::new(),
        }
    }

    pub fn to_frozen_value(&self) -> FrozenValue {
        let kept = self.made.get_or_init(|| {
            let (matcher, ty) = (self.make)();
            Kept(compiled_cell(matcher, ty))
        });
        FrozenValue(kept.0)
    }
}

/// A host's boxed matcher; no annotation of a job has one.
pub trait TypeMatcherFactoryDyn: Send + Sync + 'static {
    fn matcher_box(&self) -> TypeMatcherBox;
    fn type_compiled<'v>(&self, factory: TypeCompiledFactory<'_, 'v>) -> TypeCompiled<Value<'v>>;
}

pub struct TypeMatcherFactory {
    pub(crate) factory: Arc<dyn TypeMatcherFactoryDyn>,
}
