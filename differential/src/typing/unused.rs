//! Names that the crate's text needs to compile and that no annotation of a job
//! ever reaches: callables' parameters, functions, structs, the typechecker.

use crate::codemap::CodeMap;
use crate::codemap::Span;
use crate::codemap::Spanned;
use crate::typing::custom::TyCustomImpl;
use crate::typing::ty::TypeRenderConfig;
use crate::typing::Ty;
use crate::values::typing::type_compiled::alloc::TypeMatcherAlloc;

pub struct ParamSpec;

#[derive(Clone, Copy)]
pub struct TypingOracleCtx {
    pub codemap: &'static CodeMap,
}

impl TypingOracleCtx {
    pub fn validate_call(
        &self,
        _span: Span,
        _fun: &Ty,
        _args: &call_args::TyCallArgs,
    ) -> Result<Ty, error::InternalError> {
        unreachable!()
    }

    pub fn intersects(&self, _x: &Ty, _y: &Ty) -> Result<bool, error::InternalError> {
        unreachable!()
    }

    pub fn mk_error<E>(&self, _span: Span, _error: E) -> error::TypingError {
        unreachable!()
    }
}

pub enum TypingBinOp {}

pub enum TypingUnOp {
    Plus,
    Minus,
    BitNot,
}

pub mod call_args {
    use super::*;

    pub struct TyCallArgs<'a> {
        pub pos: Vec<Spanned<Ty>>,
        pub named: Vec<Spanned<(&'a str, Ty)>>,
        pub args: Option<Spanned<Ty>>,
        pub kwargs: Option<Spanned<Ty>>,
    }
}

pub mod callable {
    use super::*;
    use std::fmt;

    /// `typing.Callable`; its parameters and result are left out.
    #[derive(Clone, Debug, PartialEq, Eq, Hash, PartialOrd, Ord)]
    pub struct TyCallable;

    impl TyCallable {
        pub fn new(_params: ParamSpec, _result: Ty) -> TyCallable {
            TyCallable
        }

        pub fn any() -> TyCallable {
            TyCallable
        }

        pub fn fmt_with_config(
            &self,
            f: &mut fmt::Formatter<'_>,
            _config: &TypeRenderConfig,
        ) -> fmt::Result {
            f.write_str("typing.Callable")
        }
    }
}

pub mod error {
    pub struct TypingNoContextError;
    pub struct TypingError;
    pub struct InternalError;

    impl InternalError {
        pub fn into_error(self) -> crate::outside::Fault {
            crate::outside::Fault
        }
    }
}

pub mod function {
    use super::*;
    use std::fmt::Debug;

    pub trait TyCustomFunctionImpl: Debug + Send + Sync + 'static {}

    #[derive(Debug)]
    pub struct TyCustomFunction<F>(pub F);

    impl<F: TyCustomFunctionImpl> TyCustomImpl for TyCustomFunction<F> {
        fn number(&self) -> u16 {
            unreachable!()
        }

        fn matcher<T: TypeMatcherAlloc>(&self, _factory: T) -> T::Result {
            unreachable!()
        }
    }

    #[derive(Debug)]
    pub struct TyFunction;

    impl TyFunction {
        pub fn new(_params: ParamSpec, _result: Ty) -> TyFunction {
            TyFunction
        }

        pub fn new_with_type_attr(_params: ParamSpec, _result: Ty, _type_attr: Ty) -> TyFunction {
            TyFunction
        }
    }

    impl TyCustomFunctionImpl for TyFunction {}
}
pub use function::TyFunction;

pub mod structs {
    use super::*;

    #[derive(Debug)]
    pub struct TyStruct;

    impl TyStruct {
        pub fn any() -> TyStruct {
            TyStruct
        }
    }

    impl TyCustomImpl for TyStruct {
        fn number(&self) -> u16 {
            unreachable!()
        }

        fn matcher<T: TypeMatcherAlloc>(&self, _factory: T) -> T::Result {
            unreachable!()
        }
    }
}
