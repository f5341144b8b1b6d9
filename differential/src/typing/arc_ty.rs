//! Stand-in: a shared type, compared by what it holds.

use std::fmt;
use std::ops::Deref;
use std::sync::Arc;

use crate::typing::Ty;

#[derive(Clone, Debug, PartialEq, Eq, Hash, PartialOrd, Ord)]
pub struct ArcTy(Arc<Ty>);

impl ArcTy {
    pub fn new(ty: Ty) -> ArcTy {
        ArcTy(Arc::new(ty))
    }

    pub fn any() -> ArcTy {
        ArcTy::new(Ty::any())
    }

    /// The union of two shared types is the union of what they hold.
    pub fn union2(a: ArcTy, b: ArcTy) -> ArcTy {
        ArcTy::new(Ty::union2((*a.0).clone(), (*b.0).clone()))
    }
}

impl Deref for ArcTy {
    type Target = Ty;

    fn deref(&self) -> &Ty {
        &self.0
    }
}

impl fmt::Display for ArcTy {
    fn fmt(&self, f: &mut fmt::Formatter<'_>) -> fmt::Result {
        fmt::Display::fmt(&*self.0, f)
    }
}
