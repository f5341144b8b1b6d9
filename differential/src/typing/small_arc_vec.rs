//! Stand-in: a shared list that holds none, one in place, or many. Compared as
//! the slice that it holds.

use std::cmp::Ordering;
use std::hash::Hash;
use std::hash::Hasher;
use std::ops::Deref;
use std::sync::Arc;

#[derive(Clone, Debug)]
enum Held<T> {
    Empty,
    One(T),
    Many(Arc<[T]>),
}

#[derive(Clone, Debug)]
pub struct SmallArcVec1<T>(Held<T>);

impl<T> SmallArcVec1<T> {
    pub const fn empty() -> SmallArcVec1<T> {
        SmallArcVec1(Held::Empty)
    }

    pub const fn one(item: T) -> SmallArcVec1<T> {
        SmallArcVec1(Held::One(item))
    }

    pub fn as_slice(&self) -> &[T] {
        match &self.0 {
            Held::Empty => &[],
            Held::One(item) => std::slice::from_ref(item),
            Held::Many(items) => items,
        }
    }
}

impl<T> Deref for SmallArcVec1<T> {
    type Target = [T];

    fn deref(&self) -> &[T] {
        self.as_slice()
    }
}

impl<T> FromIterator<T> for SmallArcVec1<T> {
    fn from_iter<I: IntoIterator<Item = T>>(items: I) -> SmallArcVec1<T> {
        let mut items: Vec<T> = items.into_iter().collect();
        SmallArcVec1(match items.len() {
            0 => Held::Empty,
            1 => Held::One(items.remove(0)),
            _ => Held::Many(items.into()),
        })
    }
}

impl<T: PartialEq> PartialEq for SmallArcVec1<T> {
    fn eq(&self, other: &Self) -> bool {
        self.as_slice() == other.as_slice()
    }
}

impl<T: Eq> Eq for SmallArcVec1<T> {}

impl<T: Hash> Hash for SmallArcVec1<T> {
    fn hash<H: Hasher>(&self, state: &mut H) {
        self.as_slice().hash(state)
    }
}

impl<T: PartialOrd> PartialOrd for SmallArcVec1<T> {
    fn partial_cmp(&self, other: &Self) -> Option<Ordering> {
        self.as_slice().partial_cmp(other.as_slice())
    }
}

impl<T: Ord> Ord for SmallArcVec1<T> {
    fn cmp(&self, other: &Self) -> Ordering {
        self.as_slice().cmp(other.as_slice())
    }
}
