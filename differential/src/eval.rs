//! Stand-in for the crate's vector with room for one in place.

pub mod compiler {
    pub mod small_vec_1 {
        pub struct SmallVec1<T>(Vec<T>);

        impl<T> SmallVec1<T> {
            pub fn new() -> SmallVec1<T> {
                SmallVec1(Vec::new())
            }

            pub fn push(&mut self, item: T) {
                self.0.push(item)
            }
        }

        impl<T> IntoIterator for SmallVec1<T> {
            type Item = T;
            type IntoIter = std::vec::IntoIter<T>;

            fn into_iter(self) -> Self::IntoIter {
                self.0.into_iter()
            }
        }
    }
}
