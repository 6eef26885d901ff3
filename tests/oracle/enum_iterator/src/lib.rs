//! Stands in for enum_iterator 1.x, of which Debian has only 0.6: the variants of an enum in the order of their declaration.
pub use enum_iterator_derive::Sequence;

pub trait Sequence: Sized {
    fn variants() -> Vec<Self>;
}

pub fn all<T: Sequence>() -> std::vec::IntoIter<T> {
    T::variants().into_iter()
}
