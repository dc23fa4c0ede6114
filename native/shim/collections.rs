//! Rattle's functions of `Box`, `Vec`, `String`, `BTreeMap` and `BTreeSet`, by the names that the eraser gives them: each is one
//! call of Rust's std.

use super::std::alloc::{AllocError, Global};
use alloc::boxed::Box;
use alloc::collections::{BTreeMap, BTreeSet};
use alloc::string::String;
use alloc::vec::Vec;
use core::fmt;

type Made<T> = Result<T, AllocError>;

/// Declares a trait with functions, and the type that has them.
macro_rules! functions {
    ($($trait:ident<$($letter:ident),*> for $ty:ty, [$($bounds:tt)*] {
        $(fn $name:ident($($parameters:tt)*) -> $result:ty $body:block)*
    })*) => {$(
        pub trait $trait<$($letter),*>: Sized {
            $(fn $name($($parameters)*) -> $result;)*
        }

        impl<$($bounds)*> $trait<$($letter),*> for $ty {
            $(
                #[inline(always)]
                fn $name($($parameters)*) -> $result $body
            )*
        }
    )*};
}

functions! {
    RattleBox<T> for Box<T>, [T] {
        fn rattle_new(_: Global, value: T) -> Made<Box<T>> { Ok(Box::new(value)) }
        fn rattle_into_inner(boxed: Box<T>) -> T { *boxed }
    }

    RattleVec<T> for Vec<T>, [T] {
        fn rattle_new(_: Global) -> Self { Vec::new() }
        fn rattle_with_capacity(_: Global, capacity: usize) -> Made<Self> { Ok(Vec::with_capacity(capacity)) }
        fn rattle_push(&mut self, value: T) -> Made<()> { self.push(value); Ok(()) }
        fn rattle_push_reserved(&mut self, value: T) -> () { self.push(value) }
        fn rattle_insert(&mut self, index: usize, value: T) -> Made<()> { self.insert(index, value); Ok(()) }
        fn rattle_reserve(&mut self, count: usize) -> Made<()> { self.reserve(count); Ok(()) }
    }

    RattleExtend<T> for Vec<T>, [T: Copy] {
        fn rattle_extend_from_slice(&mut self, values: &[T]) -> Made<()> { self.extend_from_slice(values); Ok(()) }
    }

    RattleString<> for String, [] {
        fn rattle_new(_: Global) -> Self { String::new() }
        fn rattle_from_str(_: Global, text: &str) -> Made<Self> { Ok(String::from(text)) }
        fn rattle_push(&mut self, c: char) -> Made<()> { self.push(c); Ok(()) }
        fn rattle_push_str(&mut self, text: &str) -> Made<()> { self.push_str(text); Ok(()) }
    }

    RattleMap<K, V> for BTreeMap<K, V>, [K: Ord, V] {
        fn rattle_new(_: Global) -> Self { BTreeMap::new() }
        fn rattle_insert(&mut self, key: K, value: V) -> Made<Option<V>> { Ok(self.insert(key, value)) }
    }

    RattleSet<T> for BTreeSet<T>, [T: Ord] {
        fn rattle_new(_: Global) -> Self { BTreeSet::new() }
        fn rattle_insert(&mut self, value: T) -> Made<bool> { Ok(self.insert(value)) }
    }
}

/// `write!` to a String, whose error is out of memory.
pub trait RattleWrite {
    fn write_fmt(&mut self, args: fmt::Arguments<'_>) -> Made<()>;
}

impl RattleWrite for String {
    #[inline]
    fn write_fmt(&mut self, args: fmt::Arguments<'_>) -> Made<()> {
        if fmt::Write::write_fmt(self, args).is_err() {
            unreachable!("no `Display` here gives an error of its own");
        }
        Ok(())
    }
}

#[cfg(test)]
mod tests {
    use super::*;

    #[test]
    fn values_are_put_where_they_belong() {
        let mut values = Vec::rattle_new(Global);
        assert_eq!(values.rattle_push(1), Ok(()));
        assert_eq!(values.rattle_extend_from_slice(&[3, 4]), Ok(()));
        assert_eq!(values, [1, 3, 4]);
        let mut text = String::rattle_from_str(Global, "a").unwrap();
        assert_eq!((text.rattle_push_str("bc"), text.rattle_push('é')), (Ok(()), Ok(())));
        assert_eq!(write!(text, "{:>3}", 4), Ok(()));
        assert_eq!(text, "abcé  4");
    }

    #[test]
    fn a_second_value_replaces_the_first() {
        let mut map = BTreeMap::rattle_new(Global);
        assert_eq!(
            (map.rattle_insert(1, 'a'), map.rattle_insert(1, 'b')),
            (Ok(None), Ok(Some('a')))
        );
        assert_eq!(map[&1], 'b');
        let mut set = BTreeSet::rattle_new(Global);
        assert_eq!((set.rattle_insert(1), set.rattle_insert(1)), (Ok(true), Ok(false)));
    }
}
