// Lists and boxes that print as those of the tool's tree do.

use std::fmt::{Debug, Formatter, Result};
use std::ops::{Deref, DerefMut};

pub struct Items<T>(pub Vec<T>);

impl<T> Items<T> {
    pub fn new() -> Items<T> {
        Items(Vec::new())
    }

    pub fn one(item: T) -> Items<T> {
        Items(vec![item])
    }
}

impl<T> Deref for Items<T> {
    type Target = Vec<T>;

    fn deref(&self) -> &Vec<T> {
        &self.0
    }
}

impl<T> DerefMut for Items<T> {
    fn deref_mut(&mut self) -> &mut Vec<T> {
        &mut self.0
    }
}

impl<T: Debug> Debug for Items<T> {
    fn fmt(&self, f: &mut Formatter) -> Result {
        f.debug_struct("Items").field("items", &self.0).finish()
    }
}

pub struct Boxed<T>(pub Box<T>);

impl<T> Boxed<T> {
    pub fn new(item: T) -> Boxed<T> {
        Boxed(Box::new(item))
    }
}

impl<T: Debug> Debug for Boxed<T> {
    fn fmt(&self, f: &mut Formatter) -> Result {
        f.debug_struct("Boxed").field("inner", &self.0).finish()
    }
}
