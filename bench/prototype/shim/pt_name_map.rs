//! A stand-in for maps from names: a list, which is what the real one is for few names.
use crate::pt_value::Text;
use crate::rstd::alloc::{AllocError, Global};
use crate::rstd::prelude::*;
#[repr(C)]
struct Entry<V> {
    name: Text,
    value: V,
}
#[repr(C)]
pub struct NameMap<V> {
    few: Vec<Entry<V>>,
    others: [u64; 10],
}
fn place_of<V>(entries: &[Entry<V>], name: &str) -> Option<usize> {
    for (place, entry) in entries.iter().enumerate() {
        if entry.name.as_str() == name {
            return Some(place);
        }
    }
    None
}
impl<V> NameMap<V> {
    pub fn new(alloc: Global) -> NameMap<V> {
        NameMap { few: Vec::new(alloc), others: [0; 10] }
    }
    pub fn put(&mut self, alloc: Global, name: &str, value: V) -> Result<(), AllocError> {
        match place_of(&self.few, name) {
            Some(place) => {
                self.few[place].value = value;
                Ok(())
            }
            None => {
                self.few.push(Entry { name: Text::of(alloc, name)?, value })?;
                Ok(())
            }
        }
    }
    pub fn get(&self, name: &str) -> Option<&V> {
        for entry in &self.few {
            if entry.name.as_str() == name {
                return Some(&entry.value);
            }
        }
        None
    }
}
