//! Stand-in for the predefined property sets: none. `GlobalScope::from_trees`
//! registers them for the lookup of properties, which the oracle never asks.

use crate::item_tree::ComponentCategory;

pub const STANDARD_PROPERTY_SET_NAMES: &[&str] = &[];

pub const INHERIT_PROPERTIES: &[InheritProperty] = &[];

pub struct InheritProperty {
    pub name: &'static str,
    pub property_set: &'static str,
}

impl InheritProperty {
    pub fn accepts(&self, _: ComponentCategory, _: bool) -> bool {
        unimplemented!()
    }
}

pub fn standard_properties_in_set(_: &str) -> Vec<&'static str> {
    Vec::new()
}
