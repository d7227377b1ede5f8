//! Stand-in for the property maps: one text for each property. The oracle runs
//! `new`, `put` and `get` only; the rest has the signatures that the original
//! calls, and no body.

use std::borrow::Cow;
use std::collections::HashMap;

use crate::instance::ComponentInstanceIdx;
use crate::item_tree::PropertyExpr;
use crate::name::{Name, PropertyRef};
use crate::resolver::CiName;

type Key = (CiName, CiName);

#[derive(Debug, Clone)]
pub struct PropertyValue {
    pub name: PropertyRef,
    pub value: String,
    pub typed_expr: Option<PropertyExpr>,
    pub is_append: bool,
}

#[derive(Debug, Clone)]
pub struct ModalValue {
    pub in_modes: Vec<Name>,
    pub value: PropertyValue,
}

#[derive(Debug, Clone)]
pub struct ModalBinding {
    pub mode_context: ComponentInstanceIdx,
    pub values: Vec<ModalValue>,
}

#[derive(Debug, Clone)]
pub enum PropertySource {
    Classifier {
        classifier: String,
    },
    Implementation {
        classifier: String,
    },
    Refined {
        subcomponent: String,
        declared_in: String,
    },
    DeclaredLocal,
    Contained {
        declarer: ComponentInstanceIdx,
    },
    ContainedUnresolved {
        path: String,
    },
}

#[derive(Debug, Clone, Default)]
pub struct PropertyMap {
    text: HashMap<Key, String>,
}

impl PropertyMap {
    pub fn new() -> Self {
        Self::default()
    }

    pub fn is_empty(&self) -> bool {
        self.text.is_empty()
    }

    /// The text of a property, as it was put in.
    pub fn get(&self, set: &str, name: &str) -> Option<&str> {
        self.text.get(&key(set, name)).map(String::as_str)
    }

    /// Not in the original: how the oracle fills the map.
    pub fn put(&mut self, set: &str, name: &str, value: &str) {
        self.text.insert(key(set, name), value.to_string());
    }

    pub fn key_of(_: &PropertyRef) -> Key {
        unimplemented!()
    }

    pub fn has_key(&self, _: &Key) -> bool {
        unimplemented!()
    }

    pub fn values_for_key(&self, _: &Key) -> Option<&Vec<PropertyValue>> {
        unimplemented!()
    }

    pub fn reference_context(&self, _: &str, _: &str) -> Option<ComponentInstanceIdx> {
        unimplemented!()
    }

    pub fn reference_context_for_key(&self, _: &Key) -> Option<ComponentInstanceIdx> {
        unimplemented!()
    }

    pub fn sources_for_key(&self, _: &Key) -> &[PropertySource] {
        unimplemented!()
    }

    pub fn modal_for_key(&self, _: &Key) -> Option<&ModalBinding> {
        unimplemented!()
    }

    pub fn has_modal_values(&self) -> bool {
        unimplemented!()
    }

    pub fn in_mode<'a, F>(&self, _: F) -> Cow<'_, PropertyMap>
    where
        F: Fn(ComponentInstanceIdx) -> Option<&'a str>,
    {
        unimplemented!()
    }

    pub fn add_modal(
        &mut self,
        _: PropertyValue,
        _: PropertySource,
        _: Option<ModalBinding>,
        _: Option<ComponentInstanceIdx>,
    ) {
        unimplemented!()
    }

    pub fn add_from(&mut self, _: PropertyValue, _: PropertySource) {
        unimplemented!()
    }

    pub fn add_with_reference_context(&mut self, _: PropertyValue, _: ComponentInstanceIdx) {
        unimplemented!()
    }

    pub fn insert_inherited(
        &mut self,
        _: Key,
        _: Vec<PropertyValue>,
        _: ComponentInstanceIdx,
        _: ComponentInstanceIdx,
        _: &[PropertySource],
        _: Option<ModalBinding>,
    ) {
        unimplemented!()
    }
}

fn key(set: &str, name: &str) -> Key {
    (CiName::from_str(set), CiName::from_str(name))
}
