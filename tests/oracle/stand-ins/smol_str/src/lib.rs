//! Stand-in for smol_str: an owned string with SmolStr's constructor.

use std::fmt;

#[derive(Clone, PartialEq, Eq, Hash, Default, PartialOrd, Ord)]
pub struct SmolStr(String);

impl SmolStr {
    pub fn new<T: AsRef<str>>(text: T) -> Self {
        SmolStr(text.as_ref().to_string())
    }
}

impl std::ops::Deref for SmolStr {
    type Target = str;

    fn deref(&self) -> &str {
        &self.0
    }
}

impl fmt::Debug for SmolStr {
    fn fmt(&self, f: &mut fmt::Formatter<'_>) -> fmt::Result {
        fmt::Debug::fmt(&self.0, f)
    }
}

impl fmt::Display for SmolStr {
    fn fmt(&self, f: &mut fmt::Formatter<'_>) -> fmt::Result {
        f.write_str(&self.0)
    }
}
