//! Stand-in for smol_str that stores texts as it does: up to 23 bytes in place, longer ones once for all copies.

use std::cmp::Ordering;
use std::fmt;
use std::hash::{Hash, Hasher};
use std::ops::Deref;
use std::sync::Arc;

const IN_PLACE: usize = 23;

#[derive(Clone)]
pub struct SmolStr(Text);

#[derive(Clone)]
enum Text {
    InPlace { length: u8, bytes: [u8; IN_PLACE] },
    Shared(Arc<str>),
}

impl SmolStr {
    pub fn new<T: AsRef<str>>(text: T) -> Self {
        let text = text.as_ref();
        if text.len() > IN_PLACE {
            return SmolStr(Text::Shared(text.into()));
        }
        let mut bytes = [0; IN_PLACE];
        bytes[..text.len()].copy_from_slice(text.as_bytes());
        SmolStr(Text::InPlace {
            length: text.len() as u8,
            bytes,
        })
    }
}

impl Deref for SmolStr {
    type Target = str;

    fn deref(&self) -> &str {
        match &self.0 {
            // SAFETY: `new` copied these bytes from a text.
            Text::InPlace { length, bytes } => unsafe {
                std::str::from_utf8_unchecked(bytes.get_unchecked(..usize::from(*length)))
            },
            Text::Shared(text) => text,
        }
    }
}

impl Default for SmolStr {
    fn default() -> Self {
        SmolStr::new("")
    }
}

impl PartialEq for SmolStr {
    fn eq(&self, other: &Self) -> bool {
        **self == **other
    }
}

impl Eq for SmolStr {}

impl PartialOrd for SmolStr {
    fn partial_cmp(&self, other: &Self) -> Option<Ordering> {
        Some(self.cmp(other))
    }
}

impl Ord for SmolStr {
    fn cmp(&self, other: &Self) -> Ordering {
        (**self).cmp(&**other)
    }
}

impl Hash for SmolStr {
    fn hash<H: Hasher>(&self, state: &mut H) {
        (**self).hash(state)
    }
}

impl fmt::Debug for SmolStr {
    fn fmt(&self, f: &mut fmt::Formatter<'_>) -> fmt::Result {
        fmt::Debug::fmt(&**self, f)
    }
}

impl fmt::Display for SmolStr {
    fn fmt(&self, f: &mut fmt::Formatter<'_>) -> fmt::Result {
        f.write_str(self)
    }
}
