//! Stand-in for rustc-hash: the standard maps under the Fx names. The order of
//! iteration differs, but no function that the oracle runs iterates over a map.

pub type FxHashMap<K, V> = std::collections::HashMap<K, V>;
pub type FxHashSet<K> = std::collections::HashSet<K>;
