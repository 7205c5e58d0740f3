//! Stand-in written from document 01, only what the four files use. It is not the crate of that
//! name.

pub mod hash {
    pub type GHashMap<K, V> = std::collections::HashMap<K, V>;
    pub type GHashSet<K> = std::collections::HashSet<K>;
}
