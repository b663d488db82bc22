//! Stand-in for fontique's collection: families and one fallback list, by identifier.
//!
//! The query below it is the original. Names, generic families and system
//! fonts are out of scope, so they are never found here.

include!(concat!(env!("OUT_DIR"), "/original_collection.rs"));

pub use query::{Query, QueryFamily, QueryFont, QueryStatus};

use crate::{FallbackKey, FamilyId, FamilyInfo, GenericFamily, Script, SourceCache};

#[derive(Clone, Default)]
pub struct Collection {
    inner: Inner,
    query_state: query::QueryState,
}

impl Collection {
    /// The key that the fallback list stands under.
    pub fn fallback_key() -> FallbackKey {
        Script::from_bytes(*b"Latn").into()
    }

    pub fn add_family(&mut self, family: FamilyInfo) {
        self.inner.families.push(family);
    }

    pub fn set_fallbacks(&mut self, families: impl IntoIterator<Item = FamilyId>) {
        self.inner.fallbacks = families.into_iter().collect();
    }

    pub fn query<'a>(&'a mut self, source_cache: &'a mut SourceCache) -> Query<'a> {
        Query::new(self, source_cache)
    }
}

#[derive(Clone, Default)]
struct Inner {
    families: Vec<FamilyInfo>,
    fallbacks: Vec<FamilyId>,
}

impl Inner {
    fn family_id(&self, _name: &str) -> Option<FamilyId> {
        None
    }

    fn generic_families(&self, family: GenericFamily) -> std::iter::Empty<FamilyId> {
        match family {}
    }

    fn family(&self, id: FamilyId) -> Option<FamilyInfo> {
        self.families
            .iter()
            .find(|family| family.id() == id)
            .cloned()
    }

    /// The query also asks for the families of `Hani`: there are none.
    fn fallback_families(&self, key: FallbackKey) -> impl Iterator<Item = FamilyId> {
        let known = key == Collection::fallback_key();
        self.fallbacks.iter().copied().filter(move |_| known)
    }
}

#[cfg(test)]
mod tests;
