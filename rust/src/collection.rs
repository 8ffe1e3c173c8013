//! The collections that fields lie in.
use crate::usage::Usage;
use std::hash::{Hash, Hasher};
use std::sync::Arc;

pub use crate::c::CollectionKind as CollectionType;

/// The number of a collection, counted over the descriptor from 0.
#[derive(Clone, Copy, Debug, PartialEq, Eq, PartialOrd, Ord, Hash)]
pub struct CollectionId(pub(crate) u32);

impl From<CollectionId> for u32 {
    fn from(id: CollectionId) -> u32 {
        id.0
    }
}

/// A collection that fields lie in (Section 6.2.2.6). Two are equal where their ids are.
#[derive(Clone, Debug)]
pub struct Collection {
    pub(crate) id: CollectionId,
    pub(crate) collection_type: CollectionType,
    pub(crate) usages: Arc<Vec<Usage>>,
}

impl Collection {
    /// The collection's number, which no other of the descriptor has.
    pub fn id(&self) -> &CollectionId {
        &self.id
    }

    /// What kind of collection it is: physical, an application ..
    pub fn collection_type(&self) -> CollectionType {
        self.collection_type
    }

    /// The usages of the collection, in their order.
    pub fn usages(&self) -> &[Usage] {
        &self.usages
    }
}

impl PartialEq for Collection {
    fn eq(&self, other: &Collection) -> bool {
        self.id == other.id
    }
}

impl Eq for Collection {}

impl Hash for Collection {
    fn hash<H: Hasher>(&self, state: &mut H) {
        self.id.hash(state);
    }
}
