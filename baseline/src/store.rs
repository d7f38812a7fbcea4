//! The versions of an epoch that a member holds.

use crate::digest::{Digest, ObjectId};
use crate::types::{Object, ObjectKey, Owner};
use std::collections::{HashMap, HashSet};
use std::sync::OnceLock;

/// The transaction of this epoch that made a version; none where the epoch opened with it.
pub type Producer = Option<Digest>;

/// A version that is held.
pub struct Version {
    /// The object.
    pub object: Object,
    /// Who made it.
    pub producer: Producer,
    /// Which executed transaction consumed it.
    pub consumer: Option<Digest>,
    digest: OnceLock<Digest>,
}

impl Version {
    fn opening(object: Object) -> Self {
        Self { object, producer: None, consumer: None, digest: OnceLock::new() }
    }

    /// The object's digest, computed where it is first asked for.
    pub fn digest(&self) -> Digest {
        *self.digest.get_or_init(|| self.object.digest())
    }
}

/// All versions of an object, ascending, and whether the object was deleted behind the last one.
#[derive(Default)]
struct History {
    versions: Vec<Version>,
    deleted: bool,
}

impl History {
    fn find(&self, version: u64) -> Option<usize> {
        match self.versions.last() {
            Some(last) if last.object.version == version => Some(self.versions.len() - 1),
            _ => self.versions.binary_search_by_key(&version, |held| held.object.version).ok(),
        }
    }

    fn live(&self) -> Option<&Version> {
        self.versions.last().filter(|_| !self.deleted)
    }
}

/// What one executed transaction changed.
struct Change {
    tx: Digest,
    written: Vec<ObjectId>,
    deleted: Vec<ObjectId>,
}

/// The versions that were there when the epoch opened, and those that were written since.
#[derive(Default)]
pub struct Store {
    histories: HashMap<ObjectId, History>,
    changes: Vec<Change>,
}

impl Store {
    /// Opens with these objects; of two with one id the first counts.
    pub fn opening(objects: &[Object]) -> Self {
        let mut store = Store::default();
        for object in objects {
            let history = store.histories.entry(object.id).or_default();
            if history.versions.is_empty() {
                history.versions.push(Version::opening(object.clone()));
            }
        }
        store
    }

    /// A version that is held.
    pub fn get(&self, key: &ObjectKey) -> Option<&Version> {
        let history = self.histories.get(&key.id)?;
        history.find(key.version).map(|place| &history.versions[place])
    }

    /// The newest version of an object that was not deleted.
    pub fn live(&self, id: &ObjectId) -> Option<&Version> {
        self.histories.get(id)?.live()
    }

    /// Whether a version of the object is held, deleted or not.
    pub fn has(&self, id: &ObjectId) -> bool {
        self.histories.contains_key(id)
    }

    /// The version of an object that was shared when the epoch opened.
    pub fn opening_shared(&self, id: &ObjectId) -> Option<u64> {
        let first = self.histories.get(id)?.versions.first()?;
        let is_shared = first.producer.is_none() && matches!(first.object.owner, Owner::Shared(_));
        is_shared.then_some(first.object.version)
    }

    /// All live objects, in no order.
    pub fn live_objects(&self) -> impl Iterator<Item = &Object> {
        self.histories.values().filter_map(|history| history.live().map(|version| &version.object))
    }

    /// Takes what a transaction consumed, wrote (with the digests) and deleted.
    pub fn write(
        &mut self,
        tx: Digest,
        consumed: impl Iterator<Item = ObjectKey>,
        written: Vec<(Object, Digest)>,
        deleted: &[ObjectId],
    ) {
        for key in consumed {
            self.consume(key, tx);
        }
        let ids = written.iter().map(|(object, _)| object.id).collect();
        for (object, digest) in written {
            let history = self.histories.entry(object.id).or_default();
            let version = Version { object, producer: Some(tx), consumer: None, digest: OnceLock::from(digest) };
            history.versions.push(version);
        }
        for id in deleted {
            self.histories.entry(*id).or_default().deleted = true;
        }
        self.changes.push(Change { tx, written: ids, deleted: deleted.to_vec() });
    }

    fn consume(&mut self, key: ObjectKey, tx: Digest) {
        if let Some(history) = self.histories.get_mut(&key.id) {
            if let Some(place) = history.find(key.version) {
                history.versions[place].consumer.get_or_insert(tx);
            }
        }
    }

    /// Takes back all transactions that are not kept, newest first, and opens the next epoch with the live objects. Gives
    /// the transactions that were taken back, oldest first.
    pub fn turn(&mut self, is_kept: impl Fn(&Digest) -> bool) -> Vec<Digest> {
        let changes = std::mem::take(&mut self.changes);
        let mut reverted = Vec::new();
        for change in changes.iter().rev().filter(|change| !is_kept(&change.tx)) {
            self.undo(change);
            reverted.push(change.tx);
        }
        let touched = changes.iter().flat_map(|change| change.written.iter().chain(&change.deleted));
        for id in touched.collect::<HashSet<_>>() {
            self.settle(id);
        }
        reverted.reverse();
        reverted
    }

    fn undo(&mut self, change: &Change) {
        for id in &change.written {
            if let Some(history) = self.histories.get_mut(id) {
                history.versions.pop();
            }
        }
        for id in &change.deleted {
            if let Some(history) = self.histories.get_mut(id) {
                history.deleted = false;
            }
        }
    }

    /// Keeps of an object what is live, as a version with which an epoch opens.
    fn settle(&mut self, id: &ObjectId) {
        let Some(history) = self.histories.get_mut(id) else { return };
        match history.versions.pop().filter(|_| !history.deleted) {
            Some(live) => history.versions = vec![Version { producer: None, consumer: None, ..live }],
            None => {
                self.histories.remove(id);
            }
        }
    }
}

#[cfg(test)]
mod tests {
    use super::*;
    use crate::types::Content;

    fn counter(version: u64) -> Object {
        let content = Content::Counter { value: version };
        Object { id: ObjectId([7; 32]), version, owner: Owner::Shared(1), content }
    }

    #[test]
    fn a_turn_takes_back_what_is_not_kept() {
        let mut store = Store::opening(&[counter(1)]);
        let tx = Digest([1; 32]);
        store.write(tx, [counter(1).key()].into_iter(), vec![(counter(2), counter(2).digest())], &[]);
        assert_eq!(store.get(&counter(1).key()).unwrap().consumer, Some(tx));
        assert_eq!(store.live(&counter(1).id).unwrap().producer, Some(tx));
        assert_eq!(store.turn(|_| false), [tx]);
        let live = store.live(&counter(1).id).unwrap();
        assert_eq!((live.object.version, live.producer, live.consumer), (1, None, None));
    }
}
