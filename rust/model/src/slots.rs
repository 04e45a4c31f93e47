//! The slots of one kind of object.
//!
//! A slot keeps a whole id: that of its object, or while it is empty that of
//! the object that comes next. So an id is live where a slot with an object
//! has exactly this id, and no id is taken apart to find that out.

use crate::{refuse_if, Refusal};
use directives::words::*;
use directives::Answer;

/// An object has a name.
pub trait Named {
    fn name(&self) -> u32;
}

#[derive(Clone, Debug)]
pub struct Slot<T> {
    pub id: u32,
    pub object: Option<T>,
    /// The name of the object that was deleted from it last, or 0. No rule asks
    /// for it.
    old_name: u32,
}

impl<T> Slot<T> {
    pub fn new(index: usize, generation: u32, object: Option<T>) -> Slot<T> {
        Slot {
            id: id_of(index, generation),
            object,
            old_name: 0,
        }
    }

    pub fn generation(&self) -> u32 {
        generation_of(self.id)
    }

    /// Whether an object may come into it. A slot without ids left is spent.
    fn is_vacant(&self) -> bool {
        self.object.is_none() && self.generation() < GENERATIONS
    }

    /// Takes an object in and gives its id.
    pub fn fill(&mut self, object: T) -> u32 {
        self.object = Some(object);
        self.id
    }
}

/// All slots of a kind, the lowest first.
#[derive(Clone, Debug)]
pub struct Slots<T>([Slot<T>; SLOTS]);

impl<T: Named> Slots<T> {
    pub fn new(slot: impl FnMut(usize) -> Slot<T>) -> Slots<T> {
        Slots(std::array::from_fn(slot))
    }

    pub fn iter(&self) -> impl Iterator<Item = &Slot<T>> {
        self.0.iter()
    }

    /// The live objects.
    pub fn objects(&self) -> impl Iterator<Item = &T> {
        self.0.iter().filter_map(|slot| slot.object.as_ref())
    }

    pub fn objects_mut(&mut self) -> impl Iterator<Item = &mut T> {
        self.0.iter_mut().filter_map(|slot| slot.object.as_mut())
    }

    /// The object that has an id.
    pub fn live(&self, id: u32) -> Result<&T, Refusal> {
        let slot = self.0.iter().find(|slot| slot.id == id);
        let object = slot.and_then(|slot| slot.object.as_ref());
        object.ok_or(status::INVALID_ID)
    }

    pub fn live_mut(&mut self, id: u32) -> Result<&mut T, Refusal> {
        let slot = self.0.iter_mut().find(|slot| slot.id == id);
        let object = slot.and_then(|slot| slot.object.as_mut());
        object.ok_or(status::INVALID_ID)
    }

    /// The lowest slot into which an object may come.
    pub fn vacant(&mut self) -> Result<&mut Slot<T>, Refusal> {
        let slot = self.0.iter_mut().find(|slot| slot.is_vacant());
        slot.ok_or(status::TOO_MANY)
    }

    /// The slot of the object with a name. No two objects have the same.
    fn named(&self, name: u32) -> Option<&Slot<T>> {
        let has_name = |object: &T| object.name() == name;
        let mut slots = self.0.iter();
        slots.find(|slot| slot.object.as_ref().is_some_and(has_name))
    }

    /// Refuses what can be no name of a new object: 0, and the name of another.
    pub fn refuse_name(&self, name: u32) -> Result<(), Refusal> {
        refuse_if(name == 0, status::INVALID_NAME)?;
        refuse_if(self.named(name).is_some(), status::INVALID_NAME)
    }

    /// Answers with the id of the object with a name.
    pub fn ident(&self, name: u32) -> Result<Answer, Refusal> {
        refuse_if(name == 0, status::INVALID_NAME)?;
        let slot = self.named(name).ok_or(status::INVALID_NAME)?;
        Ok(Answer::value(slot.id))
    }

    /// Deletes the object that has an id; no other object ever has it again.
    pub fn delete(&mut self, id: u32) {
        for slot in self.0.iter_mut().filter(|slot| slot.id == id) {
            let object = slot.object.take();
            slot.old_name = object.map_or(0, |object| object.name());
            slot.id += ID_STEP;
        }
    }

    /// The names of the objects.
    pub fn names(&self) -> Vec<u32> {
        self.objects().map(T::name).collect()
    }

    /// The names of those that were deleted last, of each slot at most one.
    pub fn old_names(&self) -> Vec<u32> {
        let names = self.0.iter().map(|slot| slot.old_name);
        names.filter(|name| *name != 0).collect()
    }

    /// The id of each slot, and whether an object has it.
    pub fn ids(&self) -> Vec<(u32, bool)> {
        let ids = self.0.iter().map(|slot| (slot.id, slot.object.is_some()));
        ids.collect()
    }
}
