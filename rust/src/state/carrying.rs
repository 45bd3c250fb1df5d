//! What spans carry, under the lock.
#![forbid(unsafe_code)]
use super::State;
use crate::carried::{Load, Value};
use crate::meta::RawId;
use crate::noted::What;
use crate::raw::{Closed, Core};
use crate::refusal::Refusal;
use std::any::TypeId;

impl State {
    /// The value of this type that an open span carries.
    pub(crate) fn value(&mut self, id: RawId, kind: TypeId) -> Result<Option<&Value>, Refusal> {
        self.is_open(id)?;
        Ok(self.carried.get(id, kind))
    }

    /// An open span carries a value in place of the one of its type, which it answers.
    pub(crate) fn replace_value(&mut self, id: RawId, value: &Value) -> Result<Option<Value>, Refusal> {
        self.is_open(id)?;
        self.carried.replace(id, value)
    }

    /// An open span doesn't carry its value of this type any longer, which it answers.
    pub(crate) fn remove_value(&mut self, id: RawId, kind: TypeId) -> Result<Option<Value>, Refusal> {
        self.is_open(id)?;
        Ok(self.carried.remove(id, kind))
    }

    fn is_open(&mut self, id: RawId) -> Result<(), Refusal> {
        self.core.find(id).map(drop).ok_or(Refusal::UNKNOWN)
    }

    /// Makes a call that may close spans which carry something: it tells which it closed. Whether it closed any.
    #[cold]
    pub(super) fn closing(
        &mut self,
        call: fn(&mut Core, u32, RawId) -> Result<Closed, Refusal>,
        worker: u32,
        id: RawId,
    ) -> Result<bool, Refusal> {
        let closed = self.placed(|| What::Other, move |core| call(core, worker, id))?;
        let State { core, carried, .. } = self;
        match closed.ids() {
            // (so what a child carried comes before what its parents did)
            Some(ids) => ids.rev().for_each(|id| carried.close(id)),
            None => carried.sweep(|id| core.find(id).is_some()),
        }
        Ok(closed.count() > 0)
    }

    /// Whether spans closed that carried something.
    #[inline(always)]
    pub(crate) fn has_closed(&self) -> bool {
        self.carried.has_closed()
    }

    /// What these carried: to be dropped where the lock isn't held.
    pub(crate) fn take_closed(&mut self) -> Option<Load> {
        self.carried.take_closed()
    }
}
