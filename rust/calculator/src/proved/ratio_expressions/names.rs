// Erased from crates/ratio_expressions/src/names.rt by rust/erase: not to be edited.
//! `Names`: values by name.

use bakhsney::memory::{AllocError, BTreeMap, Global, Vec};
use crate::proved::ratio_expressions::value::Value;

/// Values by name. A contract sees them as what each name is worth, by `named`.
pub struct Names {
    values: BTreeMap<Vec<u8>, Value>,
}

impl Names {
    /// No names.
    #[inline]
    pub fn new(alloc: Global) -> Names {
        Names {
            values: BTreeMap::new(alloc),
        }
    }

    /// The value with this name, or `None` if nothing has it.
    #[inline]
    pub fn get(&self, name: &[u8]) -> Option<&Value> {
        self.values.get(name)
    }

    /// Gives a value a name, in place of the value that has it. If an allocation fails, all names stay as they are.
    #[inline]
    pub fn set(&mut self, alloc: Global, name: &[u8], value: Value) -> Result<(), AllocError> {
        if let Some(place) = self.values.get_mut(name) {
            *place = value;
            return Ok(());
        }
        let key = Vec::from_slice(alloc, name)?;
        self.values.insert(key, value)?;
        Ok(())
    }
}
