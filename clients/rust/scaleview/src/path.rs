//! Paths into values.

use crate::view::{Kind, ValueRef};
use scaleview_sys as sys;

/// Where a path has come to in a value.
struct Place<'a> {
    value: ValueRef<'a>,
    /// The last step was the name of the value's variant.
    is_inside: bool,
}

impl<'a> Place<'a> {
    fn at(value: ValueRef<'a>) -> Place<'a> {
        Place {
            value: value.inner(),
            is_inside: false,
        }
    }

    /// Enters the variant. Its one field without a name stands for it.
    fn entered(self) -> Place<'a> {
        match self.value.only_unnamed() {
            Some(field) => Place::at(field),
            None => Place {
                is_inside: true,
                ..self
            },
        }
    }

    fn step(self, step: &str) -> Option<Place<'a>> {
        if !self.is_inside && self.value.variant_name() == Some(step) {
            return Some(self.entered());
        }
        let named = self.value.get(step);
        let part = named.or_else(|| self.value.child(position_of(step)?));
        part.map(Place::at)
    }
}

/// Reads a position of decimal digits alone.
fn position_of(step: &str) -> Option<usize> {
    let is_number = step.bytes().all(|byte| byte.is_ascii_digit());
    is_number.then(|| step.parse().ok())?
}

impl<'a> ValueRef<'a> {
    /// Returns the one field of a composite, a tuple or a variant if it has no name.
    fn only_unnamed(self) -> Option<ValueRef<'a>> {
        match self.list()?.fields.as_slice() {
            [field] if field.name().is_none() => self.child(0),
            _ => None,
        }
    }

    /// Returns what a newtype holds.
    pub(crate) fn held(self) -> Option<ValueRef<'a>> {
        let is_composite =
            self.kind() == Kind::Fields && self.details()?.shape.kind == sys::SCALEVIEW_COMPOSITE;
        is_composite.then(|| self.only_unnamed())?
    }

    /// Looks through newtypes: returns what a composite of one field without a name holds, through
    /// several such, and other values as they are.
    ///
    /// # Examples
    ///
    /// ```
    /// # use scaleview::{Error, Registry};
    /// # fn main() -> Result<(), Error> {
    /// # let bytes = b"\x08\x00\0\0\x05\x05\0\x04\x04\x08Id\0\0\x04\0\x00\0\0\0";
    /// // struct Id(u32)
    /// let registry = Registry::open(bytes)?;
    /// let value = registry.decode(1, b"\x07\0\0\0")?;
    /// assert_eq!(value.as_u128(), None);
    /// assert_eq!(value.inner().as_u128(), Some(7));
    /// # Ok(())
    /// # }
    /// ```
    pub fn inner(self) -> ValueRef<'a> {
        let mut value = self;
        while let Some(held) = value.held() {
            value = held;
        }
        value
    }

    /// Returns the part at a path: steps with a dot between, or no step for the value itself.
    ///
    /// A step is the name of a variant, of a field, or the position of a part in decimal digits,
    /// looked for in this order. The name of a variant stays at the value, which has to be that
    /// variant; if its one field has no name, it goes to that field. Before each step and after the
    /// last one, newtypes are looked through as [`inner`](ValueRef::inner) does.
    ///
    /// # Examples
    ///
    /// ```
    /// # use std::{error::Error, fs};
    /// # use scaleview::Metadata;
    /// # fn main() -> Result<(), Box<dyn Error>> {
    /// # std::env::set_current_dir(concat!(env!("CARGO_MANIFEST_DIR"), "/../../.."))?;
    /// # let metadata = Metadata::open(&fs::read("examples/chain/chain.metadata")?)?;
    /// let account = metadata.storage("System.Account")?;
    /// let account = account.decode(&fs::read("examples/runtime/account_info.scale")?)?;
    /// let free = account.at("data.free").and_then(|free| free.as_u128());
    /// assert_eq!(free, Some(8_574_363_989_262_094_294_975));
    ///
    /// let transfer = metadata.decode_extrinsic(&fs::read("examples/chain/transfer.scale")?)?;
    /// let amount = transfer.at("signed.call.Balances.transfer_allow_death.value");
    /// assert_eq!(amount.and_then(|amount| amount.as_u128()), Some(1_500_000_000_000));
    /// assert!(transfer.at("signed.call.System").is_none());
    /// # Ok(())
    /// # }
    /// ```
    pub fn at(self, path: &str) -> Option<ValueRef<'a>> {
        let start = Place::at(self);
        if path.is_empty() {
            return Some(start.value);
        }
        let end = path.split('.').try_fold(start, Place::step)?;
        Some(end.value)
    }
}
