//! References that keep a registry open.

use crate::metadata::Metadata;
use crate::registry::Registry;
use std::sync::Arc;

mod sealed {
    use crate::registry::Registry;

    /// No other crate may implement [`RegistryRef`](super::RegistryRef): a registry must stay open,
    /// at one place.
    pub trait Sealed {
        fn registry(&self) -> &Registry;
    }
}

pub(crate) use sealed::Sealed;

/// A reference that keeps a registry open: `&Registry`, `Arc<Registry>` or `Arc<Metadata>`. No
/// other type can implement it.
pub trait RegistryRef: Sealed + Clone {}

impl Sealed for &Registry {
    fn registry(&self) -> &Registry {
        self
    }
}

impl RegistryRef for &Registry {}

impl Sealed for Arc<Registry> {
    fn registry(&self) -> &Registry {
        self
    }
}

impl RegistryRef for Arc<Registry> {}

impl Sealed for Arc<Metadata> {
    fn registry(&self) -> &Registry {
        self
    }
}

impl RegistryRef for Arc<Metadata> {}
