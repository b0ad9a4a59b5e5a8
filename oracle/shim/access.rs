//! Stands for the layout's names: a variable is its index.

use ironplc_container::VarIndex;

pub(crate) struct Named(pub(crate) VarIndex);
