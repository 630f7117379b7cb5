// Stands for `result/illegal_operation.rs`: an error that is its message. It decodes nothing.

use std::borrow::Cow;
use thiserror::Error;

#[derive(Clone, Debug, Error, PartialEq)]
#[error("{operation}")]
pub struct IllegalOperation {
    operation: Cow<'static, str>,
}

impl IllegalOperation {
    pub(crate) fn new(operation: impl Into<Cow<'static, str>>) -> Self {
        IllegalOperation {
            operation: operation.into(),
        }
    }
}
