// Stands for `result/application_error.rs`: an application's own error as text. It decodes nothing.

use std::error::Error as StdError;
use thiserror::Error;

#[derive(Clone, Debug, Error, PartialEq)]
#[error("{message}")]
pub struct ApplicationError {
    message: String,
}

impl ApplicationError {
    pub(crate) fn new(error: Box<dyn StdError + Send + Sync + 'static>) -> Self {
        ApplicationError {
            message: error.to_string(),
        }
    }
}
