// Stands for `result/io_error.rs`: an error of input and output as text. It decodes nothing.

use std::io;
use thiserror::Error;

#[derive(Clone, Debug, Error, PartialEq)]
#[error("{message}")]
pub struct IoError {
    message: String,
}

impl From<io::Error> for IoError {
    fn from(error: io::Error) -> Self {
        IoError {
            message: error.to_string(),
        }
    }
}
