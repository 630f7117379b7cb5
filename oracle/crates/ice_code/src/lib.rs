//! Stands for the crate `ice_code`, which Debian lacks. The real macro moves an expression out of
//! the hot path; this one leaves it where it is. It decodes nothing.

#[macro_export]
macro_rules! ice {
    ($name:ident => $body:expr) => {
        $body
    };
    ($body:expr) => {
        $body
    };
}
