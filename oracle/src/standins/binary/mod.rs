// Stands for `binary/mod.rs`: names the modules. It decodes nothing.

pub mod constants;
pub mod int;
pub mod type_code;
pub mod uint;
pub mod var_int;
pub mod var_uint;

pub use type_code::IonTypeCode;
