// Stands for `ion_data`: comparison of values that were read. Never used. It decodes nothing.

use std::cmp::Ordering;
use std::hash::Hasher;

pub trait IonEq {
    fn ion_eq(&self, other: &Self) -> bool;
}

pub trait IonDataOrd {
    fn ion_cmp(&self, other: &Self) -> Ordering;
}

pub trait IonDataHash {
    fn ion_data_hash<H: Hasher>(&self, state: &mut H);
}
