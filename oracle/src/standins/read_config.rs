// Stands for `read_config.rs`, the settings of a whole reader. Never used. It decodes nothing.

use crate::catalog::Catalog;
use std::marker::PhantomData;

pub struct ReadConfig<E>(PhantomData<E>);

impl<E> ReadConfig<E> {
    pub fn new_with_catalog(_encoding: E, _catalog: impl Catalog + 'static) -> Self {
        ReadConfig(PhantomData)
    }
}
