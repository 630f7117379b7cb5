// Stands for `lazy/expanded/mod.rs`: the context, which here is only the real allocator, and the
// names of the resolved values, which are never made. It decodes nothing.

pub mod r#struct;

use crate::lazy::decoder::Decoder;
use crate::lazy::encoding::ParsedTextOwner;
use crate::lazy::streaming_raw_reader::IoBuffer;
use bumpalo::Bump;
use std::marker::PhantomData;
use std::ops::Deref;
use std::rc::{Rc, Weak};

#[derive(Clone, Debug)]
pub struct EncodingContext {
    allocator: Rc<Bump>,
    pub(crate) parsed_text_owner: Option<Weak<ParsedTextOwner>>,
}

impl EncodingContext {
    pub fn empty() -> Self {
        EncodingContext {
            allocator: Rc::new(Bump::new()),
            parsed_text_owner: None,
        }
    }

    pub fn allocator(&self) -> &Bump {
        &self.allocator
    }

    /// Gives back what was allocated; the borrow rules let no value outlive this.
    pub fn reset(&mut self) {
        Rc::get_mut(&mut self.allocator)
            .expect("the context was not cloned")
            .reset();
    }

    pub(crate) fn save_io_buffer(&self) -> IoBuffer {
        IoBuffer
    }
}

#[derive(Clone, Copy, Debug)]
pub struct EncodingContextRef<'top> {
    pub(crate) context: &'top EncodingContext,
}

impl<'top> EncodingContextRef<'top> {
    pub fn new(context: &'top EncodingContext) -> Self {
        EncodingContextRef { context }
    }

    pub fn allocator(&self) -> &'top Bump {
        self.context.allocator()
    }
}

impl Deref for EncodingContextRef<'_> {
    type Target = EncodingContext;

    fn deref(&self) -> &EncodingContext {
        self.context
    }
}

pub struct LazyExpandedValue<'top, D: Decoder>(PhantomData<(&'top (), D)>);

impl<'top, D: Decoder> LazyExpandedValue<'top, D> {
    pub fn from_literal(_context: EncodingContextRef<'top>, _value: D::Value<'top>) -> Self {
        unreachable!("values are not resolved")
    }
}

/// A value with its symbols resolved. Never made.
pub struct ValueRef<'top, D: Decoder>(PhantomData<(&'top (), D)>);
