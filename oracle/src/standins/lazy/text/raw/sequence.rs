// Stands for `lazy/text/raw/sequence.rs`: text lists and s-expressions. Never made. It decodes
// nothing.

use crate::lazy::decoder::private::LazyContainerPrivate;
use crate::lazy::decoder::{LazyRawContainer, LazyRawSequence};
use crate::lazy::encoding::TextEncoding;
use crate::lazy::text::buffer::TextBuffer;
use crate::lazy::text::value::{LazyRawTextValue, RawTextAnnotationsIterator};
use crate::{IonResult, IonType};
use std::marker::PhantomData;

macro_rules! text_sequence {
    ($sequence:ident, $iterator:ident) => {
        #[derive(Clone, Copy, Debug)]
        pub struct $sequence<'top, E: TextEncoding>(PhantomData<(&'top (), E)>);

        impl<'top, E: TextEncoding> LazyContainerPrivate<'top, E> for $sequence<'top, E> {
            fn from_value(_value: LazyRawTextValue<'top, E>) -> Self {
                unreachable!("no text is read")
            }
        }

        impl<'top, E: TextEncoding> LazyRawContainer<'top, E> for $sequence<'top, E> {
            fn as_value(&self) -> LazyRawTextValue<'top, E> {
                unreachable!("no text is read")
            }
        }

        impl<'top, E: TextEncoding> LazyRawSequence<'top, E> for $sequence<'top, E> {
            type Iterator = $iterator<'top, E>;

            fn annotations(&self) -> RawTextAnnotationsIterator<'top> {
                unreachable!("no text is read")
            }

            fn ion_type(&self) -> IonType {
                unreachable!("no text is read")
            }

            fn iter(&self) -> Self::Iterator {
                unreachable!("no text is read")
            }
        }

        #[derive(Clone, Copy, Debug)]
        pub struct $iterator<'top, E: TextEncoding>(PhantomData<(&'top (), E)>);

        impl<'top, E: TextEncoding> $iterator<'top, E> {
            pub fn new(_input: TextBuffer<'top>) -> Self {
                unreachable!("no text is read")
            }
        }

        impl<'top, E: TextEncoding> Iterator for $iterator<'top, E> {
            type Item = IonResult<LazyRawTextValue<'top, E>>;

            fn next(&mut self) -> Option<Self::Item> {
                unreachable!("no text is read")
            }
        }
    };
}

text_sequence!(RawTextList, RawTextListIterator);
text_sequence!(RawTextSExp, RawTextSExpIterator);
