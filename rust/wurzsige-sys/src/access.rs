//! The parts of a desk's memory. The catalog and the working memory are hidden: the library
//! makes the one of the rows, leaves nothing in the other, and may lay out both anew.

use core::mem::offset_of;

use crate::memory::{CATALOG, CELLS, DESIGN_WORDS, HELD_WORDS, KEYS, Memory, ROWS, WORKING};

/// Two functions for each part, to read it and to write it.
macro_rules! parts {
    ($($(#[$what:meta])* $part:ident $part_mut:ident: [$item:ty; $length:ident],)*) => {
        impl Memory {
            $(
                $(#[$what])*
                ///
                /// ```
                /// let mut memory = wurzsige_sys::Memory::boxed();
                #[doc = concat!("memory.", stringify!($part_mut), "()[7] = 1;")]
                #[doc = concat!("assert_eq!(memory.", stringify!($part), "()[7], 1);")]
                /// ```
                pub fn $part(&self) -> &[$item; $length] {
                    &self.$part
                }

                $(#[$what])*
                ///
                /// To be written, after which the memory is a desk no longer:
                /// [`Memory::step`] says whether it is one.
                ///
                /// ```
                /// let mut memory = wurzsige_sys::Memory::boxed();
                #[doc = concat!("memory.", stringify!($part_mut), "()[7] = 1;")]
                #[doc = concat!("assert_eq!(memory.", stringify!($part), "()[7], 1);")]
                /// ```
                pub fn $part_mut(&mut self) -> &mut [$item; $length] {
                    &mut self.$part
                }
            )*
        }
    };
}

parts! {
    /// The design: three counts, then tables, constraints and fillings.
    design design_mut: [u32; DESIGN_WORDS],
    /// The named desk, the held values, and the ranges of each desk.
    held held_mut: [u32; HELD_WORDS],
    /// The cells' numbers; row r has those from 8 r to 8 r + 7.
    cells cells_mut: [u32; CELLS],
    /// The cells' issues, in the cells' order.
    issues issues_mut: [u8; CELLS],
    /// The table of each row; [`FREE`](crate::FREE) where the number is free.
    tables tables_mut: [u8; ROWS],
    /// 1 for each cached row, 0 elsewhere.
    marks marks_mut: [u8; ROWS],
    /// The catalog.
    #[doc(hidden)]
    catalog catalog_mut: [u16; CATALOG],
    /// The catalog.
    #[doc(hidden)]
    keys keys_mut: [u64; KEYS],
    /// The working memory.
    #[doc(hidden)]
    counts counts_mut: [u64; WORKING],
    /// The working memory.
    #[doc(hidden)]
    places places_mut: [u16; WORKING],
}

/// Fields with the places where they begin.
macro_rules! offsets {
    ($($field:ident)*) => {
        &[$((stringify!($field), offset_of!(Memory, $field)),)*]
    };
}

impl Memory {
    /// Where each field begins, in their order, for the test that holds this to the header.
    #[doc(hidden)]
    pub const OFFSETS: &'static [(&'static str, usize)] = offsets!(keys counts cells design held catalog
        places issues tables marks);
}
