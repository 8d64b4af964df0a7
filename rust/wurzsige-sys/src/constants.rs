//! Constants that have their values on their pages, as examples.

/// Constants at a path of this crate, each with its value as an example.
macro_rules! constants {
    ($path:literal: $($(#[$what:meta])* $name:ident: $type:ty = $value:literal;)*) => {
        $(
            $(#[$what])*
            ///
            /// ```
            #[doc = concat!("assert_eq!(", $path, stringify!($name), ", ", stringify!($value), ");")]
            /// ```
            pub const $name: $type = $value;
        )*
    };
}

pub(crate) use constants;
