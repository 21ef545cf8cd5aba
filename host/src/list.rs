//! Lists of values with a number and words each: FIX's codes, alarms, verdicts. Rests on nothing.

/// An enum of values, each with the byte that stands for it in a record and with its words.
macro_rules! listed {
    (
        $(#[$about:meta])*
        $name:ident: $to:ident, $from:ident { $($variant:ident = $byte:literal $words:literal),* $(,)? }
    ) => {
        $(#[$about])*
        #[derive(Debug, Clone, Copy, PartialEq, Eq, Hash)]
        pub enum $name {
            $(
                #[doc = concat!("`", stringify!($byte), "`: ", $words, ".")]
                $variant,
            )*
        }

        impl $name {
            /// The byte that stands for it in a record.
            #[doc = concat!("[`", stringify!($name), "`] has an example.")]
            pub const fn $to(self) -> u8 {
                match self { $(Self::$variant => $byte),* }
            }

            /// The value of a byte, if the list has it.
            #[doc = concat!("[`", stringify!($name), "`] has an example.")]
            pub const fn $from(byte: u8) -> Option<Self> {
                match byte { $($byte => Some(Self::$variant),)* _ => None }
            }
        }

        /// Its words.
        impl std::fmt::Display for $name {
            fn fmt(&self, f: &mut std::fmt::Formatter<'_>) -> std::fmt::Result {
                f.pad(match self { $(Self::$variant => $words),* })
            }
        }
    };
}

pub(crate) use listed;
