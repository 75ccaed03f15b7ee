//! Tables of the documents: the cases or calls of a script, each with a byte, a
//! name and arguments.

/// Defines an enum from a document's table: byte, name, arguments.
macro_rules! table {
    ($(#[$doc:meta])* $table:ident {
        $($byte:literal $name:literal $entry:ident { $($argument:ident: $kind:ty),* })*
    }) => {
        $(#[$doc])*
        #[derive(Clone, Debug, PartialEq)]
        pub enum $table {
            $($entry { $($argument: $kind),* }),*
        }

        /// The bytes of the table and their names.
        pub const KINDS: &[(u8, &str)] = &[$(($byte, $name)),*];

        impl $table {
            pub fn byte(&self) -> u8 {
                match self {
                    $($table::$entry { .. } => $byte),*
                }
            }

            /// Appends the bytes to a script.
            pub fn write(&self, script: &mut Vec<u8>) {
                use $crate::argument::Argument;
                self.byte().write(script);
                match self {
                    $($table::$entry { $($argument),* } => { $($argument.write(script);)* })*
                }
            }

            /// Reads one from the front of a script and accepts any arguments.
            fn read_any(script: &mut &[u8]) -> Option<$table> {
                use $crate::argument::Argument;
                Some(match u8::read(script)? {
                    $($byte => $table::$entry { $($argument: Argument::read(script)?),* },)*
                    _ => return None,
                })
            }
        }

        impl std::fmt::Display for $table {
            fn fmt(&self, f: &mut std::fmt::Formatter<'_>) -> std::fmt::Result {
                match self {
                    $($table::$entry { $($argument),* } => {
                        f.write_str($name)?;
                        $(
                            let shown = $crate::argument::Argument::shown($argument);
                            write!(f, ", {} {shown}", stringify!($argument))?;
                        )*
                    })*
                }
                Ok(())
            }
        }
    };
}

pub(crate) use table;
