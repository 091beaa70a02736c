use std::error::Error;
use std::fmt;

/// Why there is no plan: a kind, and a message.
#[derive(Clone, Debug, PartialEq, Eq)]
pub struct Refusal {
    kind: RefusalKind,
    message: String,
}

/// What is at fault.
#[derive(Clone, Copy, Debug, PartialEq, Eq, Hash)]
#[non_exhaustive]
pub enum RefusalKind {
    /// The object can't be parsed, or the value of a global variable can't be put into its maps.
    Object,
    /// A record of a function names a type that is no function with a name.
    FunctionType,
    /// A map has no number.
    MapNumber,
    /// The object has type relocations, and there are no kernel types.
    TypesRequired,
    /// An extern can't be resolved by the kernel's types and symbols.
    Extern,
    /// A type relocation can't be made.
    TypeRelocation,
    /// The object's types can't be rewritten to the kernel's features.
    ObjectTypes,
    /// An instruction can't be relocated, or a program not be linked.
    Relocation,
    /// The settings are no settings.
    InvalidSettings,
    /// A table of the kernel's types is invalid.
    InvalidTypes,
    /// Memory ran out.
    OutOfMemory,
    /// A kind that a later version of the library names, by its number.
    Other(i32),
}

impl RefusalKind {
    /// The kind of a refused object, by its number in `enum morvezin_kind`.
    pub(crate) fn of_object(number: i32) -> RefusalKind {
        match number {
            1 => RefusalKind::Object,
            2 => RefusalKind::FunctionType,
            3 => RefusalKind::MapNumber,
            4 => RefusalKind::TypesRequired,
            5 => RefusalKind::Extern,
            6 => RefusalKind::TypeRelocation,
            7 => RefusalKind::ObjectTypes,
            8 => RefusalKind::Relocation,
            other => RefusalKind::Other(other),
        }
    }
}

impl Refusal {
    pub(crate) fn new(kind: RefusalKind, message: String) -> Refusal {
        Refusal { kind, message }
    }

    /// What is at fault.
    pub fn kind(&self) -> RefusalKind {
        self.kind
    }

    /// What is wrong, and where: one line.
    pub fn message(&self) -> &str {
        &self.message
    }
}

impl fmt::Display for Refusal {
    fn fmt(&self, f: &mut fmt::Formatter<'_>) -> fmt::Result {
        f.write_str(&self.message)
    }
}

impl Error for Refusal {}
