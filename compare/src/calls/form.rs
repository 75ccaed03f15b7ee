//! The forms of call scripts.

/// The form of a script, which its first bytes name. It decides which calls the
/// script has and which fields its lines have.
#[derive(Clone, Copy, Debug, PartialEq)]
pub enum Form {
    /// The calls and fields that are compared with the original.
    Gdi1,
    /// Moves, lines, the positions of DCs, loads and saves too.
    Gdi2,
}

/// The last call of a `GDI1` script: a blit.
const LAST: u8 = 0x12;

impl Form {
    /// Both forms.
    pub const ALL: [Form; 2] = [Form::Gdi1, Form::Gdi2];

    /// The first bytes of a script.
    pub fn magic(self) -> &'static [u8; 4] {
        match self {
            Form::Gdi1 => b"GDI1",
            Form::Gdi2 => b"GDI2",
        }
    }

    /// Whether a script of this form has the call with this byte.
    pub fn has(self, byte: u8) -> bool {
        self == Form::Gdi2 || byte <= LAST
    }
}
