//! The steps of a script: calls and looks.

use super::call::{Call, KINDS};
use super::form::Form;

/// The byte of a look.
pub const LOOK: u8 = 0x7F;

/// A step of a script.
#[derive(Clone, Debug, PartialEq)]
pub enum Step {
    Call(Call),
    /// Prints the present state lines. It is not a call on the device.
    Look,
}

impl Step {
    /// Reads a step from the front of a script of this form; `None` if it is a bad
    /// call.
    pub fn read(form: Form, script: &mut &[u8]) -> Option<Step> {
        if let Some(rest) = script.strip_prefix(&[LOOK]) {
            *script = rest;
            return Some(Step::Look);
        }
        Call::read(script).filter(|call| form.has(call.byte())).map(Step::Call)
    }

    /// Appends the bytes to a script.
    pub fn write(&self, script: &mut Vec<u8>) {
        match self {
            Step::Call(call) => call.write(script),
            Step::Look => script.push(LOOK),
        }
    }
}

impl From<Call> for Step {
    fn from(call: Call) -> Self {
        Step::Call(call)
    }
}

/// Whether the byte is the first one of a step in a script of this form.
pub fn begins_step(form: Form, byte: u8) -> bool {
    byte == LOOK || form.has(byte) && KINDS.iter().any(|kind| kind.0 == byte)
}

#[cfg(test)]
mod tests {
    use super::*;

    #[test]
    fn steps_are_written_and_read() {
        // The byte of a look can be part of an argument.
        let brush = Call::CreateSolidBrush { color: 0x7F7F_7F7F };
        let steps = [Step::Look, Step::Look, brush.into(), Step::Look];
        let mut script = Vec::new();
        steps.iter().for_each(|step| step.write(&mut script));
        assert_eq!(script, [LOOK, LOOK, 0x03, LOOK, LOOK, LOOK, LOOK, LOOK]);
        let mut rest = script.as_slice();
        for step in steps {
            assert_eq!(Step::read(Form::Gdi1, &mut rest), Some(step));
        }
        for form in Form::ALL {
            assert_eq!(Step::read(form, &mut rest), None);
            assert_eq!(Step::read(form, &mut [0x00, LOOK].as_slice()), None);
        }
    }

    #[test]
    fn only_the_second_form_has_what_the_original_has_not() {
        let drawn = [Call::Move { dc: 1, x: 2, y: 3 }, Call::Line { dc: 1, x: 2, y: 3 }];
        let tables = [Call::load(vec![0x10; 54]), Call::Save { room: 54 }];
        for call in drawn.into_iter().chain(tables) {
            let bytes = call.bytes();
            assert_eq!(Step::read(Form::Gdi1, &mut bytes.as_slice()), None);
            assert_eq!(Step::read(Form::Gdi2, &mut bytes.as_slice()), Some(call.into()));
        }
    }

    #[test]
    fn these_bytes_begin_a_step() {
        for (form, last) in [(Form::Gdi1, 0x12), (Form::Gdi2, 0x16)] {
            let bytes: Vec<u8> = (0..=u8::MAX).filter(|byte| begins_step(form, *byte)).collect();
            assert_eq!(bytes, [(0x01..=last).collect(), vec![LOOK]].concat());
        }
    }
}
