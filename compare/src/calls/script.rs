//! Call scripts: their header, and what is printed for them.

use std::ops::Range;

use super::call::Call;
use super::device::Device;
use super::form::Form;
use super::step::Step;
use super::tally::Tally;
use crate::argument::Argument;
use crate::overflow::Overflow;

/// How many bytes a header has.
pub const HEADER: usize = 21;
/// The length of the longest script.
pub const LONGEST: usize = 1_048_576;
/// The longest panel memory and store that the program accepts.
pub const MOST_PANEL: u32 = 1_048_576;
pub const MOST_STORE: u32 = 4_194_304;

/// The header of a script: the arguments of open.
#[derive(Clone, Copy, Debug, PartialEq)]
pub struct Header {
    pub panel_len: u32,
    pub store_len: u32,
    pub width: u32,
    pub height: u32,
    /// The byte that fills both memories before open.
    pub fill: u8,
}

impl Header {
    /// Reads the script's form and its header from the front of a script; `None` if it
    /// is short or wrong.
    fn read(script: &mut &[u8]) -> Option<(Form, Header)> {
        let form = Form::ALL.into_iter().find(|form| script.starts_with(form.magic()))?;
        *script = &script[form.magic().len()..];
        let header = Header {
            panel_len: u32::read(script)?,
            store_len: u32::read(script)?,
            width: u32::read(script)?,
            height: u32::read(script)?,
            fill: u8::read(script)?,
        };
        Some((form, header))
    }

    /// The header of a `GDI1` script.
    pub fn bytes(&self) -> Vec<u8> {
        self.bytes_as(Form::Gdi1)
    }

    /// The header of a script of this form.
    pub fn bytes_as(&self, form: Form) -> Vec<u8> {
        let mut bytes = form.magic().to_vec();
        for number in [self.panel_len, self.store_len, self.width, self.height] {
            number.write(&mut bytes);
        }
        self.fill.write(&mut bytes);
        bytes
    }

    pub fn is_served(&self) -> bool {
        self.panel_len <= MOST_PANEL && self.store_len <= MOST_STORE
    }

    pub fn open(&self) -> (u8, Device) {
        let memory = |len: u32| vec![self.fill; len as usize];
        let [panel, store] = [self.panel_len, self.store_len].map(memory);
        let (refusal, device) = Device::open(panel, store, self.width, self.height);
        (refusal, device.filled_with(self.fill))
    }
}

/// The lines of a script, and its steps.
pub struct Answered {
    pub lines: Vec<String>,
    pub steps: Vec<Performed>,
}

/// A step with its lines: one for a call, several for a look.
pub struct Performed {
    pub step: Step,
    pub lines: Range<usize>,
}

impl Answered {
    /// No steps yet; a line that is printed first.
    pub fn begun(line: String) -> Self {
        Self { lines: vec![line], steps: Vec::new() }
    }

    /// Adds a step with its lines.
    pub fn add(&mut self, step: Step, lines: Vec<String>) {
        let first = self.lines.len();
        self.lines.extend(lines);
        self.steps.push(Performed { step, lines: first..self.lines.len() });
    }

    /// The lines, each with its end.
    pub fn text(&self) -> String {
        self.lines.iter().flat_map(|line| [line, "\n"]).collect()
    }
}

/// A script that is being performed, and its lines so far.
struct Session {
    form: Form,
    answered: Answered,
    /// The device, if the header is good, and whether it is open.
    device: Option<Device>,
    opened: bool,
}

impl Session {
    /// A session whose first line is printed.
    fn begun(form: Form, line: String, device: Option<Device>, tally: &mut Tally) -> Self {
        tally.begin(&line);
        let opened = line == "open 0";
        Self { form, answered: Answered::begun(line), device, opened }
    }

    /// Reads a script and performs it with the original; an error if a sum of the
    /// original overflows.
    fn run(script: &[u8], tally: &mut Tally) -> Result<Self, String> {
        let mut rest = script;
        let header = Header::read(&mut rest).filter(|_| script.len() <= LONGEST);
        let Some((form, header)) = header else {
            return Ok(Self::begun(Form::Gdi1, "bad script".into(), None, tally));
        };
        if !header.is_served() {
            return Ok(Self::begun(form, "too large".into(), None, tally));
        }
        let (refusal, device) = header.open();
        let device = Some(device.shown_as(form));
        let mut session = Self::begun(form, format!("open {refusal}"), device, tally);
        if session.opened {
            session.perform(rest, tally)?;
        }
        Ok(session)
    }

    /// Performs the steps up to the end or a bad call.
    fn perform(&mut self, mut script: &[u8], tally: &mut Tally) -> Result<(), String> {
        let device = self.device.as_mut().expect("a device is open");
        while !script.is_empty() {
            let Some(step) = Step::read(self.form, &mut script) else {
                self.answered.lines.push("bad call".into());
                tally.bad_call();
                return Ok(());
            };
            let lines = match &step {
                Step::Call(Call::Load { bytes }) if !device.can_load(bytes.as_slice()) => {
                    return Err("the original cannot give the handles of a table".into());
                }
                Step::Call(call) => {
                    let outcome = device.perform(call).map_err(|Overflow| {
                        format!("the original's sums overflow, no answer: {call}")
                    })?;
                    tally.count(call, &outcome, device);
                    vec![format!("{:02x} {outcome}", call.byte())]
                }
                Step::Look => {
                    tally.look();
                    device.state()
                }
            };
            self.answered.add(step, lines);
        }
        Ok(())
    }
}

/// What is printed for a script; an error if a sum of the original overflows.
pub fn answered(script: &[u8], tally: &mut Tally) -> Result<Answered, String> {
    let Session { mut answered, device, .. } = Session::run(script, tally)?;
    if let Some(device) = device {
        tally.end(&device);
        answered.lines.extend(device.end());
    }
    Ok(answered)
}

/// The final panel as a P6 picture, without the lines of looks; only the first line
/// if no device is open.
pub fn picture(script: &[u8]) -> Result<Vec<u8>, String> {
    let Session { answered, device, opened, .. } = Session::run(script, &mut Tally::new())?;
    Ok(match device {
        Some(device) if opened => device.picture(),
        _ => format!("{}\n", answered.lines[0]).into_bytes(),
    })
}

#[cfg(test)]
mod tests {
    use super::*;
    use crate::calls::printed;
    use crate::calls::step::LOOK;
    use pocket_kernel::gdi::GDI_SCREEN_DC;

    const SMALL: Header = Header { panel_len: 8, store_len: 2, width: 2, height: 2, fill: 0xFF };

    /// The state lines of a device without objects.
    fn state(first: &str, panel: &str, crc: &str) -> String {
        let dc = "dc dead0dc0 screen none dead5701 dead5707 dead5710 00ffffff 00000000 00000000 \
                  00000000 00ffffff 0";
        format!("{first}\npanel {panel} frames 0 next dead1000 stock 0 count 0\n{dc}\ncrc {crc}\n")
    }

    #[test]
    fn headers_are_written_and_read() {
        let bytes = SMALL.bytes();
        assert_eq!(bytes, *b"GDI1\0\0\0\x08\0\0\0\x02\0\0\0\x02\0\0\0\x02\xFF");
        assert_eq!(bytes.len(), HEADER);
        assert_eq!(Header::read(&mut bytes.as_slice()), Some((Form::Gdi1, SMALL)));
        let bytes = SMALL.bytes_as(Form::Gdi2);
        assert_eq!(bytes[..5], *b"GDI2\0");
        assert_eq!(Header::read(&mut bytes.as_slice()), Some((Form::Gdi2, SMALL)));
    }

    #[test]
    fn a_short_or_wrong_header_is_a_bad_script() {
        let bytes = SMALL.bytes();
        for len in 0..HEADER {
            assert_eq!(printed(&bytes[..len]), "bad script\n");
        }
        let mut long = bytes.clone();
        long.resize(LONGEST + 1, 1);
        assert_eq!(printed(&long), "bad script\n");
        let large = Header { panel_len: u32::MAX, ..SMALL }.bytes();
        assert_eq!(printed(&large[..20]), "bad script\n");
        for at in 0..4 {
            let mut large = large.clone();
            large[at] ^= 0x20;
            assert_eq!(printed(&large), "bad script\n");
        }
    }

    #[test]
    fn a_large_header_is_not_opened() {
        let most = Header { panel_len: MOST_PANEL, store_len: MOST_STORE, ..SMALL };
        assert!(printed(&most.bytes()).starts_with("open 0\npanel 2 2 "));
        let panel = Header { panel_len: MOST_PANEL + 1, ..SMALL };
        let store = Header { store_len: MOST_STORE + 1, ..SMALL };
        let sides = Header { width: 0, panel_len: u32::MAX, ..SMALL };
        for header in [panel, store, sides] {
            assert_eq!(printed(&header.bytes()), "too large\n");
        }
    }

    #[test]
    fn an_opened_device_and_a_refused_one() {
        // Zeros for 8 and 2 bytes; then 0xFF for 8 and 2 bytes.
        assert_eq!(printed(&SMALL.bytes()), state("open 0", "2 2", "6522df69 41d912ff"));
        let refused = state("open 6", "0 0", "2144df1c ffff0000");
        let script = [Header { height: 4097, ..SMALL }.bytes(), vec![0x01, 0xFF]].concat();
        assert_eq!(printed(&script), refused);
        let script = Header { height: 3, ..SMALL }.bytes();
        assert_eq!(printed(&script), refused.replace("open 6", "open 7"));
    }

    #[test]
    fn a_bad_call_ends_the_calls() {
        for bad in [[0x0D, 0x01].as_slice(), &[0x00, 0x01], &[0x05, 0, 0, 0]] {
            let script = [SMALL.bytes().as_slice(), &[0x01], bad].concat();
            let answered = answered(&script, &mut Tally::new()).unwrap();
            assert_eq!(answered.lines[..3], ["open 0", "01 0 dead1000", "bad call"]);
            assert!(answered.lines[3].ends_with("next dead1001 stock 0 count 1"));
            assert_eq!(answered.lines.len(), 7);
            assert_eq!(answered.steps.len(), 1);
        }
    }

    #[test]
    fn the_second_form_prints_positions() {
        let refused = Header { height: 3, ..SMALL };
        for (header, calls) in [(SMALL, vec![0x01, LOOK]), (refused, vec![0x01])] {
            let [one, two] =
                Form::ALL.map(|form| printed(&[header.bytes_as(form), calls.clone()].concat()));
            let with_positions = |line: &str| {
                let dc = line.starts_with("dc ") || line.contains(" dc memory ");
                format!("{line}{}\n", if dc { " 0 0" } else { "" })
            };
            assert_eq!(one.lines().map(with_positions).collect::<String>(), two);
        }
        let line = Call::Line { dc: GDI_SCREEN_DC, x: 1, y: -7 }.bytes();
        let lines = printed(&[SMALL.bytes_as(Form::Gdi2), line.clone()].concat());
        assert!(lines.starts_with("open 0\n14 0\npanel 2 2 frames 1 "), "{lines}");
        assert!(lines.contains(" 00ffffff 0 1 -7\ncrc "), "{lines}");
        let lines = printed(&[SMALL.bytes(), line].concat());
        assert!(lines.starts_with("open 0\nbad call\npanel 2 2 frames 0 "), "{lines}");
    }

    #[test]
    fn a_look_prints_the_state_so_far() {
        let fill = Call::PanelFill { word: 0xFFFF }.bytes();
        let script = [&SMALL.bytes(), [LOOK, 0x01, LOOK, LOOK].as_slice(), &fill].concat();
        let answered = answered(&script, &mut Tally::new()).unwrap();
        let fresh = printed(&SMALL.bytes());
        assert_eq!(answered.lines[..4], fresh.lines().collect::<Vec<_>>());
        assert_eq!(answered.lines[4], "01 0 dead1000");
        assert_eq!(answered.lines[5], "panel 2 2 frames 0 next dead1001 stock 0 count 1");
        assert!(answered.lines[7].starts_with("object dead1000 dc memory none "));
        assert_eq!(answered.lines[8], answered.lines[3]);
        assert_eq!(answered.lines[5..9], answered.lines[9..13]);
        assert_eq!(answered.lines[13], "10 0");
        assert!(answered.lines[14].starts_with("panel 2 2 frames 1 next dead1001 "));
        // 8 bytes of 0xFF, then 2 of 0.
        assert_eq!(answered.lines[17..], ["crc 2144df1c 41d912ff"]);
        let lines: Vec<_> = answered.steps.iter().map(|done| done.lines.clone()).collect();
        assert_eq!(lines, [1..4, 4..5, 5..9, 9..13, 13..14]);
    }

    #[test]
    fn where_open_is_refused_nothing_is_looked_at() {
        let refused = Header { height: 3, ..SMALL }.bytes();
        assert_eq!(printed(&[refused.clone(), vec![LOOK]].concat()), printed(&refused));
    }

    #[test]
    fn a_call_without_an_answer_ends_after_its_number() {
        let calls = [Call::PanelFill { word: 1 }, Call::Resize { width: 0, height: 0 }];
        let mut script = SMALL.bytes();
        calls.iter().for_each(|call| call.write(&mut script));
        Call::text(GDI_SCREEN_DC, 0, 0, vec![0x41; 2]).write(&mut script);
        Call::text(0, 0, 0, vec![0x41; 2]).write(&mut script);
        let lines = "open 0\n10 0\n11 0\n0f 0 12\n0f 1 0\npanel 2 2 frames 2 ";
        assert!(printed(&script).starts_with(lines));
    }

    #[test]
    fn a_picture_is_the_final_panel() {
        let fill = Call::PanelFill { word: 0x6162 }.bytes();
        let script = [SMALL.bytes(), Call::Resize { width: 1, height: 1 }.bytes(), fill].concat();
        assert_eq!(picture(&script).unwrap(), b"P6\n1 1\n255\nc,\x10");
        // A picture is written after a bad call too; looks are ignored.
        let script = [script, vec![LOOK, 0x00, 0x10, LOOK]].concat();
        assert_eq!(picture(&script).unwrap(), b"P6\n1 1\n255\nc,\x10");
        let black = [b"P6\n2 2\n255\n".as_slice(), &[0; 12]].concat();
        assert_eq!(picture(&SMALL.bytes()).unwrap(), black);
    }

    #[test]
    fn there_is_no_picture_of_a_device_that_is_not_open() {
        assert_eq!(picture(b"GDI1").unwrap(), b"bad script\n");
        let large = Header { panel_len: u32::MAX, ..SMALL };
        assert_eq!(picture(&large.bytes()).unwrap(), b"too large\n");
        let refused = Header { store_len: 1, ..SMALL };
        assert_eq!(picture(&refused.bytes()).unwrap(), b"open 7\n");
    }
}
