//! The fixed call script, which the gate replays.

use pocket_kernel::gdi::rop3::SRCINVERT;
use pocket_kernel::gdi::GDI_SCREEN_DC;

use super::call::Call;
use super::device::{bytes_of, Device, MAX_SIDE};
use super::examples::{self, bitmap, delete, select, List, ROOM};
use super::pictures;
use super::random;
use super::script::{answered, Header};
use super::step::Step;
use super::tally::Tally;
use crate::rng::Rng;

/// How many random calls there are between the examples.
const RANDOM: usize = 3000;
/// How many units the longest text among them has.
const LONGEST_TEXT: usize = 60;
/// How many bytes at the store's end no random call uses, so that the last examples
/// show that their bitmaps become black.
const UNTOUCHED: u64 = 8000;
/// The sides of the bitmap that shows what the random calls drew.
const SHOWN: u32 = 32;

/// The sample's device: a panel memory longer than the panel, and a store for the
/// bitmaps that stay and for the last examples.
const HEADER: Header = Header {
    panel_len: 963,
    store_len: 2 + 2 * SHOWN * SHOWN + pictures::BYTES + ROOM,
    width: 24,
    height: 16,
    fill: 0xA5,
};

/// The script, what is printed for it, and its tally. It ends with a bad call.
pub fn sample() -> (Vec<u8>, String, Tally) {
    script_with(RANDOM)
}

/// The same with this many random calls.
fn script_with(random: usize) -> (Vec<u8>, String, Tally) {
    let mut made = Made { steps: Vec::new(), device: HEADER.open().1 };
    made.perform(examples::steps());
    let (mut rng, unseen) = (Rng::new(1), |_: &mut Rng, _: &Device, _: &Call| false);
    let (steps, _) = random::steps(&mut rng, &mut made.device, 30, random, wanted, unseen);
    made.steps.extend(steps);
    made.steps.push(Step::Look);
    made.perform(shown(&made.device));
    made.perform(pictures::steps(made.device.next()));
    assert_eq!(made.device.left(), ROOM as usize, "what is left for the last examples");
    made.perform(examples::room(made.device.next()));
    made.steps.push(Call::SetBkMode { dc: 0, transparent: 2 }.into());
    let mut script = HEADER.bytes();
    made.steps.iter().for_each(|step| step.write(&mut script));
    let mut tally = Tally::new();
    let answered = answered(&script, &mut tally).expect("no sum of these calls overflows");
    (script, answered.text(), tally)
}

/// Steps, and the device after them.
struct Made {
    steps: Vec<Step>,
    device: Device,
}

impl Made {
    fn perform(&mut self, steps: Vec<Step>) {
        for step in steps {
            if let Step::Call(call) = &step {
                assert!(self.device.perform(call).is_ok(), "a sum overflows: {call}");
            }
            self.steps.push(step);
        }
    }
}

/// Whether a random call may be part of the sample.
fn wanted(device: &Device, call: &Call) -> bool {
    match *call {
        Call::CreateCompatibleBitmap { width, height } if width.max(height) <= MAX_SIDE => {
            let (bytes, left) = (bytes_of(width.max(1), height.max(1)), device.left() as u64);
            bytes > left || left - bytes >= UNTOUCHED
        }
        Call::Text { ref units, .. } => units.as_slice().len() <= LONGEST_TEXT,
        _ => true,
    }
}

/// Copies the panel and every bitmap into one bitmap, and deletes all other
/// objects.
fn shown(device: &Device) -> Vec<Step> {
    let is_bitmap = |handle: &u32| device.gdi().bitmap(*handle).is_some();
    let (bitmaps, others): (Vec<u32>, Vec<u32>) =
        device.created().iter().partition(|h| is_bitmap(h));
    let mut list = List::new(device.next());
    list.add(others.into_iter().map(delete));
    let [dc, source] = [(); 2].map(|()| list.create(Call::CreateMemoryDc {}));
    let all = list.create(bitmap(SHOWN, SHOWN));
    list.add([select(dc, all)]);
    let side = SHOWN as i32;
    let gather = |list: &mut List, source: u32, at: i32| {
        let (x, y) = (at % 5, at % 7);
        let (w, h, sx, sy, code) = (side, side, 0, 0, SRCINVERT);
        list.add([Call::Blit { dc, x, y, w, h, source, sx, sy, code }]);
    };
    gather(&mut list, GDI_SCREEN_DC, 0);
    for (&bitmap, at) in bitmaps.iter().zip(1..) {
        list.add([select(source, bitmap)]);
        gather(&mut list, source, at);
    }
    list.add(bitmaps.into_iter().map(delete));
    list.add([delete(dc), delete(source)]);
    list.look();
    list.steps
}

#[cfg(test)]
mod tests {
    use super::*;
    use crate::calls::device::MAX_OBJECTS;

    /// The last lines of `room`, the bad call, and the panel.
    const END: &str = "\n0d 0\n06 0 1\nbad call\npanel 24 16 frames ";

    #[test]
    fn the_sample_has_everything() {
        let (script, text, tally) = sample();
        assert!(tally.least_of_calls() >= 2, "{tally}");
        assert!(tally.share_changed() > 50, "{tally}");
        assert_eq!(tally.most(), MAX_OBJECTS);
        assert!(script.len() < 120_000 && tally.calls() <= 6000);
        assert!(text.contains(END));
    }

    #[test]
    fn the_examples_have_everything() {
        let (_, text, tally) = script_with(0);
        assert!(tally.least_of_calls() >= 1, "{tally}");
        assert!(text.contains(END));
    }
}
