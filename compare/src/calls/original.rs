//! The original's objects, and the handles that it gives them.

use std::collections::HashMap;

use pocket_kernel::gdi::{is_stock_handle, GdiObject, GdiState, GDI_HANDLE_BASE};

use super::call::Call;

/// The most handles that the original is made to give for a loaded table.
const MOST_GIVEN: u32 = 50_000;

/// The original's table of objects.
///
/// The original gives handles one after another, and after 0xDEAD_5700 gives the
/// stock ones. From there on this type makes it skip the handles that are taken,
/// so that its next handle is that of the specification's rule.
pub struct Original {
    pub gdi: GdiState,
    /// The next handle. The original does not show it; whenever it gives a handle,
    /// an assertion checks that it is this one.
    pub next: u32,
}

impl Original {
    pub fn new() -> Self {
        Self { gdi: GdiState::new(), next: GDI_HANDLE_BASE }
    }

    /// The original with these created objects and this next handle. It gives every
    /// handle before that one; what is not among the objects is removed again. `None`
    /// if it would give too many, or never an object's handle.
    pub fn holding(next: u32, objects: impl IntoIterator<Item = (u32, GdiObject)>) -> Option<Self> {
        let mut objects: HashMap<u32, GdiObject> = objects.into_iter().collect();
        let mut original = Self::new();
        let given = |handle: u32| handle.wrapping_sub(GDI_HANDLE_BASE);
        if given(next) > MOST_GIVEN || objects.keys().any(|&handle| given(handle) >= given(next)) {
            return None;
        }
        while original.next != next {
            match objects.remove(&original.next) {
                Some(object) => original.place(object),
                None => original.pass(),
            }
        }
        Some(original)
    }

    /// Makes the original create an object, and puts this one in its place.
    fn place(&mut self, object: GdiObject) {
        let handle = self.create_next(&Call::CreateFont { height: 0 });
        *self.gdi.get_mut(handle).expect("it was created") = object;
    }

    /// Makes the original perform a create call.
    pub fn create(&mut self, call: &Call) -> u32 {
        let handle = free(self.next, |handle| self.gdi.get(handle).is_some());
        while self.next != handle {
            self.pass();
        }
        self.create_next(call)
    }

    /// Makes the original skip a handle that is taken, and puts back the object that
    /// it replaces.
    fn pass(&mut self) {
        let there = self.gdi.get(self.next).cloned();
        let handle = self.create_next(&Call::CreateFont { height: 0 });
        match (there, self.gdi.get_mut(handle)) {
            (Some(there), Some(made)) => *made = there,
            _ => drop(self.gdi.remove(handle)),
        }
    }

    fn create_next(&mut self, call: &Call) -> u32 {
        let handle = match *call {
            Call::CreateMemoryDc {} => self.gdi.create_memory_dc(),
            Call::CreateCompatibleBitmap { width, height } => {
                self.gdi.create_compatible_bitmap(width, height)
            }
            Call::CreateSolidBrush { color } => self.gdi.create_solid_brush(color),
            Call::CreatePen { color, width } => self.gdi.create_pen(color, width),
            Call::CreateFont { height } => self.gdi.create_font(height),
            _ => unreachable!("{call} creates nothing"),
        };
        assert_eq!(handle, self.next, "the original gives its next handle");
        self.next = handle.wrapping_add(1);
        handle
    }

    /// The original's own next handle. It shows it only by creating an object.
    pub fn confirm_next(mut self) {
        self.create_next(&Call::CreateMemoryDc {});
    }
}

/// The first handle from `next` on that is not 0, stock or live.
pub fn free(next: u32, live: impl Fn(u32) -> bool) -> u32 {
    let mut handle = next;
    while handle == 0 || is_stock_handle(handle) || live(handle) {
        handle = handle.wrapping_add(1);
    }
    handle
}

#[cfg(test)]
mod tests {
    use super::*;
    use pocket_kernel::gdi::Font;

    /// How many handles the original gives before the stock ones.
    const UNTIL_STOCK: u32 = 18_177;

    #[test]
    fn handles_step_over_those_taken() {
        assert_eq!(free(0xDEAD_5700, |_| false), 0xDEAD_5700);
        assert_eq!(free(0xDEAD_5701, |_| false), 0xDEAD_570A);
        assert_eq!(free(0xDEAD_5710, |handle| handle == 0xDEAD_5711), 0xDEAD_5712);
        assert_eq!(free(0xDEAD_0DC0, |_| false), 0xDEAD_0DC1);
        assert_eq!(free(0xFFFF_FFFF, |handle| handle == 0xFFFF_FFFF), 1);
    }

    #[test]
    fn the_original_goes_on_past_the_stock_handles() {
        let brush = Call::CreateSolidBrush { color: 5 };
        let mut original = Original::new();
        for given in 0..UNTIL_STOCK {
            let handle = original.create(&brush);
            assert_eq!(handle, 0xDEAD_1000 + given);
            assert!(original.gdi.delete(handle));
        }
        assert_eq!(original.next, 0xDEAD_5701);
        let handles: Vec<u32> = (0..24).map(|_| original.create(&brush) - 0xDEAD_5700).collect();
        let expected = (0x0A..=0x22).filter(|low| ![0x10, 0x20].contains(low));
        assert!(handles.iter().copied().eq(expected.chain([0x23])), "{handles:x?}");
    }

    #[test]
    fn objects_are_put_where_their_handles_are() {
        let font = |height| GdiObject::Font(Font { height });
        let handles = [0xDEAD_1001, 0xDEAD_5700, 0xDEAD_570A];
        let objects = handles.into_iter().zip([7, 8, 9].map(font));
        let mut original = Original::holding(0xDEAD_570B, objects.clone()).expect("an original");
        for (handle, height) in handles.into_iter().zip([7, 8, 9]) {
            let held = original.gdi.get(handle);
            assert!(matches!(held, Some(GdiObject::Font(font)) if font.height == height));
        }
        assert!(original.gdi.get(0xDEAD_1000).is_none());
        assert_eq!(original.create(&Call::CreateMemoryDc {}), 0xDEAD_570B);
        for next in [0xDEAD_570A, 0xDEAD_1000, 0xDEAD_0FFF, 0] {
            assert!(Original::holding(next, objects.clone()).is_none());
        }
    }

    #[test]
    fn what_is_passed_stays() {
        let fresh = GdiState::new();
        let mut original = Original { gdi: GdiState::new(), next: GDI_HANDLE_BASE };
        for _ in 0..UNTIL_STOCK {
            let handle = original.create(&Call::CreateMemoryDc {});
            original.gdi.delete(handle);
        }
        for _ in 0..40 {
            original.create(&Call::CreateMemoryDc {});
        }
        for stock in (0xDEAD_0DC0..0xDEAD_5721).filter(|&handle| is_stock_handle(handle)) {
            let shown = |gdi: &GdiState| gdi.get(stock).map(|object| format!("{object:?}"));
            assert_eq!(shown(&original.gdi), shown(&fresh));
        }
        assert!(matches!(original.gdi.get(0xDEAD_570A), Some(GdiObject::Dc(_))));
    }
}
