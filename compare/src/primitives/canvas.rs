//! A surface of the original, made of lent bytes: a panel or a bitmap.

use pocket_kernel::framebuffer::{Framebuffer, FB_BPP};
use pocket_kernel::gdi::{Bitmap, Surface};

pub enum Canvas {
    Panel(Framebuffer),
    Bitmap(Bitmap),
}

impl Canvas {
    /// A panel with frame counter 0.
    pub fn panel(width: u32, height: u32, pixels: Vec<u8>) -> Self {
        Self::Panel(Framebuffer { width, height, bpp: FB_BPP, pixels, frame_counter: 0 })
    }

    /// A bitmap without a dirty mark.
    pub fn bitmap(width: u32, height: u32, pixels: Vec<u8>) -> Self {
        Self::Bitmap(Bitmap { width, height, pixels, ..Bitmap::new(1, 1) })
    }

    pub fn surface(&mut self) -> Surface<'_> {
        match self {
            Self::Panel(panel) => Surface::Screen(panel),
            Self::Bitmap(bitmap) => Surface::Bitmap(bitmap),
        }
    }

    /// Whether the operation made a dirty mark. It makes at most one.
    pub fn marked(&self) -> bool {
        match self {
            Self::Panel(panel) => {
                assert!(panel.frame_counter <= 1, "the original marked more than once");
                panel.frame_counter == 1
            }
            Self::Bitmap(bitmap) => bitmap.host_dirty,
        }
    }

    pub fn into_pixels(self) -> Vec<u8> {
        match self {
            Self::Panel(panel) => panel.pixels,
            Self::Bitmap(bitmap) => bitmap.pixels,
        }
    }
}
