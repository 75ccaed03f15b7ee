//! Random numbers and calls.

use ravinefork::{call, Handle, HostCall, MAX_POSITION, MAX_SIDE, MIN_POSITION};

/// Random numbers. A seed gives the same ones on every run.
pub struct Random(u64);

impl Random {
    pub fn new(seed: u64) -> Random {
        Random(seed)
    }

    pub fn below(&mut self, n: u32) -> u32 {
        self.0 = self.0.wrapping_mul(6_364_136_223_846_793_005).wrapping_add(1);
        ((self.0 >> 33) % u64::from(n)) as u32
    }

    pub fn of<T: Copy>(&mut self, all: &[T]) -> T {
        all[self.below(all.len() as u32) as usize]
    }

    /// A number that is often a handle, a side or a flag.
    pub fn number(&mut self) -> u32 {
        match self.below(6) {
            0 => self.below(12),
            1 => Handle::GDI_HANDLE_BASE.0 + self.below(12),
            2 => Handle::STOCK_WHITE_BRUSH.0 + self.below(34),
            3 => self.of(&[Handle::GDI_SCREEN_DC.0, MAX_SIDE, MAX_SIDE + 1, 256, 257, u32::MAX]),
            4 => self.below(u32::MAX),
            _ => self.below(40),
        }
    }

    pub fn coordinate(&mut self) -> i32 {
        match self.below(8) {
            0 => self.of(&[i32::MIN, i32::MIN + 1, -1, i32::MAX - 1, i32::MAX]),
            1 => self.number() as i32,
            _ => self.below(40) as i32 - 12,
        }
    }

    /// A coordinate of a position: mostly near a small surface, else anywhere in the
    /// range, at its ends or just past them.
    pub fn position(&mut self) -> i32 {
        match self.below(8) {
            0 => self.of(&[MIN_POSITION, MIN_POSITION - 1, MAX_POSITION, MAX_POSITION + 1]),
            1 => MIN_POSITION + self.below(65_536) as i32,
            _ => self.coordinate(),
        }
    }

    pub fn call(&mut self) -> HostCall {
        let call = match self.below(40) {
            0 => self.number(),
            _ => 1 + self.below(call::LINE_TO),
        };
        let dcs = [Handle::GDI_SCREEN_DC.0, Handle::GDI_HANDLE_BASE.0, self.number()];
        let a = match call {
            call::PATTERN_FILL | call::BLIT => self.below(256) << 16,
            call::SET_BK_MODE => self.below(3),
            call::PANEL_FILL => self.below(0x1_1000),
            call::DELETE | call::REMOVE if self.below(3) > 0 => 0,
            _ => self.number(),
        };
        let [x, y] = match call {
            call::MOVE_TO | call::LINE_TO => [self.position(), self.position()],
            _ => [self.coordinate(), self.coordinate()],
        };
        HostCall {
            call,
            dc: self.of(&dcs),
            src: self.of(&dcs),
            a,
            b: self.number(),
            x,
            y,
            w: self.coordinate(),
            h: self.coordinate(),
            src_x: self.coordinate(),
            src_y: self.coordinate(),
        }
    }
}
