//! The proved operations, from the static library.

/// The answer of a drawing.
#[repr(C)]
#[derive(Clone, Copy)]
pub struct Drawn {
    pub refusal: u32,
    pub marked: bool,
}

/// The answer of a text.
#[repr(C)]
#[derive(Clone, Copy)]
pub struct Advance {
    pub refusal: u32,
    pub advance: u32,
}

/// A colour: its 16 bits.
#[repr(C)]
#[derive(Clone, Copy)]
pub struct Rgb565(pub u16);

#[rustfmt::skip]
#[link(name = "surface_ffi", kind = "static")]
extern "C" {
    fn ravinefork_fill_rect(pixels: *mut u8, len: usize, width: u32, height: u32, x: i32, y: i32, w: i32, h: i32, color: Rgb565) -> Drawn;
    fn ravinefork_fill_rect_rop(pixels: *mut u8, len: usize, width: u32, height: u32, x: i32, y: i32, w: i32, h: i32, pat: Rgb565, rop: u32) -> Drawn;
    fn ravinefork_stroke_rect(pixels: *mut u8, len: usize, width: u32, height: u32, x: i32, y: i32, w: i32, h: i32, color: Rgb565) -> Drawn;
    fn ravinefork_blit_from_bytes_rop(pixels: *mut u8, len: usize, width: u32, height: u32, dx: i32, dy: i32, sx: i32, sy: i32, w: i32, h: i32, src: *const u8, src_len: usize, src_w: u32, src_h: u32, rop: u32, pat: Rgb565) -> Drawn;
    fn ravinefork_draw_str_u16(pixels: *mut u8, len: usize, width: u32, height: u32, x: i32, y: i32, s: *const u16, s_len: usize, color: Rgb565) -> Advance;
}

/// A surface for the proved operations.
pub struct Surface {
    pub pixels: Vec<u8>,
    pub width: u32,
    pub height: u32,
}

impl Surface {
    fn lent(&mut self) -> (*mut u8, usize) {
        (self.pixels.as_mut_ptr(), self.pixels.len())
    }

    pub fn fill_rect(&mut self, [x, y, w, h]: [i32; 4], color: u16) -> bool {
        let (pixels, len) = self.lent();
        // SAFETY: the pointer and the length are those of `pixels`, which nothing else uses during the
        // call.
        let drawn = unsafe {
            ravinefork_fill_rect(pixels, len, self.width, self.height, x, y, w, h, Rgb565(color))
        };
        accepted(drawn)
    }

    pub fn fill_rect_rop(&mut self, [x, y, w, h]: [i32; 4], pat: u16, rop: u32) -> bool {
        let (pixels, len) = self.lent();
        // SAFETY: as in `fill_rect`.
        let drawn = unsafe {
            ravinefork_fill_rect_rop(
                pixels,
                len,
                self.width,
                self.height,
                x,
                y,
                w,
                h,
                Rgb565(pat),
                rop,
            )
        };
        accepted(drawn)
    }

    pub fn stroke_rect(&mut self, [x, y, w, h]: [i32; 4], color: u16) -> bool {
        let (pixels, len) = self.lent();
        // SAFETY: as in `fill_rect`.
        let drawn = unsafe {
            ravinefork_stroke_rect(pixels, len, self.width, self.height, x, y, w, h, Rgb565(color))
        };
        accepted(drawn)
    }

    /// Blits a whole source that has the surface's sides.
    pub fn blit_whole(&mut self, src: &[u8], rop: u32, pat: u16) -> bool {
        let sides = [self.width, self.height];
        self.blit_at([0, 0], src, sides, rop, pat)
    }

    /// Blits a whole source of these sides.
    pub fn blit_at(
        &mut self,
        [dx, dy]: [i32; 2],
        src: &[u8],
        [src_w, src_h]: [u32; 2],
        rop: u32,
        pat: u16,
    ) -> bool {
        let (pixels, len) = self.lent();
        let (width, height) = (self.width, self.height);
        let (w, h) = (src_w as i32, src_h as i32);
        let (from, from_len) = (src.as_ptr(), src.len());
        // SAFETY: as in `fill_rect`, and the other pointer and length are those of `src`.
        let drawn = unsafe {
            ravinefork_blit_from_bytes_rop(
                pixels,
                len,
                width,
                height,
                dx,
                dy,
                0,
                0,
                w,
                h,
                from,
                from_len,
                src_w,
                src_h,
                rop,
                Rgb565(pat),
            )
        };
        accepted(drawn)
    }

    pub fn draw_str_u16(&mut self, x: i32, y: i32, s: &[u16], color: u16) -> i32 {
        let (pixels, len) = self.lent();
        let (text, count) = (s.as_ptr(), s.len());
        // SAFETY: as in `fill_rect`, and the other pointer and length are those of `s`.
        let answer = unsafe {
            ravinefork_draw_str_u16(
                pixels,
                len,
                self.width,
                self.height,
                x,
                y,
                text,
                count,
                Rgb565(color),
            )
        };
        assert_eq!(answer.refusal, 0);
        answer.advance as i32
    }
}

fn accepted(drawn: Drawn) -> bool {
    assert_eq!(drawn.refusal, 0);
    drawn.marked
}
