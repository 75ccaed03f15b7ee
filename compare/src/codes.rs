//! The named raster codes.

use pocket_kernel::gdi::rop3;

pub const CODES: [(&str, u32); 15] = [
    ("BLACKNESS", rop3::BLACKNESS),
    ("NOTSRCERASE", rop3::NOTSRCERASE),
    ("NOTSRCCOPY", rop3::NOTSRCCOPY),
    ("SRCERASE", rop3::SRCERASE),
    ("DSTINVERT", rop3::DSTINVERT),
    ("PATINVERT", rop3::PATINVERT),
    ("SRCINVERT", rop3::SRCINVERT),
    ("SRCAND", rop3::SRCAND),
    ("MERGEPAINT", rop3::MERGEPAINT),
    ("MERGECOPY", rop3::MERGECOPY),
    ("SRCCOPY", rop3::SRCCOPY),
    ("SRCPAINT", rop3::SRCPAINT),
    ("PATCOPY", rop3::PATCOPY),
    ("PATPAINT", rop3::PATPAINT),
    ("WHITENESS", rop3::WHITENESS),
];

/// The numbers of the named codes.
pub fn named() -> [u32; CODES.len()] {
    CODES.map(|(_, code)| code)
}
