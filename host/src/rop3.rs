//! Raster codes by their Win32 names. Calls take any other code too. Bits 16 to 23
//! of a code are its table: bit 4P + 2S + D of the table is the result for the
//! pattern, source and destination bits P, S and D. Other bits have no effect.

#![allow(missing_docs)]

pub const BLACKNESS: u32 = 0x0000_0042;
pub const NOTSRCERASE: u32 = 0x0011_0000;
pub const NOTSRCCOPY: u32 = 0x0033_0008;
pub const SRCERASE: u32 = 0x0044_0328;
pub const DSTINVERT: u32 = 0x0055_0009;
pub const PATINVERT: u32 = 0x005A_0049;
pub const SRCINVERT: u32 = 0x0066_0046;
pub const SRCAND: u32 = 0x0088_00C6;
pub const MERGEPAINT: u32 = 0x00BB_0226;
pub const MERGECOPY: u32 = 0x00C0_00CA;
pub const SRCCOPY: u32 = 0x00CC_0020;
pub const SRCPAINT: u32 = 0x00EE_0086;
pub const PATCOPY: u32 = 0x00F0_0021;
pub const PATPAINT: u32 = 0x00FB_0A09;
pub const WHITENESS: u32 = 0x00FF_0062;
