//! The original's drawing core: its three files, each byte for byte as published.

pub mod font;
pub mod framebuffer;
pub mod gdi;
