//! Gives the comparison the original's glyph table.
//!
//! `GLYPHS` is private in font.rs, and `draw_char` shows only five columns of it.
//! So this copies the text of the constant to OUT_DIR and makes it public.

use std::{env, fs, path::Path};

const FONT: &str = "pocket-kernel/src/font.rs";

fn main() {
    println!("cargo::rerun-if-changed={FONT}");
    let font = fs::read_to_string(FONT).expect("font.rs can be read");
    let from = font.find("const GLYPHS").expect("font.rs has the table");
    let len = font[from..].find("\n];").expect("the table ends") + "\n];".len();
    let out = env::var_os("OUT_DIR").expect("cargo sets OUT_DIR");
    let table = format!("pub {}\n", &font[from..from + len]);
    fs::write(Path::new(&out).join("glyphs.rs"), table).expect("OUT_DIR can be written");
}
