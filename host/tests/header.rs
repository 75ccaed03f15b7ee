//! Hosts in C: the header compiles without a warning, its structs have the layout
//! of the Rust declarations, a program that draws prints the panel that the same
//! calls give in Rust, and empty slices may be NULL.

use std::io::{ErrorKind, Write};
use std::mem::{offset_of, size_of};
use std::path::{Path, PathBuf};
use std::process::Command;

use ravinefork::{
    call, rop3, Area, Colorref, Device, Handle, HostCall, Point, Refusal, Reply, MAX_MEMORY,
    MAX_OBJECTS, MAX_POSITION, MAX_SIDE, MAX_TABLE, MIN_POSITION, NO_OBJECT, RECORD, SCREEN, SLOT,
    SLOTS,
};

const FOLDER: &str = env!("CARGO_MANIFEST_DIR");

/// The assertions that the C program compiles: the sizes and offsets of the
/// structs, and the numbers that the header names.
fn layout() -> String {
    let mut asserts = String::new();
    macro_rules! layout {
        ($c:ident $rust:ident: $($field:ident)*) => {
            asserts += &format!("SIZE({}, {})", stringify!($c), size_of::<$rust>());
            $(asserts += &format!(
                " AT({}, {}, {})", stringify!($c), stringify!($field), offset_of!($rust, $field)
            );)*
        };
    }
    layout!(ravinefork_call HostCall: call dc src a b x y w h src_x src_y);
    layout!(ravinefork_reply Reply: refusal value flag x y kind fields);
    asserts += " SIZE(ravinefork_saving, 8) AT(ravinefork_saving, refusal, 0)";
    asserts += " AT(ravinefork_saving, length, 4)";
    macro_rules! numbers {
        ($($name:ident $number:expr),* $(,)?) => {
            $(asserts += &format!(
                " _Static_assert(RAVINEFORK_{} == {}u, \"\");", stringify!($name), $number
            );)*
        };
    }
    macro_rules! handles {
        ($($name:ident)*) => { numbers!($($name Handle::$name.0),*) };
    }
    macro_rules! refusals {
        ($($name:ident)*) => { numbers!($($name Refusal::$name.number()),*) };
    }
    macro_rules! calls {
        ($($name:ident)*) => { numbers!($($name call::$name),*) };
    }
    numbers!(RECORD RECORD, SCREEN SCREEN, MAX_OBJECTS MAX_OBJECTS, MAX_SIDE MAX_SIDE);
    numbers!(MAX_MEMORY MAX_MEMORY, MAX_TABLE MAX_TABLE, NO_OBJECT NO_OBJECT);
    for (i, slot) in [SLOTS, SLOTS + SLOT].into_iter().enumerate() {
        asserts += &format!(" _Static_assert(RAVINEFORK_SLOT({i}) == {slot}, \"\");");
    }
    for (name, end) in [("MIN", MIN_POSITION), ("MAX", MAX_POSITION)] {
        asserts += &format!(" _Static_assert(RAVINEFORK_{name}_POSITION == {end}, \"\");");
    }
    calls!(CREATE_MEMORY_DC CREATE_COMPATIBLE_BITMAP CREATE_SOLID_BRUSH CREATE_PEN CREATE_FONT);
    calls!(DELETE REMOVE SELECT_INTO SET_TEXT_COLOR SET_TEXT_ALIGN SET_BK_COLOR SET_BK_MODE);
    calls!(PATTERN_FILL RECTANGLE TEXT PANEL_FILL RESIZE BLIT MOVE_TO LINE_TO);
    handles!(GDI_HANDLE_BASE GDI_SCREEN_DC STOCK_WHITE_BRUSH STOCK_LTGRAY_BRUSH);
    handles!(STOCK_GRAY_BRUSH STOCK_BLACK_BRUSH STOCK_NULL_BRUSH STOCK_WHITE_PEN);
    handles!(STOCK_BLACK_PEN STOCK_NULL_PEN STOCK_DKGRAY_BRUSH STOCK_SYSTEM_FONT);
    handles!(STOCK_DEFAULT_BITMAP);
    refusals!(NO_DC NO_SURFACE NO_SOURCE_DC NO_SOURCE_SURFACE TOO_MANY_OBJECTS SIDE);
    refusals!(TOO_SHORT LENGTH UNSOUND_RECORD TEXT_TOO_LONG POSITION TABLE OUTPUT_TOO_SHORT);
    refusals!(NO_CALL);
    asserts
}

/// Compiles `tests/SOURCE.c` with these options. Returns the program's path, or the
/// compiler's messages if there is an error. Returns none if there is no C compiler:
/// it then writes a line to standard error, where the test harness does not hide
/// it, or fails if `REQUIRE_CC` is set.
fn compiled(source: &str, name: &str, options: &[String]) -> Option<Result<PathBuf, String>> {
    let program = Path::new(env!("CARGO_TARGET_TMPDIR")).join(name);
    let cc = Command::new("cc")
        .env("LC_ALL", "C")
        .args(["-std=c11", "-Wall", "-Wextra", "-Werror", "-O1", "-g"])
        .args(options)
        .arg(format!("-I{FOLDER}/include"))
        .arg(format!("{FOLDER}/tests/{source}.c"))
        .arg(format!("{FOLDER}/../target/staticlib/libhost.a"))
        .arg("-o")
        .arg(&program)
        .output();
    match cc {
        Err(error) if error.kind() == ErrorKind::NotFound => {
            assert!(std::env::var_os("REQUIRE_CC").is_none(), "no C compiler (cc)");
            _ = writeln!(std::io::stderr(), "tests/{source}.c skipped: no C compiler (cc)");
            None
        }
        Err(error) => panic!("cc: {error}"),
        Ok(output) if output.status.success() => Some(Ok(program)),
        Ok(output) => Some(Err(String::from_utf8_lossy(&output.stderr).into_owned())),
    }
}

/// The layout as an option of the compiler.
fn define(layout: &str) -> [String; 1] {
    [format!("-DLAYOUT={layout}")]
}

/// What a compiled program prints.
fn output_of(compiled: Result<PathBuf, String>) -> String {
    let program =
        compiled.unwrap_or_else(|errors| panic!("the program does not compile:\n{errors}"));
    let output = Command::new(&program).output().expect("the program runs");
    assert!(output.status.success(), "{output:?}");
    String::from_utf8(output.stdout).expect("the program prints text")
}

/// The panel of the same calls in Rust, as the C program prints it.
fn picture() -> Result<String, Refusal> {
    let screen = Handle::GDI_SCREEN_DC;
    let mut device = Device::open(24, 16, 2 * 24 * 16, 64)?;
    let pen = device.create_pen(Colorref(0x0000_00FF), 3)?;
    device.select_into(screen, pen)?;
    device.rectangle(screen, Area { x: 1, y: 1, w: 22, h: 14 })?;
    device.text_out(screen, Point { x: 4, y: 4 }, &[0x43, 0x31, 0x31])?;
    let area = Area { x: -1, y: 12, w: 9, h: 9 };
    device.blit(screen, area, screen, Point { x: 3, y: 4 }, rop3::SRCCOPY)?;
    device.move_to(screen, Point { x: 21, y: -2 })?;
    device.line_to(screen, Point { x: 9, y: 20 })?;
    let rows = device.panel_pixels().chunks_exact(48).map(|row| {
        let pixels = row.chunks_exact(2).map(|pair| match [pair[0], pair[1]] {
            [0xFF, 0xFF] => '.',
            [0x00, 0xF8] => 'r',
            [0, 0] => '#',
            _ => '?',
        });
        pixels.chain(['\n']).collect::<String>()
    });
    Ok(rows.collect())
}

#[test]
fn the_header_names_each_refusal_once() {
    let header = std::fs::read_to_string(format!("{FOLDER}/include/ravinefork.h")).expect("text");
    let (_, refusals) = header.split_once("/* Refusals").expect("the refusals");
    let named = refusals.lines().skip(1).map_while(|line| {
        let (_, number) = line.strip_prefix("#define RAVINEFORK_")?.split_once(' ')?;
        number.parse::<u32>().ok()
    });
    let ours =
        (0..=u16::MAX.into()).filter(|&n| Refusal::new(n).is_some_and(|r| r.meaning().is_some()));
    assert_eq!(named.collect::<Vec<_>>(), ours.collect::<Vec<_>>());
}

#[test]
fn a_host_in_c() {
    let Some(program) = compiled("device", "device", &define(&layout())) else { return };
    let lines = "open 9\nopen 0\npen dead1000\nbefore it dead5707\nadvance 18\n\
                 old position 0 0\nposition 9 20\nold position 9 20\nno position 11\n\
                 removed 3: 000000ff 3\nno DC 1\nno call 255\nno text 0\nno memory 8\nno record 9\nframes 5\n";
    let picture = picture().expect("a picture");
    println!("{picture}");
    let restart = "saved 0, 54 bytes, form 1\nshort output 13, 0 bytes, first c3\nno table 12, width 3\n\
                   loaded 0 0 0 0 0 5 0\nwidth 24, frames 1, pen dead1000\npanel 00 5a, store 00 00\n\
                   saved again 0, the same bytes\n";
    assert_eq!(output_of(program), format!("{lines}{picture}{restart}"));
}

#[test]
fn null_with_length_0() {
    let Some(program) = compiled("empty", "empty", &[]) else { return };
    let lines = "\
        open, no numbers: 9\n\
        open, no store: 7\n\
        open, no panel memory: 7\n\
        open, neither: 7\n\
        sides 0 by 0, next handle dead1000, bytes 5a a5\n\
        text, after a refused open: 9 0\n\
        open, both: 0\n\
        text, no units: 0 0\n\
        text, a unit: 0 6\n\
        text, no store: 8 0\n\
        text, no panel memory: 8 0\n\
        text, no numbers: 9 0\n\
        save, no output: 13 0\n\
        save, no numbers: 9 0\n\
        save, nothing: 9 0\n\
        save, an output: 0 54\n\
        load, no bytes: 12\n\
        load, no store: 8\n\
        load, no panel memory: 8\n\
        load, no numbers: 9\n\
        load, nothing: 9\n\
        load, a table: 0\n\
        snapshots, no output: 8 8\n\
        snapshots, nothing: 9 9\n";
    assert_eq!(output_of(program), lines);
}

#[test]
fn a_layout_that_differs_does_not_compile() {
    let right = "AT(ravinefork_call, src, 8)";
    let layout = layout();
    assert_eq!(layout.matches(right).count(), 1);
    let wrong = layout.replace(right, "AT(ravinefork_call, src, 12)");
    let Some(program) = compiled("device", "wrong", &define(&wrong)) else { return };
    // One error, and it is the assertion about `src`; older clangs say `static_assert failed`.
    let messages = program.expect_err("a wrong layout compiles");
    let errors: Vec<_> = messages.lines().filter(|line| line.contains("error:")).collect();
    let [error] = errors[..] else { panic!("not one error:\n{messages}") };
    let asserted = ["static assertion failed", "static_assert failed"];
    assert!(asserted.iter().any(|text| error.contains(text)), "{messages}");
    assert!(error.contains("\"src\"") || error.ends_with(": src"), "{messages}");
}
