//! A host that restarts: it saves the table, drops the device, opens another one
//! and loads the table. Handles and settings work as before; pixels are black.
//!
//!     cargo run --offline --example restart

use ravinefork::{Area, Colorref, Device, GdiObject, Handle, Point, Refusal};

const SCREEN: Handle = Handle::GDI_SCREEN_DC;
const SIDES: [u32; 2] = [240, 320];
const STORE: usize = 64 * 1024;

fn open() -> Result<Device, Refusal> {
    let [width, height] = SIDES;
    Device::open(width, height, (2 * width * height) as usize, STORE)
}

/// How many pixels of the panel are not black.
fn painted(device: &Device) -> usize {
    device.panel_pixels().chunks_exact(2).filter(|pixel| *pixel != [0, 0]).count()
}

/// Draws a frame with what the screen DC has selected.
fn draw(device: &mut Device) -> Result<(), Refusal> {
    device.rectangle(SCREEN, Area { x: 10, y: 20, w: 100, h: 30 })
}

fn main() -> Result<(), Refusal> {
    let mut device = open()?;
    let blue = device.create_solid_brush(Colorref(0x00FF_0000))?;
    let red = device.create_pen(Colorref(0x0000_00FF), 1)?;
    let icon = device.create_compatible_bitmap(16, 16)?;
    let memory = device.create_memory_dc()?;
    device.select_into(memory, icon)?;
    device.select_into(SCREEN, blue)?;
    device.select_into(SCREEN, red)?;
    device.set_text_color(SCREEN, Colorref(0x00FF_FFFF))?;
    device.move_to(SCREEN, Point { x: 10, y: 60 })?;
    draw(&mut device)?;
    let before = painted(&device);
    println!("before: {} objects, {before} pixels painted", device.record().count());

    // A host would write these bytes to a file.
    let table = device.save()?;
    println!("saved:  {} bytes", table.len());
    drop(device);

    let mut device = open()?;
    device.load(&table)?;
    println!("loaded: {} objects, {} pixels painted", device.record().count(), painted(&device));
    assert_eq!(painted(&device), 0);
    for handle in [blue, red, icon, memory] {
        println!("        {handle} is {:?}", device.get(handle).map(kind));
    }
    assert_eq!(device.bitmap_pixels(icon), Some([0; 2 * 16 * 16].as_slice()));
    assert_eq!(device.move_to(SCREEN, Point { x: 0, y: 0 })?, Point { x: 10, y: 60 });
    assert_eq!(device.set_text_color(SCREEN, Colorref(0))?, Colorref(0x00FF_FFFF));

    // The brush and the pen are still selected.
    draw(&mut device)?;
    println!("drawn:  {} pixels painted", painted(&device));
    assert_eq!(painted(&device), before);
    // New objects get handles that were not given before.
    println!("        a new brush is {}", device.create_solid_brush(Colorref(0))?);
    Ok(())
}

fn kind(object: GdiObject) -> &'static str {
    match object {
        GdiObject::Dc(_) => "a DC",
        GdiObject::Bitmap(_) => "a bitmap",
        GdiObject::Brush(_) => "a brush",
        GdiObject::Pen(_) => "a pen",
        GdiObject::Font(_) => "a font",
    }
}
