//! Random handles: mostly of live objects of the kind that a call needs, else of
//! stock objects or of no object.

use pocket_kernel::gdi::{self, GdiObject, GDI_HANDLE_BASE, GDI_SCREEN_DC};

use super::device::Device;
use crate::rng::Rng;

pub const STOCK: [u32; 12] = [
    GDI_SCREEN_DC,
    gdi::STOCK_WHITE_BRUSH,
    gdi::STOCK_LTGRAY_BRUSH,
    gdi::STOCK_GRAY_BRUSH,
    gdi::STOCK_BLACK_BRUSH,
    gdi::STOCK_NULL_BRUSH,
    gdi::STOCK_WHITE_PEN,
    gdi::STOCK_BLACK_PEN,
    gdi::STOCK_NULL_PEN,
    gdi::STOCK_DKGRAY_BRUSH,
    gdi::STOCK_SYSTEM_FONT,
    gdi::STOCK_DEFAULT_BITMAP,
];

/// Mostly a created DC or the screen DC.
pub fn a_dc(rng: &mut Rng, device: &Device) -> u32 {
    match rng.below(20) {
        0 => live(rng, device, |_| true),
        1 => other(rng, device),
        2..=4 => GDI_SCREEN_DC,
        _ => live(rng, device, is_dc),
    }
}

/// A DC to select the object into. For a bitmap it is sometimes one without a
/// surface.
pub fn dc_for(rng: &mut Rng, device: &Device, object: u32) -> u32 {
    if device.gdi().bitmap(object).is_some() && rng.one_in(2) {
        created(rng, device, |handle| device.place(handle) == Err(2))
    } else {
        a_dc(rng, device)
    }
}

/// Mostly a DC that has a surface: the screen DC, or one with a live bitmap.
pub fn with_surface(rng: &mut Rng, device: &Device) -> u32 {
    match rng.below(24) {
        0 => live(rng, device, |_| true),
        1 => other(rng, device),
        2 => live(rng, device, is_dc),
        3..=6 => GDI_SCREEN_DC,
        _ => created(rng, device, |handle| device.place(handle).is_ok()),
    }
}

/// A blit's source: the target, the screen DC, a DC with another surface, or any.
pub fn source(rng: &mut Rng, device: &Device, target: u32) -> u32 {
    let another =
        |handle| device.place(handle).is_ok() && device.place(handle) != device.place(target);
    match rng.below(12) {
        0..=2 => target,
        3 => GDI_SCREEN_DC,
        4..=7 => created(rng, device, another),
        _ => with_surface(rng, device),
    }
}

/// Mostly an object that a DC can hold.
pub fn selectable(rng: &mut Rng, device: &Device) -> u32 {
    match rng.below(20) {
        0 => live(rng, device, is_dc),
        1 => other(rng, device),
        2..=4 => rng.pick(&STOCK),
        5 if rng.one_in(2) => gdi::STOCK_DEFAULT_BITMAP,
        6..=13 => live(rng, device, |object| matches!(object, GdiObject::Bitmap(_))),
        _ => live(rng, device, |object| !is_dc(object)),
    }
}

/// Mostly a created object.
pub fn any_object(rng: &mut Rng, device: &Device) -> u32 {
    match rng.below(20) {
        0..=2 => other(rng, device),
        3 | 4 => rng.pick(&STOCK),
        // The first and the last created object.
        5 => device.created().first().copied().unwrap_or_default(),
        6 => device.created().last().copied().unwrap_or_default(),
        7..=10 => live(rng, device, |object| matches!(object, GdiObject::Bitmap(_))),
        _ => live(rng, device, |_| true),
    }
}

fn is_dc(object: &GdiObject) -> bool {
    matches!(object, GdiObject::Dc(_))
}

/// A created object of this kind; the screen DC if there is none.
fn live(rng: &mut Rng, device: &Device, kind: fn(&GdiObject) -> bool) -> u32 {
    created(rng, device, |handle| device.gdi().get(handle).is_some_and(kind))
}

/// A created object whose handle is wanted; the screen DC if there is none.
fn created(rng: &mut Rng, device: &Device, wanted: impl Fn(u32) -> bool) -> u32 {
    let created = device.created().iter().copied();
    let created: Vec<u32> = created.filter(|&handle| wanted(handle)).collect();
    if created.is_empty() {
        GDI_SCREEN_DC
    } else {
        rng.pick(&created)
    }
}

/// Mostly the handle of an object that was deleted or is not created yet.
fn other(rng: &mut Rng, device: &Device) -> u32 {
    let next = device.next();
    match rng.below(6) {
        0 => rng.pick(&[0, 1, GDI_HANDLE_BASE - 1, u32::MAX, 0xDEAD_570A]),
        1 => rng.next() as u32,
        2 => next,
        _ => rng.between(GDI_HANDLE_BASE.into(), next.into()) as u32,
    }
}

#[cfg(test)]
mod tests {
    use super::*;

    #[test]
    fn these_are_the_stock_handles() {
        let known = |handle| gdi::GdiState::new().get(handle).is_some();
        assert!(STOCK.iter().all(|&handle| gdi::is_stock_handle(handle) && known(handle)));
        let all = (0xDEAD_0000..=0xDEAD_FFFF).filter(|&handle| gdi::is_stock_handle(handle));
        assert_eq!(all.count(), STOCK.len());
    }
}
