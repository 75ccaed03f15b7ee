//! A script that creates so many objects that their handles pass the stock ones.

use pocket_kernel::gdi::{GDI_HANDLE_BASE, GDI_SCREEN_DC};

use super::call::Call;
use super::handle::STOCK;
use super::script::Header;
use super::step::Step;

/// How many objects the script creates: more than the 18,177 whose handles are
/// 0xDEAD_1000 to 0xDEAD_5700. The first stock handle follows.
const GIVEN: u32 = 18_400;
/// From this object on the script keeps what it creates, so that there are live
/// handles on both sides of each stock handle.
const STAYING: u32 = 18_170;
/// After how many of these there is a look: up to the last stock handle and past it.
const LOOKED_AT: u32 = 40;

/// Creates and deletes brushes up to the stock handles, then creates objects and
/// keeps them, with looks while the next handle passes the stock ones. At the end
/// each stock object is selected into a DC, to show that it is unchanged.
pub fn handles() -> Vec<u8> {
    let dcs = STOCK.len() as u32;
    let mut steps = Vec::new();
    for given in 0..GIVEN {
        steps.push(creation(given).into());
        if (dcs..STAYING).contains(&given) {
            steps.push(Call::Delete { handle: GDI_HANDLE_BASE + given }.into());
        } else if (STAYING..STAYING + LOOKED_AT).contains(&given) {
            steps.push(Step::Look);
        }
    }
    let mut calls = Vec::new();
    for (dc, stock) in (GDI_HANDLE_BASE..).zip(STOCK) {
        calls.push(Call::Select { dc, object: stock });
        calls.push(Call::Delete { handle: stock });
        calls.push(Call::Remove { handle: stock });
    }
    for handle in 0xDEAD_56F8..0xDEAD_5728 {
        calls.push(Call::Select { dc: GDI_SCREEN_DC, object: handle });
        if handle % 3 == 0 {
            calls.push(Call::Remove { handle });
        }
    }
    calls.extend((0..5).map(creation));
    steps.extend(calls.into_iter().map(Step::Call));
    let header = Header { panel_len: 9, store_len: 500, width: 2, height: 2, fill: 0xA5 };
    let mut script = header.bytes();
    steps.iter().for_each(|step| step.write(&mut script));
    script
}

/// The creation of this number: first a DC for each stock object, then brushes,
/// then objects of every kind.
fn creation(given: u32) -> Call {
    if given < STOCK.len() as u32 {
        return Call::CreateMemoryDc {};
    }
    let kind = if given < STAYING { 2 } else { given % 5 };
    match kind {
        0 => Call::CreateMemoryDc {},
        1 => Call::CreateCompatibleBitmap { width: 1, height: 1 },
        2 => Call::CreateSolidBrush { color: given },
        3 => Call::CreatePen { color: given, width: 1 },
        _ => Call::CreateFont { height: 12 },
    }
}

#[cfg(test)]
mod tests {
    use super::*;
    use crate::calls::printed;

    #[test]
    fn handles_go_on_past_the_stock_ones() {
        let lines = printed(&handles());
        let given =
            |line: &&str| matches!(&line[..5], "01 0 " | "02 0 " | "03 0 " | "04 0 " | "05 0 ");
        let given: Vec<&str> = lines.lines().filter(given).map(|line| &line[5..]).collect();
        assert_eq!(given.len(), GIVEN as usize + 5);
        assert_eq!(given[18_176..18_178], ["dead5700", "dead570a"]);
        assert_eq!(given[18_182..18_186], ["dead570f", "dead5711", "dead5712", "dead5713"]);
        assert!(!lines.contains("bad call"));
        // A look prints the next handle even if it is a stock handle.
        for next in ["dead5701", "dead5710", "dead5720", "dead5722"] {
            assert!(lines.contains(&format!("panel 2 2 frames 0 next {next} ")), "{next}");
        }
    }

    #[test]
    fn stock_objects_are_as_ever() {
        let lines = printed(&handles());
        let end = lines.rfind("\npanel ").expect("state lines are at the end");
        let colors = |line: &str| line.split(' ').skip(8).take(2).collect::<Vec<_>>().join(" ");
        let dcs = lines[end..].lines().filter(|line| line.starts_with("object dead10"));
        let colors: Vec<String> = dcs.map(colors).collect();
        let brushes = ["00ffffff", "00c0c0c0", "00808080", "00000000", "ff000000"];
        let pens = ["00ffffff", "00000000", "ff000000"];
        let brushes = brushes.map(|brush| format!("{brush} 00000000"));
        let pens = pens.map(|pen| format!("00ffffff {pen}"));
        let fresh = "00ffffff 00000000".to_string();
        assert_eq!(colors[0], fresh);
        assert_eq!(colors[1..6], brushes);
        assert_eq!(colors[6..9], pens);
        assert_eq!(colors[9], "00404040 00000000");
        assert_eq!(colors[10..12], [fresh.clone(), fresh]);
    }
}
