//! The layouts of the reference beside those of the library, and work areas that are lent with guard bytes behind them.

use reference::Layout;

/// The library's layout of the same name.
pub fn of_library(layout: Layout) -> scene_log::Layout {
    match layout {
        Layout::Square => scene_log::Layout::Square,
        Layout::Half => scene_log::Layout::Half,
    }
}

/// The bytes behind a lent work area. There are as many as the square layout has, so that a call which takes the half
/// one for it writes to them.
const GUARD: [u8; 16384] = [0xC3; 16384];

/// Lends a copy of the area: what the call answers, and what it leaves in the area. It changes no byte behind that.
pub fn with_guard<A>(area: &[u8], call: impl FnOnce(&mut [u8]) -> A) -> (A, Vec<u8>) {
    let mut bytes = [area, &GUARD].concat();
    let (lent, guard) = bytes.split_at_mut(area.len());
    let answer = call(lent);
    assert!(guard == GUARD, "a byte behind the work area is changed");
    bytes.truncate(area.len());
    (answer, bytes)
}
