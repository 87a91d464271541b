//! stand-in: our width tables (Latin, Eastern)
use std::cell::Cell;
thread_local! { static EASTERN: Cell<bool> = const { Cell::new(false) }; }
pub fn set_eastern(on: bool) { EASTERN.with(|e| e.set(on)); }
pub fn is_eastern() -> bool { EASTERN.with(|e| e.get()) }
/// ascending and apart
pub const ZERO: [(u32, u32); 2] = [(0x0300, 0x036F), (0x200D, 0x200D)];
pub const WIDE: [(u32, u32); 5] = [(0x3041, 0x3096), (0x30A1, 0x30FA), (0x4E00, 0x9FFF), (0xAC00, 0xD7A3), (0xFF01, 0xFF60)];
pub fn is_control(c: char) -> bool { let u = c as u32; u < 0x20 || (0x7F..=0x9F).contains(&u) }
fn within(t: &[(u32, u32)], u: u32) -> bool { t.iter().any(|&(a, b)| a <= u && u <= b) }
/// the table's answer, controls included (0)
pub fn table(c: char) -> usize {
    let u = c as u32;
    if is_control(c) || within(&ZERO, u) { 0 }
    else if is_eastern() && within(&WIDE, u) { 2 } else { 1 }
}
pub trait UnicodeWidthChar { fn width(self) -> Option<usize>; }
impl UnicodeWidthChar for char {
    fn width(self) -> Option<usize> { if is_control(self) { None } else { Some(table(self)) } }
}
/// only for the modes Unicode and NoZwj, which are not ported
pub trait UnicodeWidthStr { fn width(&self) -> usize; }
impl UnicodeWidthStr for str { fn width(&self) -> usize { self.chars().map(table).sum() } }
