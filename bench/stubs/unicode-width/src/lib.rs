//! stand-in: the Latin table, as both sides use it
pub fn is_control(c: char) -> bool { let u = c as u32; u < 0x20 || (0x7F..=0x9F).contains(&u) }
/// ASCII first, as most of a line is that
pub fn table(c: char) -> usize {
    let u = c as u32;
    if (0x20..0x7F).contains(&u) { return 1; }
    if is_control(c) || (0x0300..=0x036F).contains(&u) || u == 0x200D { 0 } else { 1 }
}
pub trait UnicodeWidthChar { fn width(self) -> Option<usize>; }
impl UnicodeWidthChar for char {
    fn width(self) -> Option<usize> { if is_control(self) { None } else { Some(table(self)) } }
}
/// only for the modes Unicode and NoZwj, which are not ported
pub trait UnicodeWidthStr { fn width(&self) -> usize; }
impl UnicodeWidthStr for str { fn width(&self) -> usize { self.chars().map(table).sum() } }
