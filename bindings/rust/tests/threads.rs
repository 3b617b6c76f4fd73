//! Threads that share a font, over DejaVu Sans (Debian's fonts-dejavu-core) if it is there.
use luthgarn::{Buffer, Font};

const DEJAVU: &str = "/usr/share/fonts/truetype/dejavu/DejaVuSans.ttf";

#[test]
fn threads_share_a_font() {
    let Ok(bytes) = std::fs::read(DEJAVU) else {
        return;
    };
    let font = Font::new(&bytes, 0).expect("a font");
    let shape = || Buffer::new("AVATAR").shape(&font).expect("glyphs");
    let wanted = shape();
    assert_eq!(wanted.len(), 6);
    std::thread::scope(|scope| {
        for _ in 0..4 {
            scope.spawn(|| (0..20).for_each(|_| assert_eq!(shape(), wanted)));
        }
    });
}

#[test]
fn a_font_has_units_and_names() {
    let Ok(bytes) = std::fs::read(DEJAVU) else {
        return;
    };
    let font = Font::new(bytes, 0).expect("a font");
    assert_eq!(font.units_per_em(), 2048);
    assert_eq!(font.glyph_name(36).as_deref(), Some("A"));
    assert_eq!(font.glyph_name(99_999), None);
}
