//! Texts in UTF-16 and names of languages, over DejaVu Sans (Debian's fonts-dejavu-core) if it is there.
use luthgarn::{Buffer, Font};

const DEJAVU: &str = "/usr/share/fonts/truetype/dejavu/DejaVuSans.ttf";

#[test]
fn a_text_in_utf16_has_clusters_of_its_own() {
    let Ok(bytes) = std::fs::read(DEJAVU) else {
        return;
    };
    let font = Font::new(bytes, 0).expect("a font");
    let shape = |units: &[u16]| Buffer::new("").shape_utf16(&font, units).expect("glyphs");
    let units: Vec<u16> = "a😀b".encode_utf16().collect();
    let glyphs = shape(&units);
    let utf8 = Buffer::new("a😀b").shape(&font).expect("glyphs");
    assert_eq!(glyphs.iter().map(|g| g.cluster).collect::<Vec<_>>(), [0, 1, 3]);
    assert_eq!(utf8.iter().map(|g| g.cluster).collect::<Vec<_>>(), [0, 1, 5]);
    assert!(glyphs.iter().zip(&utf8).all(|(a, b)| a.glyph == b.glyph && a.x_advance == b.x_advance));
    assert_eq!(shape(&units[1..2])[0].glyph, shape(&[0xFFFD])[0].glyph);
}

#[test]
fn a_language_may_be_of_any_length() {
    for length in [0, 2, 64, 65, 1000] {
        assert!(Buffer::new("").language(&"a".repeat(length)).is_ok());
    }
}

#[test]
fn axes_that_a_font_lacks_say_nothing() {
    let Ok(bytes) = std::fs::read(DEJAVU) else {
        return;
    };
    let advances = |font: &Font| -> Vec<i32> {
        Buffer::new("AVATAR").shape(font).expect("glyphs").iter().map(|g| g.x_advance).collect()
    };
    let plain = Font::new(bytes.as_slice(), 0).expect("a font");
    let bold = Font::at(bytes.as_slice(), 0, &[(*b"wght", 700.0)]).expect("a font");
    assert_eq!(advances(&plain), advances(&bold));
}
