//! What luthgarn.h declares.

#[repr(C)]
#[derive(Clone, Copy, Debug, Default, PartialEq, Eq)]
pub struct Feature {
    pub tag: u32,
    pub value: u32,
    pub start: u32,
    pub end: u32,
}

#[repr(C)]
#[derive(Clone, Copy)]
pub struct Variation {
    pub tag: u32,
    pub value: f32,
}

#[repr(C)]
#[derive(Clone, Copy)]
pub struct Run {
    pub before: u32,
    pub start: u32,
    pub end: u32,
    pub after: u32,
    pub direction: u32,
    pub script: u32,
    pub flags: u32,
    pub level: u32,
    pub language: [u8; LONGEST_LANGUAGE],
    pub glyphs: usize,
}

impl Run {
    /// No text, and nothing asked for.
    pub const EMPTY: Run = Run {
        before: 0,
        start: 0,
        end: 0,
        after: 0,
        direction: 0,
        script: 0,
        flags: 0,
        level: 0,
        language: [0; LONGEST_LANGUAGE],
        glyphs: 0,
    };
}

#[repr(C)]
#[derive(Clone, Copy, Debug, Default, PartialEq, Eq)]
pub struct Glyph {
    pub glyph: u32,
    pub cluster: u32,
    pub flags: u32,
    pub x_advance: i32,
    pub y_advance: i32,
    pub x_offset: i32,
    pub y_offset: i32,
}

#[repr(C)]
pub struct Outcome {
    pub code: u32,
    pub runs: usize,
    pub glyphs: usize,
    pub needed: usize,
}

/// A font that is kept. Not `Copy`: of two copies one may be used.
#[repr(C)]
#[derive(Debug)]
pub struct Font {
    kept: *mut std::ffi::c_void,
    is_open: u32,
}

impl Font {
    /// No font.
    pub const NONE: Font = Font { kept: std::ptr::null_mut(), is_open: 0 };
}

pub const DONE: u32 = 0;
pub const ROOM: u32 = 6;
pub const LONGEST_LANGUAGE: usize = 64;

/// A call that shapes with a kept font a text of bytes, or of units of UTF-16.
pub type Shape<U> = unsafe extern "C" fn(
    font: *mut Font,
    features: *const Feature,
    feature_count: usize,
    text: *const U,
    text_size: usize,
    runs: *mut Run,
    run_count: usize,
    glyphs: *mut Glyph,
    glyph_count: usize,
) -> Outcome;

extern "C" {
    pub fn luthgarn_parse_feature(text: *const u8, size: usize, feature: *mut Feature) -> u32;
    pub fn luthgarn_parse_script(text: *const u8, size: usize) -> u32;
    pub fn luthgarn_set_language(run: *mut Run, name: *const u8, size: usize) -> u32;
    pub fn luthgarn_version() -> u32;
    pub fn luthgarn_coordinates(
        bytes: *const u8,
        size: usize,
        index: u32,
        wishes: *const Variation,
        wish_count: usize,
        coordinates: *mut i32,
        room: usize,
        count: *mut usize,
    ) -> u32;
    pub fn luthgarn_font_new_at(
        bytes: *const u8,
        size: usize,
        index: u32,
        coordinates: *const i32,
        coordinate_count: usize,
        font: *mut Font,
    ) -> u32;
    pub fn luthgarn_font_share(font: *mut Font, copy: *mut Font) -> u32;
    pub fn luthgarn_font_free(font: *mut Font);
    pub fn luthgarn_font_units_per_em(font: *mut Font) -> u32;
    pub fn luthgarn_font_glyph_name(font: *mut Font, glyph: u32, name: *mut u8, size: usize) -> usize;
    pub fn luthgarn_shape_font(
        font: *mut Font,
        features: *const Feature,
        feature_count: usize,
        text: *const u8,
        text_size: usize,
        runs: *mut Run,
        run_count: usize,
        glyphs: *mut Glyph,
        glyph_count: usize,
    ) -> Outcome;
    pub fn luthgarn_shape_font_utf16(
        font: *mut Font,
        features: *const Feature,
        feature_count: usize,
        text: *const u16,
        text_size: usize,
        runs: *mut Run,
        run_count: usize,
        glyphs: *mut Glyph,
        glyph_count: usize,
    ) -> Outcome;
}
