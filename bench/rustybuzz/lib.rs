//! Runs of rustybuzz over the bytes of a font file, for a program in C whose instructions are counted.
use rustybuzz::{shape_with_plan, Face, GlyphBuffer, ShapePlan, UnicodeBuffer};

#[inline(never)]
fn rustybuzz_fill(buffer: &mut UnicodeBuffer, text: &str) {
    buffer.push_str(text);
}

/// What is counted: guessing and shaping.
#[inline(never)]
fn rustybuzz_run(face: &Face, plan: &ShapePlan, buffer: UnicodeBuffer) -> GlyphBuffer {
    shape_with_plan(face, plan, buffer)
}

/// A plan for what a buffer is filled with.
fn plan_for(face: &Face, buffer: &mut UnicodeBuffer) -> ShapePlan {
    buffer.guess_segment_properties();
    ShapePlan::new(face, buffer.direction(), Some(buffer.script()), buffer.language().as_ref(), &[])
}

/// Shapes the text so many times, by one plan or by a plan for each, and returns the number of its glyphs; 0 if the bytes are
/// no font or the text is no UTF-8.
///
/// # Safety
/// `font` points to `font_size` bytes, `text` to `text_size`.
#[no_mangle]
pub unsafe extern "C" fn rustybuzz_runs(
    font: *const u8,
    font_size: usize,
    text: *const u8,
    text_size: usize,
    fresh: u32,
    times: u32,
) -> usize {
    let font = std::slice::from_raw_parts(font, font_size);
    let text = std::str::from_utf8(std::slice::from_raw_parts(text, text_size));
    let (Some(face), Ok(text)) = (Face::from_slice(font, 0), text) else {
        return 0;
    };
    let mut plan = None;
    let mut buffer = UnicodeBuffer::new();
    let mut glyphs = 0;
    for _ in 0..times {
        rustybuzz_fill(&mut buffer, text);
        if fresh != 0 || plan.is_none() {
            plan = Some(plan_for(&face, &mut buffer));
        }
        let shaped = rustybuzz_run(&face, plan.as_ref().unwrap(), buffer);
        glyphs = shaped.len();
        buffer = shaped.clear();
    }
    glyphs
}
