//! Shapes each line of standard input with a font file:
//!
//!     cargo run --example shape -- FONT [-f FEATURE].. [-v AXIS=VALUE].. [-d l|r|t|b] [-s SCRIPT] [-l LANGUAGE] < TEXT
use luthgarn::{Buffer, Direction, Feature, Font};
use std::error::Error;
use std::io::{Read, Write};

fn direction_of(word: &str) -> Option<Direction> {
    match word.bytes().next()? {
        b'l' => Some(Direction::LeftToRight),
        b'r' => Some(Direction::RightToLeft),
        b't' => Some(Direction::TopToBottom),
        b'b' => Some(Direction::BottomToTop),
        _ => None,
    }
}

/// What is wished of an axis of a variable font, as `wght=700`.
fn axis_of(word: &str) -> Option<([u8; 4], f32)> {
    let (tag, value) = word.split_once('=')?;
    Some((tag.as_bytes().try_into().ok()?, value.parse().ok()?))
}

fn main() -> Result<(), Box<dyn Error>> {
    let words: Vec<String> = std::env::args().collect();
    let bytes = std::fs::read(words.get(1).ok_or("a font is wanted")?)?;
    let mut buffer = Buffer::new("");
    let mut axes = Vec::new();
    for pair in words[2..].chunks_exact(2) {
        buffer = match pair[0].as_str() {
            "-f" => buffer.features(&[pair[1].parse::<Feature>()?]),
            "-v" => {
                axes.push(axis_of(&pair[1]).ok_or("no such axis")?);
                buffer
            }
            "-d" => buffer.direction(direction_of(&pair[1]).ok_or("no such direction")?),
            "-s" => buffer.script(&pair[1])?,
            "-l" => buffer.language(&pair[1])?,
            option => return Err(format!("no such option: {option}").into()),
        };
    }
    let font = Font::at(bytes, 0, &axes)?;
    let mut text = String::new();
    std::io::stdin().read_to_string(&mut text)?;
    let lines: Vec<&str> = text.split_terminator('\n').collect();
    let mut out = std::io::BufWriter::new(std::io::stdout().lock());
    for glyphs in buffer.shape_lines(&font, &lines)? {
        let words: Vec<String> = glyphs.iter().map(ToString::to_string).collect();
        writeln!(out, "[{}]", words.join("|"))?;
    }
    out.flush()?;
    Ok(())
}
