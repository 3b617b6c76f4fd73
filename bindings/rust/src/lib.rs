//! Text shaping by a shaper that is proved: texts to positioned glyphs, as HarfBuzz does it.
//!
//! ```no_run
//! let bytes = std::fs::read("DejaVuSans.ttf")?;
//! let font = luthgarn::Font::new(bytes, 0)?;
//! for glyph in luthgarn::Buffer::new("Čau").shape(&font)? {
//!     println!("{} {} {}", glyph.glyph, glyph.cluster, glyph.x_advance);
//! }
//! # Ok::<(), Box<dyn std::error::Error>>(())
//! ```
//!
//! A font may hold any bytes: a hostile one changes which glyphs come out, or is refused. It is opened once, and a [`Font`] may be
//! used by several threads at once:
//!
//! ```no_run
//! # let font = luthgarn::Font::new(Vec::new(), 0)?;
//! std::thread::scope(|scope| {
//!     for word in ["one", "two"] {
//!         scope.spawn(|| luthgarn::Buffer::new(word).shape(&font));
//!     }
//! });
//! # Ok::<(), luthgarn::Error>(())
//! ```
#![warn(missing_docs)]

mod font;
mod native;

pub use font::Font;

use native::{DONE, ROOM};
use std::fmt;
use std::str::FromStr;

/// Why a text isn't shaped, or a name isn't read.
#[derive(Clone, Copy, Debug, PartialEq, Eq)]
pub enum Error {
    /// An allocation failed.
    Memory,
    /// A list of glyphs would have passed the limit: 64 glyphs a character, or 16,384.
    Length,
    /// The bytes have no font with this number.
    Font,
    /// No feature has this text.
    Feature,
    /// A script has four letters.
    Name,
    /// A text of 4 GiB or more.
    Text,
}

impl Error {
    fn of(code: u32) -> Error {
        match code {
            1 => Error::Memory,
            2 => Error::Length,
            3 => Error::Font,
            _ => Error::Text,
        }
    }
}

impl fmt::Display for Error {
    fn fmt(&self, f: &mut fmt::Formatter<'_>) -> fmt::Result {
        f.write_str(match self {
            Error::Memory => "no memory",
            Error::Length => "too many glyphs",
            Error::Font => "no such font",
            Error::Feature => "no such feature",
            Error::Name => "no such script",
            Error::Text => "the text is too long",
        })
    }
}

impl std::error::Error for Error {}

/// Which way a line runs.
#[derive(Clone, Copy, Debug, PartialEq, Eq)]
pub enum Direction {
    /// As Latin.
    LeftToRight = 4,
    /// As Arabic.
    RightToLeft = 5,
    /// Down a page.
    TopToBottom = 6,
    /// Up a page.
    BottomToTop = 7,
}

/// How far clusters are merged.
#[derive(Clone, Copy, Debug, Default, PartialEq, Eq)]
pub enum ClusterLevel {
    /// A grapheme has one cluster, and clusters are in order.
    #[default]
    MonotoneGraphemes = 0,
    /// Clusters are in order.
    MonotoneCharacters = 1,
    /// Clusters are merged for ligatures alone.
    Characters = 2,
}

/// A feature with its value, for the characters whose first byte is in a span.
#[derive(Clone, Copy, Debug, PartialEq, Eq)]
pub struct Feature(native::Feature);

impl FromStr for Feature {
    type Err = Error;

    /// Reads a feature as `hb_feature_from_string` does.
    ///
    /// ```
    /// use luthgarn::{Error, Feature};
    /// assert!("kern=0".parse::<Feature>().is_ok());
    /// assert_eq!("kern=".parse::<Feature>(), Err(Error::Feature));
    /// ```
    fn from_str(text: &str) -> Result<Feature, Error> {
        let mut feature = native::Feature::default();
        // SAFETY: the pointer and the count are those of `text`, and `feature` is borrowed by us alone.
        match unsafe { native::luthgarn_parse_feature(text.as_ptr(), text.len(), &mut feature) } {
            DONE => Ok(Feature(feature)),
            _ => Err(Error::Feature),
        }
    }
}

/// A glyph with its place, in units of the font.
#[derive(Clone, Copy, Debug, Default, PartialEq, Eq)]
pub struct Glyph {
    /// Its number in the font.
    pub glyph: u32,
    /// The first byte of its characters in the text.
    pub cluster: u32,
    /// Whether the text may be cut before its cluster, and the like: luthgarn.h has the numbers.
    pub flags: u32,
    /// How far the line goes on.
    pub x_advance: i32,
    /// How far a line down a page goes on.
    pub y_advance: i32,
    /// How far right of the pen it stands.
    pub x_offset: i32,
    /// How far above the pen it stands.
    pub y_offset: i32,
}

impl Glyph {
    /// Whether cutting the text before the glyph's cluster may change glyphs.
    pub fn is_unsafe_to_break(&self) -> bool {
        self.flags & 1 != 0
    }
}

/// A text with its settings. What isn't set is guessed.
#[derive(Clone)]
pub struct Buffer<'t> {
    text: &'t str,
    features: Vec<Feature>,
    run: native::Run,
}

impl<'t> Buffer<'t> {
    /// A text without settings.
    pub fn new(text: &'t str) -> Buffer<'t> {
        Buffer { text, features: Vec::new(), run: native::Run::EMPTY }
    }

    /// Asks for features, after those that were asked for.
    pub fn features(mut self, features: &[Feature]) -> Buffer<'t> {
        self.features.extend_from_slice(features);
        self
    }

    /// Sets the direction.
    pub fn direction(mut self, direction: Direction) -> Buffer<'t> {
        self.run.direction = direction as u32;
        self
    }

    /// Sets how far clusters are merged.
    pub fn cluster_level(mut self, level: ClusterLevel) -> Buffer<'t> {
        self.run.level = level as u32;
        self
    }

    /// Sets the script by its name of ISO 15924.
    pub fn script(mut self, name: &str) -> Result<Buffer<'t>, Error> {
        if name.len() != 4 || !name.is_ascii() {
            return Err(Error::Name);
        }
        // SAFETY: the pointer and the count are those of `name`.
        self.run.script = unsafe { native::luthgarn_parse_script(name.as_ptr(), name.len()) };
        Ok(self)
    }

    /// Sets the language by a name of BCP 47. Of a name of more than 64 bytes it has the subtags that fit.
    pub fn language(mut self, name: &str) -> Result<Buffer<'t>, Error> {
        // SAFETY: the run is borrowed by us alone, and the pointer and the count are those of `name`.
        match unsafe { native::luthgarn_set_language(&mut self.run, name.as_ptr(), name.len()) } {
            DONE => Ok(self),
            code => Err(Error::of(code)),
        }
    }

    /// The glyphs of the text.
    pub fn shape(&self, font: &Font<'_>) -> Result<Vec<Glyph>, Error> {
        self.shape_lines(font, &[self.text]).map(|mut lines| lines.remove(0))
    }

    /// The glyphs of each line, with these settings, by one call. The buffer's own text isn't read.
    pub fn shape_lines(&self, font: &Font<'_>, lines: &[&str]) -> Result<Vec<Vec<Glyph>>, Error> {
        let text = lines.concat();
        u32::try_from(text.len()).map_err(|_| Error::Text)?;
        let mut start = 0;
        let mut runs = Vec::with_capacity(lines.len());
        for line in lines {
            let end = start + line.len() as u32;
            runs.push(native::Run { before: start, start, end, after: end, ..self.run });
            start = end;
        }
        let glyphs = self.glyphs(font, text.as_bytes(), native::luthgarn_shape_font, &mut runs)?;
        let mut from = 0;
        let of_run = |run: &native::Run| {
            let found = glyphs[from..run.glyphs].iter().map(Glyph::of).collect();
            from = run.glyphs;
            found
        };
        Ok(runs.iter().map(of_run).collect())
    }

    /// The glyphs of a text in UTF-16, with these settings. Clusters and spans of features count its units, and a surrogate
    /// without its partner stands for U+FFFD. The buffer's own text isn't read.
    pub fn shape_utf16(&self, font: &Font<'_>, text: &[u16]) -> Result<Vec<Glyph>, Error> {
        let end = u32::try_from(text.len()).map_err(|_| Error::Text)?;
        let mut runs = [native::Run { end, after: end, ..self.run }];
        let glyphs = self.glyphs(font, text, native::luthgarn_shape_font_utf16, &mut runs)?;
        Ok(glyphs[..runs[0].glyphs].iter().map(Glyph::of).collect())
    }

    /// The glyphs of all runs of a text of bytes, or of units of UTF-16, by the call for these.
    fn glyphs<U>(
        &self,
        font: &Font<'_>,
        text: &[U],
        shape: native::Shape<U>,
        runs: &mut [native::Run],
    ) -> Result<Vec<native::Glyph>, Error> {
        let features: Vec<native::Feature> = self.features.iter().map(|feature| feature.0).collect();
        let mut glyphs = vec![native::Glyph::default(); text.len() + 64];
        loop {
            // SAFETY: `font` is a kept font; each pointer and count are those of one slice, and what is written is borrowed
            // by us alone.
            let outcome = font.lend(|font| unsafe {
                shape(
                    font,
                    features.as_ptr(),
                    features.len(),
                    text.as_ptr(),
                    text.len(),
                    runs.as_mut_ptr(),
                    runs.len(),
                    glyphs.as_mut_ptr(),
                    glyphs.len(),
                )
            })?;
            match outcome.code {
                DONE => return Ok(glyphs),
                ROOM => glyphs = vec![native::Glyph::default(); 2 * glyphs.len() + outcome.needed],
                code => return Err(Error::of(code)),
            }
        }
    }
}

/// The version of the library, as 65536 * major + 256 * minor + patch.
pub fn version() -> u32 {
    // SAFETY: it takes nothing.
    unsafe { native::luthgarn_version() }
}

impl Glyph {
    fn of(found: &native::Glyph) -> Glyph {
        Glyph {
            glyph: found.glyph,
            cluster: found.cluster,
            flags: found.flags,
            x_advance: found.x_advance,
            y_advance: found.y_advance,
            x_offset: found.x_offset,
            y_offset: found.y_offset,
        }
    }
}

/// A glyph as `hb-shape --no-glyph-names` writes it.
impl fmt::Display for Glyph {
    fn fmt(&self, f: &mut fmt::Formatter<'_>) -> fmt::Result {
        write!(f, "{}={}", self.glyph, self.cluster)?;
        if self.x_offset != 0 || self.y_offset != 0 {
            write!(f, "@{},{}", self.x_offset, self.y_offset)?;
        }
        write!(f, "+{}", self.x_advance)?;
        if self.y_advance != 0 {
            write!(f, ",{}", self.y_advance)?;
        }
        Ok(())
    }
}
