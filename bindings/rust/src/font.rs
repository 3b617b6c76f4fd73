//! A font that is opened once, for any number of threads.
use crate::native::{self, Variation, DONE, ROOM};
use crate::Error;
use std::borrow::Cow;
use std::fmt;
use std::sync::{Mutex, MutexGuard, PoisonError};

/// A font of a file's bytes, opened once. It may be used by several threads at the same time: each call takes what another
/// one gave back, or has the library share what was opened.
pub struct Font<'a> {
    opened: Mutex<native::Font>,
    free: Mutex<Vec<native::Font>>,
    units_per_em: u32,
    // (the library reads these for as long as a font is kept)
    _bytes: Cow<'a, [u8]>,
    _coordinates: Vec<i32>,
}

// SAFETY: what the library keeps belongs to no thread, and each of these fonts is used by one call at a time, behind a lock or
// taken out of the list.
unsafe impl Send for Font<'_> {}
unsafe impl Sync for Font<'_> {}

/// What a lock guards stays as it should be, also where a thread panics.
fn locked<T>(lock: &Mutex<T>) -> MutexGuard<'_, T> {
    lock.lock().unwrap_or_else(PoisonError::into_inner)
}

/// The coordinates of a font at values of its axes.
fn coordinates_of(bytes: &[u8], index: u32, axes: &[([u8; 4], f32)]) -> Result<Vec<i32>, Error> {
    let wishes: Vec<Variation> =
        axes.iter().map(|&(tag, value)| Variation { tag: u32::from_be_bytes(tag), value }).collect();
    let mut there = vec![0; 64];
    loop {
        let mut count = 0;
        // SAFETY: pointers and counts are those of `bytes`, `wishes` and `there`, of which `there` and `count` are ours alone.
        let code = unsafe {
            let (room, first) = (there.len(), there.as_mut_ptr());
            let (wish, wish_count) = (wishes.as_ptr(), wishes.len());
            native::luthgarn_coordinates(bytes.as_ptr(), bytes.len(), index, wish, wish_count, first, room, &mut count)
        };
        there.resize(count, 0);
        match code {
            DONE => return Ok(there),
            ROOM => {}
            code => return Err(Error::of(code)),
        }
    }
}

impl<'a> Font<'a> {
    /// The font with this number: 0, if the file isn't a collection. The bytes are borrowed, or handed over.
    ///
    /// ```
    /// use luthgarn::{Error, Font};
    /// assert_eq!(Font::new(&b"no font"[..], 0).err(), Some(Error::Font));
    /// assert_eq!(Font::new(b"no font".to_vec(), 0).err(), Some(Error::Font));
    /// ```
    pub fn new(bytes: impl Into<Cow<'a, [u8]>>, index: u32) -> Result<Font<'a>, Error> {
        Font::at(bytes, index, &[])
    }

    /// The font with this number at values of its axes, by their tags. An axis that isn't named is at its default, of several
    /// values for one axis the last counts, and a value for an axis that the font lacks says nothing. Other values are another
    /// font.
    ///
    /// ```no_run
    /// let bytes = std::fs::read("Inter.var.ttf")?;
    /// let bold = luthgarn::Font::at(&bytes, 0, &[(*b"wght", 700.0)])?;
    /// let glyphs = luthgarn::Buffer::new("AVA").shape(&bold)?;
    /// # Ok::<(), Box<dyn std::error::Error>>(())
    /// ```
    ///
    /// ```
    /// use luthgarn::{Error, Font};
    /// assert_eq!(Font::at(&b"no font"[..], 0, &[(*b"wght", 700.0)]).err(), Some(Error::Font));
    /// ```
    pub fn at(bytes: impl Into<Cow<'a, [u8]>>, index: u32, axes: &[([u8; 4], f32)]) -> Result<Font<'a>, Error> {
        let bytes = bytes.into();
        let coordinates = coordinates_of(&bytes, index, axes)?;
        let mut opened = native::Font::NONE;
        // SAFETY: pointers and counts are those of `bytes` and `coordinates`, which don't change or move while the font is kept.
        let code = unsafe {
            let (there, count) = (coordinates.as_ptr(), coordinates.len());
            native::luthgarn_font_new_at(bytes.as_ptr(), bytes.len(), index, there, count, &mut opened)
        };
        if code != DONE {
            return Err(Error::of(code));
        }
        // SAFETY: `opened` is a kept font, borrowed by us alone.
        let units_per_em = unsafe { native::luthgarn_font_units_per_em(&mut opened) };
        let (opened, free) = (Mutex::new(opened), Mutex::new(Vec::new()));
        Ok(Font { opened, free, units_per_em, _bytes: bytes, _coordinates: coordinates })
    }

    /// How many units the em square has.
    pub fn units_per_em(&self) -> u32 {
        self.units_per_em
    }

    /// The name of a glyph by the font's table `post`, if it has one.
    pub fn glyph_name(&self, glyph: u32) -> Option<String> {
        let mut name = [0; 256];
        let size = self.lend(|font| {
            // SAFETY: `font` is a kept font, and the pointer and the count are those of `name`, both borrowed by us alone.
            unsafe { native::luthgarn_font_glyph_name(font, glyph, name.as_mut_ptr(), name.len()) }
        });
        let name = name.get(..size.ok()?).filter(|name| !name.is_empty())?;
        Some(String::from_utf8_lossy(name).into_owned())
    }

    /// What a call does with a kept font that no other call has.
    pub(crate) fn lend<T>(&self, call: impl FnOnce(&mut native::Font) -> T) -> Result<T, Error> {
        let free = locked(&self.free).pop();
        let mut font = match free {
            Some(font) => font,
            None => self.shared()?,
        };
        let result = call(&mut font);
        locked(&self.free).push(font);
        Ok(result)
    }

    /// One more font that shares what was opened.
    fn shared(&self) -> Result<native::Font, Error> {
        let mut font = native::Font::NONE;
        // SAFETY: the lock makes us the only one with the opened font.
        match unsafe { native::luthgarn_font_share(&mut *locked(&self.opened), &mut font) } {
            DONE => Ok(font),
            code => Err(Error::of(code)),
        }
    }
}

impl Drop for Font<'_> {
    fn drop(&mut self) {
        let mut all = std::mem::take(&mut *locked(&self.free));
        all.push(std::mem::replace(&mut *locked(&self.opened), native::Font::NONE));
        for font in &mut all {
            // SAFETY: `font` is a kept font, borrowed by us alone, and isn't used any more.
            unsafe { native::luthgarn_font_free(font) };
        }
    }
}

impl fmt::Debug for Font<'_> {
    fn fmt(&self, f: &mut fmt::Formatter<'_>) -> fmt::Result {
        f.debug_struct("Font").field("units_per_em", &self.units_per_em).finish_non_exhaustive()
    }
}
