"""What a pointer on a page of `fontshape --html` shows, beside what `fontshape` prints.

Ten texts in five scripts, one that runs down, and one over a font whose glyphs have names of
HTML. Of each text the page with `--trace` steps through the lines of its trace, by the button and by
keys. A copy of each page has a script at its end that puts a pointer on each glyph and on each
band of the text, and notes what the page shows; Chromium runs it without a window. From what is
shown of the glyphs their line is written: it must be the line that `fontshape --show-flags`
prints. The text that is marked with a glyph must be that of its cluster, and the glyphs that
are marked with a part of the text those of its cluster.
"""
import html
import json
import re
import subprocess
import tempfile
from pathlib import Path

from checks.fonts import DEJAVU, need_dejavu
from checks.outlines import box
from checks.programs import FONTSHAPE, need_files, need_fonttools, need_fontshape

CHROMIUM = "/usr/bin/chromium"
ARABIC = "/usr/share/fonts/truetype/scheherazade/Scheherazade-Regular.ttf"
DEVANAGARI = "/usr/share/fonts/truetype/lohit-devanagari/Lohit-Devanagari.ttf"
KHMER = "/usr/share/fonts/truetype/khmeros/KhmerOS.ttf"

TEXTS = [
    (DEJAVU, "Tová\u0301r AV fi"), (DEJAVU, "<b>&amp;\"'\u0302"),
    (DEJAVU, "שָׁלוֹם"), (DEJAVU, "אב ג\u05b8"),
    (ARABIC, "السَّلامُ"), (ARABIC, "لا إله"),
    (DEVANAGARI, "क्षत्रिय"), (DEVANAGARI, "हिन्दी र्क"),
    (KHMER, "ខ្មែរ"), (KHMER, "ស្រ្តី"),
]

# Names of glyphs that would be something else than a name, if they were written as they are.
NAMES = ["<b>", "</th></tr></table><script>document.title='broken'</script>", "\"'&quot;",
         "&amp;"]

FLAGS = {"unsafe to break": 1, "unsafe to concat": 2, "safe to insert tatweel": 4}

STEPS = """<script>
addEventListener('load', () => {
  const found = Array.from(document.querySelectorAll('.steps'), steps => {
    const seen = () => Array.from(steps.querySelectorAll('li:not([hidden])'), it => it.textContent);
    const press = key => steps.dispatchEvent(new KeyboardEvent('keydown', { key, bubbles: true }));
    const [back, on] = steps.querySelectorAll('button'), count = steps.querySelectorAll('li').length;
    const forward = [], backward = [];
    for (let k = 0; k < count; k++) { forward.push(seen()); on.click(); }
    const last = seen();
    press('Home');
    const first = seen();
    press('End');
    for (let k = 0; k < count; k++) { backward.push(seen()); k % 2 ? back.click() : press('ArrowLeft'); }
    const marked = Array.from(steps.querySelectorAll('li'), it => it.querySelectorAll('.new').length);
    return { forward, backward, first, last, marked, place: steps.querySelector('b').textContent };
  });
  const result = document.createElement('pre');
  result.id = 'found';
  result.textContent = JSON.stringify({ title: document.title, found });
  document.body.append(result);
});
</script>
"""

SCRIPT = """<script>
addEventListener('load', () => {
  const values = glyph => Object.fromEntries(
    Array.from(glyph.querySelectorAll('b'), it => [it.dataset.name, it.textContent]));
  const shown = () => Array.from(document.querySelectorAll('#shown p'), values);
  const found = Array.from(document.querySelectorAll('section'), line => {
    const put = kind => Array.from(line.querySelectorAll(kind), place => {
      place.dispatchEvent(new PointerEvent('pointerover', { bubbles: true }));
      const marked = Array.from(line.querySelectorAll('.band.hot'), band => band.textContent);
      const rows = line.querySelectorAll('tr.hot').length;
      return { own: place.textContent, shown: shown(), marked, rows };
    });
    return { glyphs: put('rect.spot'), rows: put('tbody tr'), bands: put('.band') };
  });
  const result = document.createElement('pre');
  result.id = 'found';
  result.textContent = JSON.stringify({ title: document.title, found });
  document.body.append(result);
});
</script>
"""


def save_named(path):
    """Saves a font whose glyphs have such names, for the letters from A on."""
    from fontTools.fontBuilder import FontBuilder
    names = [".notdef", *NAMES]
    builder = FontBuilder(1000, isTTF=True)
    builder.setupGlyphOrder(names)
    builder.setupCharacterMap({ord("A") + at: name for at, name in enumerate(NAMES)})
    builder.setupGlyf({name: box(50, 0, 400, 700) for name in names})
    builder.setupHorizontalMetrics({name: (500, 50) for name in names})
    builder.setupHorizontalHeader(ascent=800, descent=-200)
    builder.setupPost()
    builder.font.save(path)


def hovered(page, folder, script=SCRIPT):
    """What Chromium finds on a page by a script: the title, and for each line what is shown."""
    copy = Path(folder) / "page.html"
    copy.write_text(page + script)
    words = [CHROMIUM, "--headless", "--no-sandbox", "--disable-gpu",
             f"--user-data-dir={folder}/user", "--virtual-time-budget=5000", "--dump-dom",
             copy.as_uri()]
    done = subprocess.run(words, capture_output=True, timeout=120)
    found = re.search('<pre id="found">(.*?)</pre>', done.stdout.decode(), re.DOTALL)
    return json.loads(html.unescape(found[1])) if found else None


def written(shown):
    """The line of glyphs whose values these are, as `fontshape --show-flags` writes it."""
    entries = []
    for it in shown:
        moved = "" if it["offset"] == "0,0" else "@" + it["offset"]
        flags = sum(FLAGS[name] for name in FLAGS if name in it["flags"])
        flagged = f"#{flags}" if flags else ""
        entries.append(f"{it['glyph']}={it['cluster']}{moved}+{it['advance']}{flagged}")
    return "[" + "|".join(entries) + "]"


def texts_of(text, shown):
    """The text of each cluster."""
    starts = sorted({int(it["cluster"]) for it in shown})
    return {start: text[start:end] for start, end in zip(starts, starts[1:] + [len(text)])}


def faults(text, line, printed):
    """What is wrong with what is shown of a line."""
    glyphs = [place["shown"] for place in line["glyphs"]]
    if any(len(shown) != 1 for shown in glyphs):
        return ["a pointer on a glyph shows another number of glyphs than one"]
    shown = [it[0] for it in glyphs]
    found = []
    if written(shown) != printed:
        found.append(f"hovering {written(shown)}")
    if [place["shown"] for place in line["rows"]] != glyphs:
        found.append("a row of the table shows another glyph than the picture")
    texts = texts_of(text, shown)
    for place, it in zip(line["glyphs"], shown):
        own = texts[int(it["cluster"])]
        if place["marked"] != [own] or not it["characters"].startswith(own):
            found.append(f"{it['glyph']} marks {place['marked']} and lists {it['characters']}, "
                         f"not {own!r}")
    if [place["own"] for place in line["bands"]] != [texts[start] for start in sorted(texts)]:
        found.append("the bands aren't the texts of the clusters")
    for place, start in zip(line["bands"], sorted(texts)):
        wanted = [it for it in shown if int(it["cluster"]) == start]
        if place["shown"] != wanted or place["rows"] != len(wanted):
            found.append(f"the band {place['own']!r} marks glyphs of other clusters")
    return found


def compare(args, font, text, options, folder):
    """Whether a page of a text shows what is printed of it."""
    words = [args.program, font, "--text=" + text, *options]
    printed, page = (
        subprocess.run([*words, form], capture_output=True, timeout=60).stdout.decode()
        for form in ("--show-flags", "--html=-"))
    printed = printed.rstrip("\n")
    result = hovered(page, folder)
    if result is None or len(result["found"]) != 1:
        found = ["Chromium found no line"]
    else:
        found = faults(text, result["found"][0], printed)
        if result["title"] != "fontshape":
            found.append(f"the page's title is {result['title']}")
    if found:
        print(f"{font} {text!r}\n  fontshape {printed}", *found, sep="\n  ")
    return not found


def step_faults(lines, found):
    """What is wrong with the steps of a line, whose trace has these lines. The page writes a step without its tab
    and without the word before the list."""
    wanted = [line.replace("\tbuffer: [", "").removesuffix("]") for line in lines]
    if [[line] for line in wanted] != found["forward"]:
        return [f"the button steps through {found['forward']}"]
    if found["backward"] != found["forward"][::-1]:
        return [f"back it steps through {found['backward']}"]
    if found["first"] != [wanted[0]] or found["last"] != [wanted[-1]]:
        return [f"Home and the last step show {found['first']} and {found['last']}"]
    marked = [count for line, count in zip(lines, found["marked"]) if " start " in line]
    if found["place"] != f"step 1 of {len(wanted)}" or any(marked):
        return [f"at {found['place']} {found['marked']} are marked"]
    return []


def compare_steps(args, font, text, options, folder):
    """Whether the page of a text steps through its trace."""
    words = [args.program, font, "--text=" + text, *options, "--trace", "--html=-"]
    done = subprocess.run(words, capture_output=True, timeout=60)
    lines = done.stderr.decode().splitlines()
    result = hovered(done.stdout.decode(), folder, STEPS)
    if result is None or len(result["found"]) != 1:
        found = ["Chromium found no steps"]
    else:
        found = step_faults(lines, result["found"][0])
    if found:
        print(f"{font} {text!r}", *lines, *found, sep="\n  ")
    return not found


def add_options(parser):
    parser.add_argument("--program", default=str(FONTSHAPE))


def run(args):
    need_fonttools()
    need_files([CHROMIUM], "chromium")
    need_dejavu()
    need_files([ARABIC, DEVANAGARI, KHMER],
               "fonts-sil-scheherazade, fonts-lohit-deva, fonts-khmeros")
    need_fontshape(args.program)
    with tempfile.TemporaryDirectory() as folder:
        named = folder + "/named.ttf"
        save_named(named)
        cases = [(font, text, []) for font, text in TEXTS]
        cases += [(DEJAVU, "AVA", ["--direction=ttb"]), (DEJAVU, "AV", ["--font-size=1000"]),
                  (named, "ABCD", [])]
        right = [compare(args, *case, folder) for case in cases]
        stepped = [compare_steps(args, *case, folder) for case in cases]
    print(f"pages: {sum(right)} of {len(right)} show on hovering what fontshape prints, "
          f"{sum(stepped)} of {len(stepped)} step through its trace")
    return all(right) and all(stepped)
