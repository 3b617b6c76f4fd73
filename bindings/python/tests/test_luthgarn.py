"""The package over DejaVu Sans (Debian's fonts-dejavu-core): `python3 -m pytest bindings/python`."""
import sys
import threading
from pathlib import Path

import pytest

sys.path.insert(0, str(Path(__file__).resolve().parents[1] / "src"))
import luthgarn  # noqa: E402

DEJAVU = Path("/usr/share/fonts/truetype/dejavu/DejaVuSans.ttf")
pytestmark = pytest.mark.skipif(not DEJAVU.exists(), reason="no DejaVu Sans (Debian's fonts-dejavu-core)")


@pytest.fixture(scope="module")
def font():
    return luthgarn.Font.open(DEJAVU)


def advances(glyphs):
    return [glyph.x_advance for glyph in glyphs]


def test_a_word(font):
    """hb-shape: [Ccaron=0+1430|a=1+1255|u=2+1298]"""
    glyphs = luthgarn.shape(font, "Čau")
    assert advances(glyphs) == [1430, 1255, 1298]
    assert [glyph.cluster for glyph in glyphs] == [0, 1, 2]
    assert font.units_per_em == 2048


def test_kerning_by_each_form_of_features(font):
    kerned, plain = advances(luthgarn.shape(font, "AV")), advances(luthgarn.shape(font, "AV", features={"kern": False}))
    assert sum(kerned) < sum(plain)
    assert plain == advances(luthgarn.shape(font, "AV", features=["kern=0"]))
    assert plain == advances(luthgarn.shape(font, "AV", features={"kern": [(0, 2, 0)]}))


def test_spans_count_characters(font):
    """In "ČAVAV" kerning is off for the last pair alone, whose characters are 3 and 4."""
    on, part = (luthgarn.shape(font, "ČAVAV", features=features) for features in (None, {"kern": [(3, 5, 0)]}))
    assert advances(on)[1] == advances(part)[1] and advances(on)[3] < advances(part)[3]


def test_clusters_count_characters(font):
    assert [glyph.cluster for glyph in luthgarn.shape(font, "é😀a")] == [0, 1, 2]
    assert [glyph.cluster for glyph in luthgarn.shape(font, "אב")] == [1, 0]


def test_texts_of_one_call(font):
    texts = ["AV", "", "Čau"]
    assert luthgarn.shape_all(font, texts) == [luthgarn.shape(font, text) for text in texts]


def test_a_buffer_as_in_uharfbuzz(font):
    buffer = luthgarn.Buffer.create()
    buffer.add_str("AV")
    buffer.guess_segment_properties()
    luthgarn.shape(font, buffer, {"kern": False})
    assert [info.codepoint for info in buffer.glyph_infos] == [36, 57]
    assert [info.cluster for info in buffer.glyph_infos] == [0, 1]
    assert [place.x_advance for place in buffer.glyph_positions] == advances(luthgarn.shape(font, "AV", {"kern": False}))
    assert buffer.glyph_positions[0].position == (0, 0, buffer.glyph_positions[0].x_advance, 0)
    assert len(buffer) == 2 and luthgarn.Face(font.face.data).upem == 2048


def test_names_of_glyphs(font):
    assert [glyph.name for glyph in luthgarn.shape(font, "Č a")] == ["Ccaron", "space", "a"]
    assert font.glyph_name(36) == font.glyph_to_string(36) == "A" and font.glyph_name(99999) == "gid99999"


def test_a_font_of_a_face_is_freed_with_its_bytes():
    face = luthgarn.Face(DEJAVU.read_bytes())
    for _ in range(3):
        font = luthgarn.Font(face)
        assert len(luthgarn.shape(font, "AV")) == 2
        del font


def test_arrays(font):
    numpy = pytest.importorskip("numpy")
    found = luthgarn.shape(font, "AV").arrays()
    assert found["x_advance"].dtype == numpy.int32 and found["cluster"].tolist() == [0, 1]
    assert len(luthgarn.shape(font, "").arrays()["glyph"]) == 0


def test_a_language_may_be_of_any_length(font):
    expected = luthgarn.shape(font, "б", script="Cyrl", language="sr")
    assert luthgarn.shape(font, "б", script="Cyrl", language="sr-x-" + "a" * 1000) == expected
    assert len(luthgarn.shape(font, "a", language="a" * 1000)) == 1


def test_refusals_have_names(font):
    with pytest.raises(luthgarn.BadFont):
        luthgarn.Font(b"no font")
    with pytest.raises(luthgarn.BadFont):
        luthgarn.Font(font.face.data, index=9)
    with pytest.raises(luthgarn.BadFeature):
        luthgarn.shape(font, "a", features=["kern="])
    with pytest.raises(luthgarn.UnknownName):
        luthgarn.shape(font, "a", direction="sideways")
    with pytest.raises(luthgarn.BadText) as refused:
        luthgarn.shape_all(font, ["a", "\ud800"])
    assert refused.value.line == 1


def test_threads_share_a_font(font):
    wanted, found = luthgarn.shape(font, "AVATAR"), []

    def work():
        assert all(luthgarn.shape(font, "AVATAR") == wanted for _ in range(20))
        found.append(luthgarn.shape(font, "AVATAR"))

    threads = [threading.Thread(target=work) for _ in range(8)]
    for thread in threads:
        thread.start()
    for thread in threads:
        thread.join()
    assert found == [wanted] * 8


INTER = Path("/usr/share/fonts/truetype/inter-vf/Inter-roman.var.ttf")


def test_axes_that_a_font_lacks(font):
    """DejaVu Sans isn't variable."""
    same = luthgarn.Font.open(DEJAVU, variations={"wght": 700})
    assert luthgarn.shape(same, "AVATAR") == luthgarn.shape(font, "AVATAR")
    with pytest.raises(luthgarn.UnknownName):
        luthgarn.Font.open(DEJAVU, variations={"weight": 700})


@pytest.mark.skipif(not INTER.exists(), reason="no Inter (Debian's fonts-inter-variable)")
def test_a_variable_font():
    """hb-shape --no-glyph-names --variations=wght=700: [2=0+1852|453=1+1834|2=2+2106]"""
    bold, regular = (luthgarn.Font.open(INTER, variations=wished) for wished in ({"wght": 700}, None))
    assert advances(luthgarn.shape(bold, "AVA")) == [1852, 1834, 2106]
    assert advances(luthgarn.shape(regular, "AVA")) == [1712, 1728, 1904]
