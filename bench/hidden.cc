// A way into a call of HarfBuzz's buffer that it does not export.
#include "hb.hh"
#include "hb-buffer.hh"

static bool is_x (const hb_glyph_info_t *info) { return info->codepoint == 'x'; }

extern "C" {
void hidden_delete (hb_buffer_t *buffer);
void hidden_delete (hb_buffer_t *buffer) { buffer->delete_glyphs_inplace (is_x); }
}
