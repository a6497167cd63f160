/* Every call once, and each refusal. */
#include "common.h"

static const aat_options_t usual = AAT_OPTIONS_NONE;

static size_t shaped(aat_font_t *font, const char *text, aat_glyph_t *out, size_t room) {
  size_t count = 99;
  CHECK(aat_shape_utf8(font, &usual, AAT_NO_FEATURES, 0, (const uint8_t *)text, strlen(text), out, room, &count) == AAT_OK);
  return count;
}

static void without_a_font(void) {
  aat_font_t font = AAT_FONT_NONE;
  aat_fault_t fault;
  aat_glyph_t out[4];
  size_t count = 99;
  CHECK(aat_font_glyph_count(&font) == 0 && aat_font_units_per_em(&font) == 0 && aat_font_glyph(&font, 'f') == 0);
  CHECK(!aat_font_has_feature(&font, AAT_TAG('k', 'e', 'r', 'n')) && aat_font_fault_count(&font) == 0);
  CHECK(aat_font_fault(&font, 0, &fault) == AAT_NO_FONT);
  CHECK(aat_shape_utf8(&font, &usual, AAT_NO_FEATURES, 0, (const uint8_t *)"f", 1, out, 4, &count) == AAT_NO_FONT);
  CHECK(count == 0);
  aat_font_free(&font);
  aat_font_free(&font);
}

static void bad_files(const uint8_t *bytes, size_t length) {
  aat_font_t font = AAT_FONT_NONE;
  aat_fault_t fault;
  CHECK(aat_font_read(&font, bytes, length, 0) == AAT_OK);
  CHECK(aat_font_read(&font, bytes, 3, 0) == AAT_BAD_FONT);
  CHECK(aat_font_units_per_em(&font) == 0);
  CHECK(aat_file_fault(bytes, 3, 0, &fault) == AAT_OK);
  CHECK(aat_file_fault(bytes, length, 0, &fault) == AAT_NOT_THERE);
  CHECK(aat_font_read(&font, bytes, length, 5) == AAT_BAD_FONT);
  aat_font_free(&font);
}

static void texts(aat_font_t *font) {
  aat_glyph_t out[32], few[2];
  size_t count = 99;
  CHECK(shaped(font, "fila", out, 32) == 3 && out[0].glyph_id == 7 && out[1].glyph_id == 6 && out[2].x_offset == -15);
  CHECK(out[0].cluster == 0 && out[0].x_advance == 560 && out[1].cluster == 2);
  CHECK(!(out[0].flags & AAT_GLYPH_FLAG_MAY_BREAK_BEFORE));
  CHECK(shaped(font, "fila", few, 2) == 3 && few[1].glyph_id == 6);
  CHECK(shaped(font, "fila", AAT_NO_GLYPHS, 0) == 3);
  CHECK(shaped(font, "", out, 32) == 0);
  CHECK(aat_shape_utf8(font, &usual, AAT_NO_FEATURES, 0, (const uint8_t *)"\xff", 1, out, 32, &count) == AAT_BAD_TEXT && count == 0);
  const uint16_t units[] = {'a', 0x301, 0xD83D, 0xDE00, 'l'}, alone[] = {0xD83D};
  CHECK(aat_shape_utf16(font, &usual, AAT_NO_FEATURES, 0, units, 5, out, 32, &count) == AAT_OK);
  CHECK(count > 0 && out[count - 1].cluster == 4);
  CHECK(aat_shape_utf16(font, &usual, AAT_NO_FEATURES, 0, alone, 1, out, 32, &count) == AAT_BAD_TEXT);
  const uint32_t characters[] = {'a', 0x301, 0x1F600, 'l'}, surrogate[] = {0xD800};
  CHECK(aat_shape_utf32(font, &usual, AAT_NO_FEATURES, 0, characters, 4, out, 32, &count) == AAT_OK);
  CHECK(count > 0 && out[count - 1].cluster == 3);
  CHECK(aat_shape_utf32(font, &usual, AAT_NO_FEATURES, 0, surrogate, 1, out, 32, &count) == AAT_BAD_TEXT);
  const aat_text_glyph_t glyphs[] = {{4, 0, 7}, {5, 0, 9}};
  CHECK(aat_shape_glyphs(font, &usual, AAT_NO_FEATURES, 0, glyphs, 2, out, 32, &count) == AAT_OK);
  CHECK(count == 1 && out[0].glyph_id == 7 && out[0].cluster == 7);
}

static void options_and_features(aat_font_t *font) {
  aat_glyph_t out[32];
  size_t count = 99;
  aat_options_t options = AAT_OPTIONS_NONE;
  aat_feature_t feature;
  CHECK(aat_feature_from_string((const uint8_t *)"-liga", 5, &feature) == AAT_OK);
  CHECK(feature.tag == AAT_TAG('l', 'i', 'g', 'a') && feature.value == 0 && feature.end == AAT_FEATURE_GLOBAL_END);
  CHECK(aat_shape_utf8(font, &options, &feature, 1, (const uint8_t *)"fila", 4, out, 32, &count) == AAT_OK && count == 4);
  CHECK(aat_feature_from_string((const uint8_t *)"kerns", 5, &feature) == AAT_BAD_FEATURE && feature.value == 0);
  CHECK(aat_feature_from_string((const uint8_t *)"\xff", 1, &feature) == AAT_BAD_TEXT);
  options.direction = AAT_DIRECTION_RTL;
  options.script = AAT_TAG('H', 'u', 'n', 'g');
  CHECK(aat_shape_utf8(font, &options, AAT_NO_FEATURES, 0, (const uint8_t *)"la", 2, out, 32, &count) == AAT_OK && out[0].cluster == 1);
  options.direction = 3;
  CHECK(aat_shape_utf8(font, &options, AAT_NO_FEATURES, 0, (const uint8_t *)"la", 2, out, 32, &count) == AAT_BAD_OPTION);
  options.direction = 0;
  options.script = 1;
  CHECK(aat_shape_utf8(font, &options, AAT_NO_FEATURES, 0, (const uint8_t *)"la", 2, out, 32, &count) == AAT_BAD_OPTION);
}

static void lines(aat_font_t *font) {
  aat_glyph_t out[64];
  aat_line_t rows[8];
  size_t count = 99, line_count = 99;
  const char *text = "fila fa-la";
  CHECK(aat_lines_utf8(font, &usual, AAT_NO_FEATURES, 0, (const uint8_t *)text, strlen(text), 1, out, 64, &count, rows, 8, &line_count) == AAT_OK);
  CHECK(line_count == 3 && rows[0].text_end == 5 && rows[2].text_end == 10 && rows[2].glyphs_end == count);
  CHECK(aat_lines_utf8(font, &usual, AAT_NO_FEATURES, 0, (const uint8_t *)text, strlen(text), 1, AAT_NO_GLYPHS, 0, &count, AAT_NO_LINES, 0, &line_count) == AAT_OK);
  CHECK(line_count == 3 && count > 0);
}

static void names(aat_font_t *font) {
  uint8_t name[64];
  size_t count = 99;
  CHECK(aat_font_name(font, 60000, name, 64, &count) == AAT_NOT_THERE && count == 0);
  CHECK(aat_font_name(font, 70000, name, 64, &count) == AAT_NOT_THERE);
  CHECK(aat_font_feature_name(font, 60000, name, 64, &count) == AAT_NOT_THERE);
  CHECK(aat_font_setting_name(font, 60000, 1, name, 64, &count) == AAT_NOT_THERE);
  for (uint32_t status = AAT_OK; status <= AAT_NOT_THERE; status++) CHECK(aat_status_text(status, name, 64) > 0);
  CHECK(aat_status_text(11, name, 64) == 0 && aat_fault_text(0, name, 64) == 0 && aat_fault_text(1, name, 64) > 0);
  CHECK(aat_version() == (AAT_VERSION_MAJOR << 16 | AAT_VERSION_MINOR << 8 | AAT_VERSION_MICRO));
}

int main(int count, char **words) {
  size_t length;
  if (count != 2) return 2;
  uint8_t *bytes = contents(words[1], &length);
  aat_font_t font = AAT_FONT_NONE;
  without_a_font();
  bad_files(bytes, length);
  CHECK(aat_font_read(&font, bytes, length, 0) == AAT_OK);
  CHECK(aat_font_units_per_em(&font) == 1000 && aat_font_glyph_count(&font) > 9 && aat_font_glyph(&font, 'f') == 4);
  CHECK(aat_font_has_feature(&font, AAT_TAG('s', 'm', 'c', 'p')) && !aat_font_has_feature(&font, AAT_TAG('z', 'z', 'z', 'z')));
  CHECK(aat_font_fault_count(&font) == 0);
  texts(&font);
  options_and_features(&font);
  lines(&font);
  names(&font);
  aat_font_free(&font);
  aat_font_free(&font);
  free(bytes);
  puts("calls: ok");
  return 0;
}
