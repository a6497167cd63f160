/*
 * Answers requests, a line each, as `aat shape` does. The words of a request are parted by tabs: the file of a font, its
 * index, `text` or `glyphs`, `bytes` or `characters` for what clusters count, the direction, the script and the point
 * size as numbers, the cluster level, whether flags are shown, features parted by commas, and the characters or glyphs as
 * numbers parted by spaces.
 */
#include "common.h"

enum { ROOM = 1 << 16, WORDS = 11 };

static aat_glyph_t out[ROOM];
static uint32_t numbers[ROOM];
static uint8_t text[4 * ROOM];
static aat_text_glyph_t glyphs[ROOM];
static aat_feature_t features[64];

static size_t numbers_of(char *list) {
  size_t count = 0;
  for (char *word = strtok(list, " "); word; word = strtok(NULL, " ")) numbers[count++] = (uint32_t)strtoul(word, NULL, 10);
  return count;
}

static size_t features_of(char *list) {
  size_t count = 0;
  for (char *word = strtok(list, ","); word; word = strtok(NULL, ",")) {
    if (aat_feature_from_string((const uint8_t *)word, strlen(word), &features[count++]) != AAT_OK) exit(1);
  }
  return count;
}

/* Puts a character in UTF-8, and tells where the next one goes. */
static uint8_t *encoded(uint8_t *at, uint32_t c) {
  if (c < 0x80) {
    *at++ = (uint8_t)c;
  } else if (c < 0x800) {
    *at++ = (uint8_t)(0xC0 | c >> 6);
    *at++ = (uint8_t)(0x80 | (c & 63));
  } else if (c < 0x10000) {
    *at++ = (uint8_t)(0xE0 | c >> 12);
    *at++ = (uint8_t)(0x80 | (c >> 6 & 63));
    *at++ = (uint8_t)(0x80 | (c & 63));
  } else {
    *at++ = (uint8_t)(0xF0 | c >> 18);
    *at++ = (uint8_t)(0x80 | (c >> 12 & 63));
    *at++ = (uint8_t)(0x80 | (c >> 6 & 63));
    *at++ = (uint8_t)(0x80 | (c & 63));
  }
  return at;
}

static uint32_t shape(aat_font_t *font, char **words, const aat_options_t *options, size_t *count) {
  size_t feature_count = features_of(words[9]);
  size_t length = numbers_of(words[10]);
  if (strcmp(words[2], "glyphs") == 0) {
    for (size_t i = 0; i < length; i++) glyphs[i] = (aat_text_glyph_t){(uint16_t)numbers[i], 0, (uint32_t)i};
    return aat_shape_glyphs(font, options, features, feature_count, glyphs, length, out, ROOM, count);
  }
  if (strcmp(words[3], "characters") == 0)
    return aat_shape_utf32(font, options, features, feature_count, numbers, length, out, ROOM, count);
  uint8_t *end = text;
  for (size_t i = 0; i < length; i++) end = encoded(end, numbers[i]);
  return aat_shape_utf8(font, options, features, feature_count, text, (size_t)(end - text), out, ROOM, count);
}

static void show(size_t count, bool shows_flags) {
  putchar('[');
  for (size_t i = 0; i < count; i++) {
    const aat_glyph_t *glyph = &out[i];
    printf("%s%u=%u", i ? "|" : "", glyph->glyph_id, glyph->cluster);
    if (glyph->x_offset || glyph->y_offset) printf("@%d,%d", glyph->x_offset, glyph->y_offset);
    printf("+%d", glyph->x_advance);
    if (glyph->y_advance) printf(",%d", glyph->y_advance);
    if (shows_flags && i && !(glyph->flags & AAT_GLYPH_FLAG_MAY_BREAK_BEFORE)) printf("#1");
  }
  puts("]");
}

int main(void) {
  static char line[1 << 20];
  while (fgets(line, sizeof line, stdin)) {
    char *words[WORDS], *rest = line;
    line[strcspn(line, "\n")] = 0;
    for (int i = 0; i < WORDS; i++) {
      words[i] = rest;
      rest += strcspn(rest, "\t");
      if (*rest) *rest++ = 0;
    }
    size_t length, count = 0;
    uint8_t *bytes = contents(words[0], &length);
    aat_font_t font = AAT_FONT_NONE;
    aat_options_t options = {(uint32_t)strtoul(words[4], NULL, 10), (uint32_t)strtoul(words[5], NULL, 10),
                             (uint32_t)strtoul(words[6], NULL, 10), (uint32_t)strtoul(words[7], NULL, 10)};
    uint32_t status = aat_font_read(&font, bytes, length, (uint32_t)strtoul(words[1], NULL, 10));
    if (status == AAT_OK) status = shape(&font, words, &options, &count);
    if (status == AAT_OK)
      show(count, words[8][0] == '1');
    else
      printf("status %u\n", status);
    aat_font_free(&font);
    free(bytes);
  }
  return 0;
}
