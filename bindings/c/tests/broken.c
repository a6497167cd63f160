/* Copies of fonts with bytes changed by chance: each call answers. */
#include "common.h"

static uint64_t state = 1;

static uint32_t chance(uint32_t bound) {
  state = state * 6364136223846793005u + 1442695040888963407u;
  return (uint32_t)((state >> 33) % bound);
}

static void use(aat_font_t *font) {
  static const aat_options_t usual = AAT_OPTIONS_NONE;
  static const char text[] = "fila fa-la abcdefgh";
  aat_glyph_t out[256];
  aat_line_t rows[16];
  aat_fault_t fault;
  uint8_t name[64];
  size_t count, lines;
  for (size_t number = 0; number < aat_font_fault_count(font); number++) CHECK(aat_font_fault(font, number, &fault) == AAT_OK);
  uint32_t status = aat_shape_utf8(font, &usual, AAT_NO_FEATURES, 0, (const uint8_t *)text, sizeof text - 1, out, 256, &count);
  CHECK(status == AAT_OK || status == AAT_LINE_TOO_LONG);
  status = aat_lines_utf8(font, &usual, AAT_NO_FEATURES, 0, (const uint8_t *)text, sizeof text - 1, 900, out, 256, &count, rows, 16, &lines);
  CHECK(status == AAT_OK || status == AAT_LINE_TOO_LONG);
  status = aat_font_name(font, 1, name, 64, &count);
  CHECK(status == AAT_OK || status == AAT_NOT_THERE);
}

int main(int count, char **words) {
  long read = 0;
  for (int number = 0; number < 2000; number++) {
    size_t length;
    uint8_t *bytes = contents(words[1 + number % (count - 1)], &length);
    for (uint32_t change = chance(8) + 1; change > 0; change--) bytes[chance((uint32_t)length)] = (uint8_t)chance(256);
    if (chance(8) == 0) length = chance((uint32_t)length);
    aat_font_t font = AAT_FONT_NONE;
    if (aat_font_read(&font, bytes, length, 0) == AAT_OK) {
      read++;
      use(&font);
    }
    aat_font_free(&font);
    free(bytes);
  }
  printf("broken: ok, %ld of 2000 read\n", read);
  return 0;
}
