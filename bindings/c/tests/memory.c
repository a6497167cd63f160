/* Each request for memory refused in turn, in reading and in shaping: nothing is lost, and the next call answers. The
   second word asks for none. */
#include "common.h"

struct taken {
  bool is_given;
  unsigned char *pointer;
};

static unsigned char nowhere;
static long asked, refused = -1, live;

static struct taken taken_of(void *pointer, bool is_new) {
  struct taken taken = {pointer != NULL, pointer != NULL ? (unsigned char *)pointer : &nowhere};
  if (pointer && is_new) live++;
  return taken;
}

struct taken rattle_alloc(size_t size, size_t alignment) {
  (void)alignment;
  return taken_of(++asked == refused ? NULL : malloc(size), true);
}

struct taken rattle_realloc(unsigned char *pointer, size_t kept, size_t size, size_t alignment) {
  (void)kept;
  (void)alignment;
  return taken_of(++asked == refused ? NULL : realloc(pointer, size), false);
}

void rattle_dealloc(unsigned char *pointer) {
  live--;
  free(pointer);
}

static uint32_t shape(aat_font_t *font, size_t *count) {
  static const aat_options_t usual = AAT_OPTIONS_NONE;
  aat_glyph_t out[64];
  return aat_shape_utf8(font, &usual, AAT_NO_FEATURES, 0, (const uint8_t *)"fila fa-la", 10, out, 64, count);
}

int main(int count, char **words) {
  size_t length, glyphs, told;
  if (count != 2) return 2;
  uint8_t *bytes = contents(words[1], &length);
  aat_font_t font = AAT_FONT_NONE;
  CHECK(aat_font_read(&font, bytes, length, 0) == AAT_OK);
  long reading = asked;
  asked = 0;
  CHECK(shape(&font, &told) == AAT_OK && told > 0);
  long shaping = asked;
  asked = 0;
  CHECK(shape(&font, &glyphs) == AAT_OK && glyphs == told);
  CHECK(asked == 0);
  for (long turn = 1; turn <= shaping; turn++) {
    aat_font_t fresh = AAT_FONT_NONE;
    CHECK(aat_font_read(&fresh, bytes, length, 0) == AAT_OK);
    asked = 0;
    refused = turn;
    uint32_t status = shape(&fresh, &glyphs);
    refused = -1;
    CHECK(status == AAT_OK || (status == AAT_OUT_OF_MEMORY && glyphs == 0));
    CHECK(shape(&fresh, &glyphs) == AAT_OK && glyphs == told);
    aat_font_free(&fresh);
  }
  aat_font_free(&font);
  CHECK(live == 0);
  for (long turn = 1; turn <= reading; turn++) {
    asked = 0;
    refused = turn;
    uint32_t status = aat_font_read(&font, bytes, length, 0);
    refused = -1;
    CHECK(status == AAT_OK || status == AAT_OUT_OF_MEMORY);
    CHECK(shape(&font, &glyphs) == (status == AAT_OK ? AAT_OK : AAT_NO_FONT));
    aat_font_free(&font);
    CHECK(live == 0);
  }
  free(bytes);
  printf("memory: ok, %ld requests in reading, %ld in shaping a first word\n", reading, shaping);
  return 0;
}
