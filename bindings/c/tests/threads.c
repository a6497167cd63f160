/* Four threads with a font each, and one font that moves from thread to thread. */
#include "common.h"
#include <pthread.h>

static const uint8_t *bytes;
static size_t length;

static size_t shape(aat_font_t *font) {
  static const aat_options_t usual = AAT_OPTIONS_NONE;
  aat_glyph_t out[64];
  size_t count = 0;
  CHECK(aat_shape_utf8(font, &usual, AAT_NO_FEATURES, 0, (const uint8_t *)"fila fa-la", 10, out, 64, &count) == AAT_OK);
  CHECK(out[0].glyph_id == 7);
  return count;
}

static void *own(void *nothing) {
  for (int turn = 0; turn < 50; turn++) {
    aat_font_t font = AAT_FONT_NONE;
    CHECK(aat_font_read(&font, bytes, length, 0) == AAT_OK);
    for (int word = 0; word < 20; word++) CHECK(shape(&font) == 9);
    aat_font_free(&font);
  }
  return nothing;
}

static void *moved(void *font) {
  CHECK(shape((aat_font_t *)font) == 9);
  return NULL;
}

int main(int count, char **words) {
  pthread_t threads[4], other;
  if (count != 2) return 2;
  uint8_t *file = contents(words[1], &length);
  bytes = file;
  for (int i = 0; i < 4; i++) CHECK(pthread_create(&threads[i], NULL, own, NULL) == 0);
  for (int i = 0; i < 4; i++) CHECK(pthread_join(threads[i], NULL) == 0);
  aat_font_t font = AAT_FONT_NONE;
  CHECK(aat_font_read(&font, bytes, length, 0) == AAT_OK);
  for (int i = 0; i < 8; i++) {
    CHECK(pthread_create(&other, NULL, moved, &font) == 0 && pthread_join(other, NULL) == 0);
    CHECK(shape(&font) == 9);
  }
  aat_font_free(&font);
  free(file);
  puts("threads: ok");
  return 0;
}
