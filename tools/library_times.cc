// Times libaat beside libharfbuzz in one program.
//
//   library_times FONT TEXT ROUNDS
//
// Each word of each line of the text (at spaces), and then each line, is shaped by aat_shape_utf8() and by hb_shape(): a
// font of each, one buffer of HarfBuzz's, which is cleared and filled and whose segment properties are guessed, and one
// array for libaat. The two go by turns, and of ROUNDS rounds the least time counts. It writes nanoseconds a character
// with their ratio, how many words and lines have the same glyphs and advances, and the memory of a thousand fonts held
// open by each, of which two letters have been shaped.
//
//   g++ -O2 -std=c++17 -Iinclude -IHARFBUZZ/src tools/library_times.cc HARFBUZZ/src/harfbuzz.cc libaat.a -o library_times
#include "aat.h"
#include "hb.h"
#include "hb-ot.h"
#include <algorithm>
#include <chrono>
#include <cstdio>
#include <cstdlib>
#include <fstream>
#include <iterator>
#include <malloc.h>
#include <sstream>
#include <string>
#include <vector>

using Texts = std::vector<std::string>;

static std::string contents(const char *path) {
  std::ifstream file(path, std::ios::binary);
  if (!file) { perror(path); exit(1); }
  return std::string(std::istreambuf_iterator<char>(file), {});
}

static const uint8_t *bytes_of(const std::string &text) { return reinterpret_cast<const uint8_t *>(text.data()); }

// A font of each library.
struct Fonts {
  aat_font_t ours = AAT_FONT_NONE;
  hb_font_t *theirs = nullptr;
};

static Fonts open(const std::string &bytes) {
  Fonts fonts;
  if (aat_font_read(&fonts.ours, bytes_of(bytes), bytes.size(), 0) != AAT_OK) exit(2);
  return fonts;
}

static hb_font_t *open_theirs(const std::string &bytes) {
  hb_blob_t *blob = hb_blob_create(bytes.data(), (unsigned) bytes.size(), HB_MEMORY_MODE_READONLY, nullptr, nullptr);
  hb_face_t *face = hb_face_create(blob, 0);
  hb_font_t *font = hb_font_create(face);
  hb_face_destroy(face);
  hb_blob_destroy(blob);
  return font;
}

static size_t shape_ours(Fonts &fonts, const std::string &text, std::vector<aat_glyph_t> &out) {
  aat_options_t options = AAT_OPTIONS_NONE;
  size_t count = 0;
  aat_shape_utf8(&fonts.ours, &options, AAT_NO_FEATURES, 0, bytes_of(text), text.size(), out.data(), out.size(), &count);
  return count;
}

static void shape_theirs(Fonts &fonts, const std::string &text, hb_buffer_t *buffer) {
  hb_buffer_clear_contents(buffer);
  hb_buffer_add_utf8(buffer, text.data(), (int) text.size(), 0, -1);
  hb_buffer_guess_segment_properties(buffer);
  hb_shape(fonts.theirs, buffer, nullptr, 0);
}

static bool is_same(const std::vector<aat_glyph_t> &ours, size_t count, hb_buffer_t *buffer) {
  unsigned length = 0;
  const hb_glyph_info_t *infos = hb_buffer_get_glyph_infos(buffer, &length);
  const hb_glyph_position_t *places = hb_buffer_get_glyph_positions(buffer, &length);
  if (count != length) return false;
  for (unsigned i = 0; i < length; i++)
    if (ours[i].glyph_id != infos[i].codepoint || ours[i].x_advance != places[i].x_advance) return false;
  return true;
}

static size_t characters_of(const Texts &texts) {
  size_t count = 0;
  for (const std::string &text : texts)
    for (unsigned char byte : text) count += (byte & 0xC0) != 0x80;
  return count;
}

template <typename Act> static double time_of(Act act) {
  auto start = std::chrono::steady_clock::now();
  act();
  return std::chrono::duration<double, std::nano>(std::chrono::steady_clock::now() - start).count();
}

static void compare(const char *name, Fonts &fonts, const Texts &texts, int rounds) {
  std::vector<aat_glyph_t> out(1 << 18);
  hb_buffer_t *buffer = hb_buffer_create();
  double ours = 1e18, theirs = 1e18;
  for (int round = 0; round < rounds; round++) {
    ours = std::min(ours, time_of([&] { for (const auto &text : texts) shape_ours(fonts, text, out); }));
    theirs = std::min(theirs, time_of([&] { for (const auto &text : texts) shape_theirs(fonts, text, buffer); }));
  }
  size_t same = 0, characters = characters_of(texts);
  for (const auto &text : texts) {
    shape_theirs(fonts, text, buffer);
    same += is_same(out, shape_ours(fonts, text, out), buffer);
  }
  hb_buffer_destroy(buffer);
  printf("%s: libaat %.1f, libharfbuzz %.1f ns a character, %.2f; %zu of %zu alike\n", name, ours / characters,
         theirs / characters, ours / theirs, same, texts.size());
}

// The kilobytes of a thousand fonts that are held open.
template <typename Open> static void hold(const char *name, Open open_one) {
  const size_t count = 1000;
  size_t before = mallinfo2().uordblks + mallinfo2().hblkhd;
  for (size_t i = 0; i < count; i++) open_one();
  size_t after = mallinfo2().uordblks + mallinfo2().hblkhd;
  printf("a thousand fonts of %s: %.1f KB each\n", name, double(after - before) / count / 1024);
}

int main(int count, char **words) {
  if (count != 4) { fprintf(stderr, "usage: library_times FONT TEXT ROUNDS\n"); return 2; }
  const std::string bytes = contents(words[1]);
  Texts lines, parts;
  std::istringstream text(contents(words[2]));
  for (std::string line; std::getline(text, line);) {
    if (line.empty()) continue;
    lines.push_back(line);
    std::istringstream rest(line);
    for (std::string word; rest >> word;) parts.push_back(word);
  }
  Fonts fonts = open(bytes);
  fonts.theirs = open_theirs(bytes);
  compare("words", fonts, parts, atoi(words[3]));
  compare("lines", fonts, lines, atoi(words[3]));
  std::vector<aat_glyph_t> out(64);
  hold("libaat", [&] { Fonts one = open(bytes); shape_ours(one, "ab", out); });
  hold("libharfbuzz", [&] {
    Fonts one;
    one.theirs = open_theirs(bytes);
    hb_buffer_t *buffer = hb_buffer_create();
    shape_theirs(one, "ab", buffer);
    hb_buffer_destroy(buffer);
  });
  return 0;
}
