// Times HarfBuzz over a font and the lines of a text.
//
//   hbtime FONT TEXT ROUNDS [--features LIST] [--direction ltr|rtl|ttb|btt] [--script TAG] [--language TAG]
//          [--level N] [--words] [--open] [--fresh] [--show]
//
// One font (a blob in memory, hb-ot's functions) and one buffer are kept. For each line: the contents are cleared, the
// line is added as UTF-8, segment properties are guessed, and the line is shaped.
//   --words   each word of each line (at spaces) is shaped by itself.
//   --open    times from the blob to the shaping of the first two characters of the text, with a new face and font.
//   --fresh   a new buffer for each line.
//   --show    writes the glyphs as `hb-shape --no-glyph-names` does, and times nothing.
// It writes one line: the least and the median nanoseconds a character (of --open: an opening), the characters, the
// glyphs of a round and a checksum of all ids, clusters and places.
// ROUNDS 0 reads font and text and shapes nothing.
#include "hb.h"
#include "hb-ot.h"
#include <algorithm>
#include <chrono>
#include <cstdio>
#include <cstdlib>
#include <cstring>
#include <string>
#include <vector>

static std::string contents(const char *path) {
  std::string s;
  FILE *f = strcmp(path, "-") ? fopen(path, "rb") : stdin;
  if (!f) { perror(path); exit(1); }
  char buf[65536];
  size_t n;
  while ((n = fread(buf, 1, sizeof buf, f)) > 0) s.append(buf, n);
  if (f != stdin) fclose(f);
  return s;
}

static size_t characters_of(const std::string &s) {
  size_t n = 0;
  for (unsigned char c : s) n += (c & 0xC0) != 0x80;
  return n;
}

struct Options {
  std::vector<hb_feature_t> features;
  hb_direction_t direction = HB_DIRECTION_INVALID;
  hb_script_t script = HB_SCRIPT_INVALID;
  hb_language_t language = HB_LANGUAGE_INVALID;
  int level = 0;
  bool words = false, open = false, fresh = false, show = false;
};

static void fill(hb_buffer_t *buffer, const std::string &line, const Options &o) {
  hb_buffer_add_utf8(buffer, line.data(), (int) line.size(), 0, -1);
  if (o.direction != HB_DIRECTION_INVALID) hb_buffer_set_direction(buffer, o.direction);
  if (o.script != HB_SCRIPT_INVALID) hb_buffer_set_script(buffer, o.script);
  if (o.language != HB_LANGUAGE_INVALID) hb_buffer_set_language(buffer, o.language);
  hb_buffer_guess_segment_properties(buffer);
}

struct Sum {
  unsigned long long glyphs = 0, sum = 1469598103934665603ULL;
  void add(unsigned long long v) { sum = (sum ^ v) * 1099511628211ULL; }
  void buffer(hb_buffer_t *b) {
    unsigned n;
    hb_glyph_info_t *info = hb_buffer_get_glyph_infos(b, &n);
    hb_glyph_position_t *pos = hb_buffer_get_glyph_positions(b, &n);
    glyphs += n;
    for (unsigned i = 0; i < n; i++) {
      add(info[i].codepoint); add(info[i].cluster);
      add((unsigned) pos[i].x_advance); add((unsigned) pos[i].y_advance);
      add((unsigned) pos[i].x_offset); add((unsigned) pos[i].y_offset);
    }
  }
};

static void show(hb_buffer_t *b) {
  unsigned n;
  hb_glyph_info_t *info = hb_buffer_get_glyph_infos(b, &n);
  hb_glyph_position_t *pos = hb_buffer_get_glyph_positions(b, &n);
  putchar('[');
  for (unsigned i = 0; i < n; i++) {
    printf("%s%u=%u", i ? "|" : "", info[i].codepoint, info[i].cluster);
    if (pos[i].x_offset || pos[i].y_offset) printf("@%d,%d", pos[i].x_offset, pos[i].y_offset);
    printf("+%d", pos[i].x_advance);
    if (pos[i].y_advance) printf(",%d", pos[i].y_advance);
  }
  puts("]");
}

static double now() {
  using namespace std::chrono;
  return duration<double, std::nano>(steady_clock::now().time_since_epoch()).count();
}

int main(int argc, char **argv) {
  std::vector<const char *> plain;
  Options o;
  for (int i = 1; i < argc; i++) {
    std::string a = argv[i];
    auto value = [&]() -> const char * { if (++i >= argc) exit(2); return argv[i]; };
    if (a == "--features") {
      std::string list = value();
      for (size_t at = 0; at <= list.size();) {
        size_t end = list.find(',', at);
        if (end == std::string::npos) end = list.size();
        hb_feature_t f;
        if (hb_feature_from_string(list.data() + at, (int) (end - at), &f)) o.features.push_back(f);
        at = end + 1;
      }
    } else if (a == "--direction") o.direction = hb_direction_from_string(value(), -1);
    else if (a == "--script") o.script = hb_script_from_string(value(), -1);
    else if (a == "--language") o.language = hb_language_from_string(value(), -1);
    else if (a == "--level") o.level = atoi(value());
    else if (a == "--words") o.words = true;
    else if (a == "--open") o.open = true;
    else if (a == "--fresh") o.fresh = true;
    else if (a == "--show") o.show = true;
    else plain.push_back(argv[i]);
  }
  if (plain.size() < 2) { fprintf(stderr, "hbtime FONT TEXT ROUNDS [options]\n"); return 2; }
  std::string bytes = contents(plain[0]), text = contents(plain[1]);
  int rounds = plain.size() > 2 ? atoi(plain[2]) : 9;

  std::vector<std::string> lines;
  for (size_t at = 0; at < text.size();) {
    size_t end = text.find('\n', at);
    if (end == std::string::npos) end = text.size();
    std::string line = text.substr(at, end - at);
    if (!line.empty() && line.back() == '\r') line.pop_back();
    if (o.words) {
      for (size_t w = 0; w < line.size();) {
        size_t e = line.find(' ', w);
        if (e == std::string::npos) e = line.size();
        if (e > w) lines.push_back(line.substr(w, e - w));
        w = e + 1;
      }
    } else if (!line.empty() || o.show) lines.push_back(line);
    at = end + 1;
  }
  size_t characters = 0;
  for (auto &l : lines) characters += characters_of(l);

  hb_blob_t *blob = hb_blob_create(bytes.data(), (unsigned) bytes.size(), HB_MEMORY_MODE_READONLY, nullptr, nullptr);
  hb_buffer_t *buffer = hb_buffer_create();
  hb_buffer_set_cluster_level(buffer, (hb_buffer_cluster_level_t) o.level);
  const hb_feature_t *features = o.features.empty() ? nullptr : o.features.data();
  unsigned feature_count = (unsigned) o.features.size();
  std::vector<double> times;
  Sum sum;

  if (o.open) {
    std::string two;
    if (!lines.empty()) {
      size_t n = 0, i = 0;
      for (; i < lines[0].size(); i++) if ((lines[0][i] & 0xC0) != 0x80 && n++ == 2) break;
      two = lines[0].substr(0, i);
    }
    for (int r = 0; r < rounds; r++) {
      double start = now();
      hb_face_t *face = hb_face_create(blob, 0);
      hb_font_t *font = hb_font_create(face);
      hb_buffer_clear_contents(buffer);
      fill(buffer, two, o);
      hb_shape(font, buffer, features, feature_count);
      Sum once;
      if (r == 0) { once.buffer(buffer); sum = once; }
      hb_font_destroy(font);
      hb_face_destroy(face);
      times.push_back(now() - start);
    }
    characters = 1;
  } else {
    hb_face_t *face = hb_face_create(blob, 0);
    hb_font_t *font = hb_font_create(face);
    if (o.show) {
      for (auto &line : lines) {
        hb_buffer_clear_contents(buffer);
        fill(buffer, line, o);
        hb_shape(font, buffer, features, feature_count);
        show(buffer);
      }
      return 0;
    }
    for (int r = 0; r < rounds; r++) {
      Sum once;
      double start = now();
      for (auto &line : lines) {
        if (o.fresh) {
          hb_buffer_destroy(buffer);
          buffer = hb_buffer_create();
          hb_buffer_set_cluster_level(buffer, (hb_buffer_cluster_level_t) o.level);
        } else hb_buffer_clear_contents(buffer);
        fill(buffer, line, o);
        hb_shape(font, buffer, features, feature_count);
        if (r == 0) once.buffer(buffer);
      }
      times.push_back(now() - start);
      if (r == 0) sum = once;
    }
    if (times.size() > 1) times.erase(times.begin());  // the first also sums up and warms
    hb_font_destroy(font);
    hb_face_destroy(face);
  }
  std::sort(times.begin(), times.end());
  double least = times.empty() ? 0 : times[0] / characters, median = times.empty() ? 0 : times[times.size() / 2] / characters;
  printf("%.3f %.3f characters=%zu lines=%zu glyphs=%llu checksum=%016llx hb=%s\n", least, median, characters, lines.size(),
         sum.glyphs, sum.sum, hb_version_string());
  hb_buffer_destroy(buffer);
  hb_blob_destroy(blob);
  return 0;
}
