/*
 * Apple Advanced Typography for C and C++: a font file and a text go in, and the glyphs that are drawn come out, with
 * their positions and with where the text may be broken.
 *
 *     aat_font_t font = AAT_FONT_NONE;
 *     aat_options_t options = AAT_OPTIONS_NONE;
 *     aat_glyph_t glyphs[64];
 *     size_t count;
 *
 *     if (aat_font_read(&font, bytes, length, 0) == AAT_OK &&
 *         aat_shape_utf8(&font, &options, AAT_NO_FEATURES, 0, (const uint8_t *)"fila", 4, glyphs, 64, &count) == AAT_OK)
 *         for (size_t i = 0; i < count && i < 64; i++)
 *             printf("%u=%u+%d\n", glyphs[i].glyph_id, glyphs[i].cluster, glyphs[i].x_advance);
 *     aat_font_free(&font);
 *
 * All distances are in units of the font (aat_font_units_per_em).
 *
 * What the caller has to see to:
 *
 * - No pointer is NULL, also where its length is 0: AAT_NO_FEATURES, AAT_NO_GLYPHS and AAT_NO_LINES are there for that.
 *   malloc(0) and std::vector's data() may be NULL.
 * - What a pointer with a length points to is there for all of the length. What a call writes overlaps with nothing else
 *   that it is given.
 * - A font is used by one call at a time. It may move between threads, if what one thread did to it happens before what
 *   the next one does.
 *
 * A font keeps the memory in which it shapes. aat_shape_utf8() without features, of a text that is no longer than the one
 * before it, mostly asks for none; other calls that shape ask for some.
 */
#ifndef AAT_H
#define AAT_H

#include <stdbool.h>
#include <stddef.h>
#include <stdint.h>

#ifdef __cplusplus
extern "C" {
#endif

#if defined(__GNUC__)
#define AAT_NONNULL __attribute__((nonnull))
#else
#define AAT_NONNULL
#endif

#define AAT_VERSION_MAJOR 1
#define AAT_VERSION_MINOR 0
#define AAT_VERSION_MICRO 0

/**
 * aat_status_t:
 * @AAT_OK: the call answered
 * @AAT_NO_FONT: the handle holds no font
 * @AAT_OUT_OF_MEMORY: memory is wanting
 * @AAT_BAD_FONT: the directory of the file has a fault, which aat_file_fault() tells
 * @AAT_BAD_TEXT: the text is not of its encoding
 * @AAT_TEXT_TOO_LONG: the text has more than 4,294,967,295 bytes in UTF-8
 * @AAT_ALTERNATE_TOO_LARGE: a feature `aalt` has a value above 65535, and the font has character alternatives
 * @AAT_LINE_TOO_LONG: the text has more than 2^24 glyphs, or substitution makes the line too long
 * @AAT_BAD_FEATURE: the text is no feature
 * @AAT_BAD_OPTION: a number of the options stands for nothing
 * @AAT_NOT_THERE: what is asked for is not there
 *
 * How a call ends. A call that is refused writes nothing but its counts, which are 0 then, and leaves the font as it
 * was; aat_font_read() leaves no font.
 */
typedef enum {
  AAT_OK = 0,
  AAT_NO_FONT = 1,
  AAT_OUT_OF_MEMORY = 2,
  AAT_BAD_FONT = 3,
  AAT_BAD_TEXT = 4,
  AAT_TEXT_TOO_LONG = 5,
  AAT_ALTERNATE_TOO_LARGE = 6,
  AAT_LINE_TOO_LONG = 7,
  AAT_BAD_FEATURE = 8,
  AAT_BAD_OPTION = 9,
  AAT_NOT_THERE = 10
} aat_status_t;

/**
 * aat_direction_t:
 * @AAT_DIRECTION_OF_SCRIPT: that of the script of the text
 *
 * The direction of a text, in the numbers of HarfBuzz.
 */
typedef enum {
  AAT_DIRECTION_OF_SCRIPT = 0,
  AAT_DIRECTION_LTR = 4,
  AAT_DIRECTION_RTL = 5,
  AAT_DIRECTION_TTB = 6,
  AAT_DIRECTION_BTT = 7
} aat_direction_t;

/**
 * aat_cluster_level_t:
 * @AAT_CLUSTER_LEVEL_GRAPHEMES: each grapheme has a cluster, HarfBuzz's level 0
 * @AAT_CLUSTER_LEVEL_CHARACTERS: each character has one, HarfBuzz's level 1
 *
 * What of a text has a cluster of its own.
 */
typedef enum { AAT_CLUSTER_LEVEL_GRAPHEMES = 0, AAT_CLUSTER_LEVEL_CHARACTERS = 1 } aat_cluster_level_t;

/** AAT_TAG: the number of a tag of four letters, as AAT_TAG('s','m','c','p'). */
#define AAT_TAG(a, b, c, d) \
  ((uint32_t)(((uint32_t)(a) << 24) | ((uint32_t)(b) << 16) | ((uint32_t)(c) << 8) | (uint32_t)(d)))

/**
 * aat_font_t:
 *
 * A font, or none. It keeps the memory in which it shapes until it is freed or another one is read. Make it AAT_FONT_NONE
 * (all zeros) where it is declared, and give it back by aat_font_free(). Do not look into it, and never use two copies
 * of it.
 */
typedef struct {
  struct {
    void *pointer;
  } slot;
  bool is_full;
} aat_font_t;

#define AAT_FONT_NONE {{NULL}, false}

/**
 * aat_options_t:
 * @direction: an aat_direction_t
 * @script: the tag of a script of Unicode as AAT_TAG('L','a','t','n'), or 0 for the first script that a character of the
 *     text has; others are AAT_BAD_OPTION
 * @point_size: the size at which the text is tracked, 65536 a point; 0 is none that is told: 12 points for a font with
 *     `STAT`, as in HarfBuzz, and else no tracking. AAT_POINT_SIZE_UNTRACKED tracks nothing.
 * @cluster_level: an aat_cluster_level_t
 *
 * How a text is shaped. AAT_OPTIONS_NONE (all zeros) is what a program wants that tells nothing.
 */
typedef struct {
  uint32_t direction;
  uint32_t script;
  uint32_t point_size;
  uint32_t cluster_level;
} aat_options_t;

#define AAT_OPTIONS_NONE {0, 0, 0, 0}
#define AAT_POINT_SIZE_UNTRACKED UINT32_MAX

/**
 * aat_feature_t:
 * @tag: as AAT_TAG('s','m','c','p')
 * @value: 0 is off, 1 on, and others choose among alternatives
 * @start: the first cluster that it holds
 * @end: the cluster behind the last one; AAT_FEATURE_GLOBAL_END is no end
 *
 * A feature over a range of clusters.
 */
typedef struct {
  uint32_t tag;
  uint32_t value;
  uint32_t start;
  uint32_t end;
} aat_feature_t;

#define AAT_FEATURE_GLOBAL_START 0
#define AAT_FEATURE_GLOBAL_END UINT32_MAX

/**
 * aat_glyph_t:
 * @glyph_id: its number in the font
 * @cluster: where in the text the character is that it came from, or the first of several
 * @x_advance: how far the pen moves to the right
 * @y_advance: how far the pen moves up
 * @x_offset: how far to the right of the pen it is drawn
 * @y_offset: how far above the pen it is drawn
 * @flags: AAT_GLYPH_FLAG_... added up
 *
 * A glyph that is drawn.
 */
typedef struct {
  uint32_t glyph_id;
  uint32_t cluster;
  int32_t x_advance;
  int32_t y_advance;
  int32_t x_offset;
  int32_t y_offset;
  uint32_t flags;
} aat_glyph_t;

/** Pointers for a length of 0. */
#define AAT_NONE_OF(type) ((type *)(uintptr_t)sizeof(type))
#define AAT_NO_FEATURES AAT_NONE_OF(const aat_feature_t)
#define AAT_NO_GLYPHS AAT_NONE_OF(aat_glyph_t)
#define AAT_NO_LINES AAT_NONE_OF(aat_line_t)

/**
 * The text may be broken before it: its glyphs in two parts, shaped alike, look as they do here. A part of the
 * characters may have another script: tell the script. It is no end of a line.
 *
 * It is the opposite of HB_GLYPH_FLAG_UNSAFE_TO_BREAK, but only on the first glyph of a cluster in the array, and never
 * on the first one of all. Where the text runs from right to left, the place in the text is the cluster of the glyph
 * before it in the array. None is set where a text runs against the direction of its script.
 */
#define AAT_GLYPH_FLAG_MAY_BREAK_BEFORE 1u
/** Its character is ignorable. */
#define AAT_GLYPH_FLAG_IGNORABLE 2u
/** Its character is a mark. */
#define AAT_GLYPH_FLAG_MARK 4u

/**
 * aat_text_glyph_t:
 * @glyph_id: its number in the font
 * @flags: AAT_TEXT_GLYPH_FLAG_... added up
 * @cluster: where in the text its character is
 *
 * A glyph of a text that the caller made of characters.
 */
typedef struct {
  uint16_t glyph_id;
  uint16_t flags;
  uint32_t cluster;
} aat_text_glyph_t;

#define AAT_TEXT_GLYPH_FLAG_IGNORABLE 1u
#define AAT_TEXT_GLYPH_FLAG_MARK 2u

/**
 * aat_line_t:
 * @text_end: where in the text it ends, in bytes
 * @glyphs_end: how many glyphs are drawn of it and of the lines before it
 *
 * A line of a text. It begins where the one before it ends.
 */
typedef struct {
  size_t text_end;
  size_t glyphs_end;
} aat_line_t;

/**
 * aat_fault_t:
 * @table: the tag of the table, `sfnt` for the directory of the file
 * @kind: the number of its kind, of which aat_fault_text() has the English
 * @place: where, in bytes from the start of the table
 *
 * A fault of a font's table. What it is of is passed over, and the rest of the font is used.
 */
typedef struct {
  uint32_t table;
  uint32_t kind;
  size_t place;
} aat_fault_t;

/**
 * aat_version:
 *
 * Return value: the version of the library, 65536 for its major number and 256 for its minor one.
 */
uint32_t aat_version(void);

/**
 * aat_status_text:
 * @status: an aat_status_t
 * @out: room for bytes
 * @out_size: how many
 *
 * Puts what a status says into room, in English and without an end mark, as much as there is room for.
 *
 * Return value: how many bytes it has, which may be more than there is room for; 0 for a number that is none of a
 * status.
 */
size_t aat_status_text(uint32_t status, uint8_t *out, size_t out_size) AAT_NONNULL;

/**
 * aat_fault_text:
 * @kind: the number of a kind of fault
 * @out: room for bytes
 * @out_size: how many
 *
 * Puts what a kind of fault says into room, as aat_status_text().
 *
 * Return value: how many bytes it has, which may be more than there is room for; 0 for a number that is none of a kind.
 */
size_t aat_fault_text(uint32_t kind, uint8_t *out, size_t out_size) AAT_NONNULL;

/**
 * aat_font_read:
 * @font: a handle, whose font goes
 * @bytes: the file, which stays as it is until the font is freed or another one is read into the handle
 * @length: its length
 * @index: 0, or the number of a font in a collection
 *
 * Reads a font. Tables with faults are passed over: aat_font_fault_count().
 *
 * Return value: AAT_OK, AAT_BAD_FONT or AAT_OUT_OF_MEMORY
 */
uint32_t aat_font_read(aat_font_t *font, const uint8_t *bytes, size_t length, uint32_t index) AAT_NONNULL;

/**
 * aat_font_free:
 * @font: a handle
 *
 * Frees the font, if there is one: a second call does nothing.
 */
void aat_font_free(aat_font_t *font) AAT_NONNULL;

/**
 * aat_font_glyph_count:
 * @font: a handle
 *
 * Return value: the number of glyphs, 0 where there is no font.
 */
uint32_t aat_font_glyph_count(aat_font_t *font) AAT_NONNULL;

/**
 * aat_font_units_per_em:
 * @font: a handle
 *
 * Return value: the units of the em, 0 where there is no font.
 */
uint32_t aat_font_units_per_em(aat_font_t *font) AAT_NONNULL;

/**
 * aat_font_glyph:
 * @font: a handle
 * @character: a character of Unicode
 *
 * Return value: its glyph, 0 where the font has none, it is no character, or there is no font.
 */
uint32_t aat_font_glyph(aat_font_t *font, uint32_t character) AAT_NONNULL;

/**
 * aat_font_has_feature:
 * @font: a handle
 * @tag: the tag of a feature
 *
 * Return value: whether the font has it: `kern` by a table of kerning, others by `feat`; false where there is no font.
 */
bool aat_font_has_feature(aat_font_t *font, uint32_t tag) AAT_NONNULL;

/**
 * aat_font_fault_count:
 * @font: a handle
 *
 * Return value: how many faults the font's tables have, 0 where there is no font.
 */
size_t aat_font_fault_count(aat_font_t *font) AAT_NONNULL;

/**
 * aat_font_fault:
 * @font: a handle
 * @number: from 0
 * @fault: (out)
 *
 * Return value: AAT_OK, AAT_NO_FONT or AAT_NOT_THERE
 */
uint32_t aat_font_fault(aat_font_t *font, size_t number, aat_fault_t *fault) AAT_NONNULL;

/**
 * aat_file_fault:
 * @bytes: a file
 * @length: its length
 * @index: 0, or the number of a font in a collection
 * @fault: (out) the fault for which aat_font_read() refuses the file
 *
 * Return value: AAT_OK, or AAT_NOT_THERE where there is none
 */
uint32_t aat_file_fault(const uint8_t *bytes, size_t length, uint32_t index, aat_fault_t *fault) AAT_NONNULL;

/**
 * aat_font_name:
 * @font: a handle
 * @name: the number of a name, as 1 for the family
 * @out: room for bytes of UTF-8
 * @out_size: how many
 * @count: (out) how many bytes the name has; it may be more than there is room for
 *
 * Puts the English text of a name into room, without an end mark; U+FFFD stands for what is no UTF-16 and, of Mac Roman,
 * no ASCII.
 *
 * Return value: AAT_OK, AAT_NO_FONT, AAT_NOT_THERE or AAT_OUT_OF_MEMORY
 */
uint32_t aat_font_name(aat_font_t *font, uint32_t name, uint8_t *out, size_t out_size, size_t *count) AAT_NONNULL;

/**
 * aat_font_feature_name:
 * @font: a handle
 * @kind: the number of a feature type of `feat`
 * @out: room for bytes of UTF-8
 * @out_size: how many
 * @count: (out) how many bytes the name has
 *
 * Puts the English name of a feature type into room, as aat_font_name().
 */
uint32_t aat_font_feature_name(aat_font_t *font, uint32_t kind, uint8_t *out, size_t out_size, size_t *count)
    AAT_NONNULL;

/**
 * aat_font_setting_name:
 * @font: a handle
 * @kind: the number of a feature type of `feat`
 * @setting: the number of one of its settings
 * @out: room for bytes of UTF-8
 * @out_size: how many
 * @count: (out) how many bytes the name has
 *
 * Puts the English name of a setting into room, as aat_font_name().
 */
uint32_t aat_font_setting_name(aat_font_t *font, uint32_t kind, uint32_t setting, uint8_t *out, size_t out_size,
                               size_t *count) AAT_NONNULL;

/**
 * aat_feature_from_string:
 * @text: a feature in UTF-8, as hb_feature_from_string() takes it: `smcp`, `-liga`, `aalt[3:5]=2`
 * @length: its length
 * @feature: (out)
 *
 * Return value: AAT_OK, AAT_BAD_TEXT or AAT_BAD_FEATURE
 */
uint32_t aat_feature_from_string(const uint8_t *text, size_t length, aat_feature_t *feature) AAT_NONNULL;

/**
 * aat_shape_utf8:
 * @font: a handle
 * @options: how the text is shaped
 * @features: features over ranges of clusters
 * @feature_count: how many
 * @text: a text of UTF-8
 * @length: its length in bytes
 * @out: room for glyphs
 * @out_size: how many
 * @count: (out) how many glyphs are drawn; where there is less room, the first ones stand in it, which is no refusal
 *
 * Shapes a text as one line. Glyphs come in drawing order: from left to right, or from top to bottom. Clusters, also
 * those of features, count bytes.
 *
 * Return value: AAT_OK, or the first that applies of AAT_NO_FONT, AAT_BAD_TEXT, AAT_BAD_OPTION, AAT_TEXT_TOO_LONG,
 * AAT_LINE_TOO_LONG for more than 2^24 glyphs, AAT_ALTERNATE_TOO_LARGE, and AAT_LINE_TOO_LONG of substitution.
 * AAT_OUT_OF_MEMORY may come in place of any but AAT_NO_FONT and, of UTF-8, AAT_BAD_TEXT.
 */
uint32_t aat_shape_utf8(aat_font_t *font, const aat_options_t *options, const aat_feature_t *features,
                        size_t feature_count, const uint8_t *text, size_t length, aat_glyph_t *out, size_t out_size,
                        size_t *count) AAT_NONNULL;

/**
 * aat_shape_utf16:
 *
 * As aat_shape_utf8(), of a text of UTF-16. Clusters count its units.
 */
uint32_t aat_shape_utf16(aat_font_t *font, const aat_options_t *options, const aat_feature_t *features,
                         size_t feature_count, const uint16_t *text, size_t length, aat_glyph_t *out, size_t out_size,
                         size_t *count) AAT_NONNULL;

/**
 * aat_shape_utf32:
 *
 * As aat_shape_utf8(), of a text of characters of Unicode. Clusters count them.
 */
uint32_t aat_shape_utf32(aat_font_t *font, const aat_options_t *options, const aat_feature_t *features,
                         size_t feature_count, const uint32_t *text, size_t length, aat_glyph_t *out, size_t out_size,
                         size_t *count) AAT_NONNULL;

/**
 * aat_shape_glyphs:
 *
 * As aat_shape_utf8(), of glyphs with clusters of their own. It runs from left to right where the options tell no
 * direction. Script and cluster level do not count, but where they stand for nothing it is AAT_BAD_OPTION, and marks
 * are not placed.
 */
uint32_t aat_shape_glyphs(aat_font_t *font, const aat_options_t *options, const aat_feature_t *features,
                          size_t feature_count, const aat_text_glyph_t *text, size_t length, aat_glyph_t *out,
                          size_t out_size, size_t *count) AAT_NONNULL;

/**
 * aat_lines_utf8:
 * @font: a handle
 * @options: how the text is shaped; the direction does not count, but has to be one
 * @features: features over ranges of clusters
 * @feature_count: how many
 * @text: a text of UTF-8
 * @length: its length in bytes
 * @width: the width of the lines, in units of the font
 * @out: room for glyphs, those of a line behind those of the line before it
 * @out_size: how many
 * @count: (out) how many glyphs are drawn, also where there is less room
 * @lines: room for lines
 * @line_room: how many
 * @line_count: (out) how many lines there are, also where there is less room
 *
 * Shapes a text in lines of a width. They end by the main rules of Unicode's line breaking; words of Southeast Asia are
 * not found. They run in the direction of their script. Clusters count bytes. The spaces at the end of a line hang over
 * it, and ignorable glyphs count for no width. A line without a place to end is longer than the width. The spaces and
 * the newline of a line belong to it and have glyphs, and an empty text has no line. Where it is refused both counts
 * are 0.
 *
 * Return value: as of aat_shape_utf8(), of the text or a part of it
 */
uint32_t aat_lines_utf8(aat_font_t *font, const aat_options_t *options, const aat_feature_t *features,
                        size_t feature_count, const uint8_t *text, size_t length, uint64_t width, aat_glyph_t *out,
                        size_t out_size, size_t *count, aat_line_t *lines, size_t line_room, size_t *line_count)
    AAT_NONNULL;

#ifdef __cplusplus
}
#endif

#endif
