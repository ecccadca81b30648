/* Does for one plan what `j39plan read PLAN LOG` does for any: read_log LOG, built with -DGROUPS='"tractor_groups.h"', the groups
   of the plan. The measure of j39plan's speed: one pass over the log, which is read in pieces, tables for digits, and a buffer for
   what is written. */
#include <stdint.h>
#include <stdio.h>
#include <stdlib.h>
#include <string.h>

enum { LINE_LIMIT = 8192, PIECE = 65536, ALL = 255 };

typedef enum { MEASURED, DISCRETE, RAW } Kind;
typedef struct { const char *label; unsigned start, bits; Kind kind; int64_t offset; const char *unit; } Signal;
typedef struct { const char *label; uint32_t pgn; size_t length; const Signal *signals; unsigned count; } Group;

#include GROUPS

typedef struct { int is_open, is_directed; uint32_t pgn; unsigned size, held; uint8_t bytes[1785]; } Listener;
static Listener *listeners[65536];

static uint8_t values[256]; /* of hex digits; 255 for other bytes */
static unsigned long frames, skipped, bad;
static char out[2 * PIECE];
static size_t filled;

static void give_up(const char *why) { fprintf(stderr, "read_log: %s\n", why); exit(4); }

static void put_out(void) {
  if (fwrite(out, 1, filled, stdout) != filled) give_up("device fault");
  filled = 0;
}

static void put_text(const char *text) { size_t n = strlen(text); memcpy(out + filled, text, n); filled += n; }

static void put_number(int64_t number) {
  char digits[20];
  int at = 20;
  uint64_t rest = number < 0 ? -(uint64_t)number : (uint64_t)number;
  do digits[--at] = '0' + rest % 10; while (rest /= 10);
  if (number < 0) out[filled++] = '-';
  memcpy(out + filled, digits + at, 20 - at);
  filled += 20 - at;
}

static void put_hex(const uint8_t *bytes, size_t count) {
  for (size_t i = 0; i < count; i++) {
    out[filled++] = "0123456789ABCDEF"[bytes[i] >> 4];
    out[filled++] = "0123456789ABCDEF"[bytes[i] & 15];
  }
}

static void put_state(const Signal *s, uint32_t raw) {
  unsigned top = s->kind == MEASURED ? raw >> (s->bits - 8) : 0;
  if (s->kind == RAW || (s->kind == DISCRETE && raw < 2) || (s->kind == MEASURED && top <= 0xFA)) {
    put_text(" value ");
    put_number(s->offset + (int64_t)raw);
    if (*s->unit) { out[filled++] = ' '; put_text(s->unit); }
  } else if (s->kind == DISCRETE ? raw == 2 : top == 0xFE) { put_text(" fault "); put_number(raw); }
  else if (s->kind == DISCRETE || top == 0xFF) put_text(" absent");
  else { put_text(top == 0xFB ? " specific " : " reserved "); put_number(raw); }
}

static void report(const Group *group, uint32_t ident, const uint8_t *bytes) {
  unsigned destination = (ident >> 16 & 255) < 240 ? ident >> 8 & 255 : ALL;
  put_text("group ");
  put_text(group->label);
  put_text(" from ");
  put_number(ident & 255);
  put_text(" to ");
  if (destination == ALL) put_text("all"); else put_number(destination);
  put_text(" bytes ");
  put_hex(bytes, group->length);
  out[filled++] = '\n';
  for (unsigned i = 0; i < group->count; i++) {
    const Signal *s = &group->signals[i];
    uint64_t window = 0;
    for (unsigned at = (s->start + s->bits + 7) / 8; at-- > s->start / 8;) window = window << 8 | bytes[at];
    out[filled++] = ' ';
    out[filled++] = ' ';
    put_text(s->label);
    put_state(s, window >> s->start % 8 & ((1ULL << s->bits) - 1));
    out[filled++] = '\n';
  }
  if (filled > PIECE) put_out();
}

static const Group *planned(uint32_t pgn, size_t length) {
  for (size_t i = 0; i < sizeof groups / sizeof *groups; i++)
    if (groups[i].pgn == pgn && groups[i].length == length) return &groups[i];
  return NULL;
}

static void announce(unsigned pair, int is_directed, uint32_t pgn, unsigned size) {
  Listener *l = listeners[pair] ? listeners[pair] : (listeners[pair] = malloc(sizeof *l));
  if (!l) give_up("out of memory");
  l->is_open = 1; l->is_directed = is_directed; l->pgn = pgn; l->size = size; l->held = 0;
}

static void hear_abort(unsigned pair, uint32_t pgn) {
  Listener *l = listeners[pair];
  if (l && l->is_open && l->is_directed && l->pgn == pgn) l->is_open = 0;
}

static void hear_management(unsigned source, unsigned destination, const uint8_t *p) {
  unsigned size = p[1] + 256u * p[2];
  uint32_t pgn = p[5] + 256u * p[6] + 65536u * p[7];
  if (pgn >= 262144 || (p[6] < 240 && p[5] != 0)) return;
  if (p[0] == 255) {
    hear_abort(256 * source + destination, pgn);
    hear_abort(256 * destination + source, pgn);
  } else if ((p[0] == 16 && destination != ALL) || (p[0] == 32 && destination == ALL)) {
    if (size >= 9 && size <= 1785 && p[3] == (size + 6) / 7) announce(256 * source + destination, p[0] == 16, pgn, size);
  }
}

static void hear_data(unsigned pair, uint32_t ident, const uint8_t *p) {
  Listener *l = listeners[pair];
  if (!l || !l->is_open || p[0] <= l->held) return;
  if (p[0] > l->held + 1) { l->is_open = l->is_directed; return; }
  unsigned start = 7 * l->held++, count = l->size - start < 7 ? l->size - start : 7;
  memcpy(l->bytes + start, p + 1, count);
  if (start + count < l->size) return;
  l->is_open = 0;
  const Group *group = planned(l->pgn, l->size);
  if (group) report(group, ident, l->bytes);
}

static void read_frame(uint32_t ident, const uint8_t *payload, size_t length) {
  uint32_t pgn = ident >> 8 & 0x3FFFF;
  if ((pgn >> 8 & 255) < 240) pgn &= 0x3FF00;
  const Group *group = planned(pgn, length);
  frames++;
  if (group) report(group, ident, payload);
  else if (length == 8 && pgn == 60416) hear_management(ident & 255, ident >> 8 & 255, payload);
  else if (length == 8 && pgn == 60160 && payload[0]) hear_data((ident & 255) << 8 | (ident >> 8 & 255), ident, payload);
}

static int is_separator(char c) { return c == ' ' || c == '\t' || c == '\r'; }

static void read_line(const char *line, size_t length) {
  const char *end = line + length;
  uint8_t payload[8];
  uint32_t ident = 0;
  unsigned wrong = 0;
  if (length > LINE_LIMIT) { bad++; return; }
  while (end > line && is_separator(end[-1])) end--;
  if (end == line) return;
  const char *word = end;
  while (word > line && !is_separator(word[-1])) word--;
  const char *hash = memchr(word, '#', end - word);
  if (!hash) { bad++; return; }
  for (const char *c = word; c < hash && c < word + 8; c++) {
    wrong |= values[(uint8_t)*c];
    ident = ident << 4 | (values[(uint8_t)*c] & 15);
  }
  if (hash - word == 3 && wrong < 16) { skipped++; return; }
  size_t digits = end - hash - 1;
  if (hash - word != 8 || wrong > 15 || ident >> 29 || digits > 16 || digits % 2) { bad++; return; }
  for (size_t i = 0; i < digits / 2; i++) {
    uint8_t high = values[(uint8_t)hash[1 + 2 * i]], low = values[(uint8_t)hash[2 + 2 * i]];
    wrong |= high | low;
    payload[i] = high << 4 | (low & 15);
  }
  if (wrong > 15) { bad++; return; }
  read_frame(ident, payload, digits / 2);
}

static char piece[LINE_LIMIT + 1 + PIECE]; /* the line that a piece broke off, and the next piece */

/* Reads the lines that end, and answers where the line begins that doesn't. */
static const char *read_lines(const char *line, const char *end) {
  for (const char *feed; (feed = memchr(line, '\n', end - line)); line = feed + 1) read_line(line, feed - line);
  return line;
}

int main(int count, char **words) {
  FILE *file = count == 2 ? fopen(words[1], "rb") : NULL;
  size_t kept = 0, size;
  int is_long = 0; /* the line that was broken off is counted already */
  if (!file) give_up("it takes a log");
  setvbuf(file, NULL, _IONBF, 0);
  memset(values, 255, sizeof values);
  for (int i = 0; i < 16; i++) values[(uint8_t)"0123456789ABCDEF"[i]] = values[(uint8_t)"0123456789abcdef"[i]] = i;
  while ((size = fread(piece + kept, 1, PIECE, file)) > 0) {
    const char *line = piece, *end = piece + kept + size;
    if (is_long) {
      const char *feed = memchr(line, '\n', end - line);
      if (!feed) continue;
      line = feed + 1;
      is_long = 0;
    }
    line = read_lines(line, end);
    kept = end - line;
    if (kept > LINE_LIMIT) { bad++; is_long = 1; kept = 0; }
    memmove(piece, line, kept);
  }
  if (ferror(file)) give_up("device fault");
  if (kept) read_line(piece, kept);
  filled += sprintf(out + filled, "frames %lu skipped %lu bad %lu\n", frames, skipped, bad);
  put_out();
  return fclose(stdout) ? 4 : 0;
}
