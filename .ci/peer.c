/* What `.ci/measure` measures the program beside, and the stores that it measures on.

   peer make DIR COUNT      a store of COUNT documents with made ids and contents of about 45 bytes, without an index
   peer walk DIR            reads the image, copies each body, puts each id into a sorted table, and prints how many there are
   peer append DIR          adds an entry as the program does: the body, a sync, the gate, a sync */
#include <fcntl.h>
#include <stdint.h>
#include <stdio.h>
#include <stdlib.h>
#include <string.h>
#include <sys/stat.h>
#include <unistd.h>

static const char *const NAMES[16] = {"ann",  "bob", "carl", "dora", "evan", "finn", "gus",  "hal",
                                      "ida",  "jon", "kim",  "lea",  "max",  "nina", "otto", "pia"};
static const unsigned char HEADER[] = "U1DBVOL\2\0\5speed\0\1a\0\0\1\0\0\0\0\0";
enum { HEADER_BYTES = sizeof HEADER - 1 };

static void fail(const char *what) {
  perror(what);
  exit(1);
}

static const char *in(const char *folder, const char *file) {
  static char path[4096];
  snprintf(path, sizeof path, "%s/%s", folder, file);
  return path;
}

/* ---- bodies */

static unsigned char body[1024];
static size_t filled;

static void put(const void *bytes, size_t count) {
  memcpy(body + filled, bytes, count);
  filled += count;
}

static void put_number(uint64_t number, int bytes) {
  while (bytes--) body[filled++] = (unsigned char)(number >> (8 * bytes));
}

static void put_text(const char *text) {
  put_number(strlen(text), 2);
  put(text, strlen(text));
}

/* the id of a number: as the program makes them, letters that follow no order */
static void put_id(char first, uint32_t number) {
  char text[40];
  uint64_t low = number * UINT64_C(0x9E3779B97F4A7C15) + 1, high = (low ^ (low >> 29)) * UINT64_C(0xBF58476D1CE4E5B9);
  snprintf(text, sizeof text, "%c-%016llx%016llx", first, (unsigned long long)high, (unsigned long long)low);
  put_text(text);
}

static void spell_document(uint32_t number) {
  char content[128];
  int length = snprintf(content, sizeof content, "{\"age\":%u,\"name\":\"%s%06u\",\"tags\":\"home work\"}", number % 100,
                        NAMES[number % 16], number);
  filled = 0;
  put_number(1, 1);
  put_id('D', number);
  put_number(1, 1); /* the clock has one entry: the own uid, counted once */
  put_number(0, 4);
  put_number(1, 8);
  put_number(0, 1); /* an edit without parents */
  put_number(0, 4);
  put_number(1, 1); /* current, with a content */
  put_number(1, 1);
  put_number((uint64_t)length, 4);
  put(content, (size_t)length);
  put_id('T', number);
  put_number(0, 1); /* no position moves */
}

/* ---- a store */

static void write_entry(FILE *file) {
  unsigned char front[5] = {1, 0, 0, (unsigned char)(filled >> 8), (unsigned char)filled};
  fwrite(front, 1, 5, file);
  fwrite(body, 1, filled, file);
}

static FILE *made(const char *folder, const char *name) {
  FILE *file = fopen(in(folder, name), "wb");
  if (!file) fail(name);
  return file;
}

static void make(const char *folder, uint32_t count) {
  if (mkdir(folder, 0700)) fail(folder);
  FILE *root = made(folder, "root"), *left = made(folder, "left"), *right = made(folder, "right");
  fputc(0, root);
  fwrite(HEADER, 1, HEADER_BYTES, right);
  fputc(0, right);
  fwrite(HEADER, 1, HEADER_BYTES, left);
  for (uint32_t number = 0; number < count; number++) {
    spell_document(number);
    write_entry(left);
  }
  fputc(0, left);
  if (fclose(root) | fclose(left) | fclose(right)) fail(folder);
}

/* ---- the walk */

struct entry {
  unsigned char *body;
  size_t length;
};

/* by the id, which stands behind the kind */
static int by_id(const void *a, const void *b) {
  const unsigned char *x = ((const struct entry *)a)->body + 1, *y = ((const struct entry *)b)->body + 1;
  size_t n = (size_t)x[0] << 8 | x[1], m = (size_t)y[0] << 8 | y[1];
  int order = memcmp(x + 2, y + 2, n < m ? n : m);
  return order ? order : (n > m) - (n < m);
}

static void walk(const char *folder) {
  int file = open(in(folder, "left"), O_RDONLY);
  struct stat found;
  if (file < 0 || fstat(file, &found)) fail(folder);
  size_t size = (size_t)found.st_size, room = 1024, count = 0, at = HEADER_BYTES;
  unsigned char *bytes = malloc(size);
  for (size_t done = 0; done < size;) {
    ssize_t some = read(file, bytes + done, size - done);
    if (some <= 0) fail("read");
    done += (size_t)some;
  }
  struct entry *table = malloc(room * sizeof *table);
  while (at + 5 <= size && bytes[at] == 1) {
    size_t length = (size_t)bytes[at + 1] << 24 | (size_t)bytes[at + 2] << 16 | (size_t)bytes[at + 3] << 8 | bytes[at + 4];
    if (bytes[at + 5] == 1) {
      if (count == room) table = realloc(table, (room *= 2) * sizeof *table);
      table[count].body = malloc(length);
      table[count].length = length;
      memcpy(table[count++].body, bytes + at + 5, length);
    }
    at += 5 + length;
  }
  qsort(table, count, sizeof *table, by_id);
  printf("%zu\n", count);
}

/* ---- an entry more */

static void append(const char *folder) {
  int file = open(in(folder, "left"), O_RDWR);
  struct stat found;
  if (file < 0 || fstat(file, &found)) fail(folder);
  off_t gate = found.st_size - 1;
  unsigned char bytes[1100] = {0};
  spell_document(4000000000u);
  bytes[3] = (unsigned char)(filled >> 8);
  bytes[4] = (unsigned char)filled;
  memcpy(bytes + 5, body, filled);
  if (pwrite(file, bytes, filled + 6, gate) < 0 || fdatasync(file) || pwrite(file, "\1", 1, gate) < 0 || fdatasync(file))
    fail("append");
  printf("appended\n");
}

int main(int count, char **words) {
  if (count == 4 && !strcmp(words[1], "make")) make(words[2], (uint32_t)strtoul(words[3], 0, 10));
  else if (count == 3 && !strcmp(words[1], "walk")) walk(words[2]);
  else if (count == 3 && !strcmp(words[1], "append")) append(words[2]);
  else return 2;
  return 0;
}
