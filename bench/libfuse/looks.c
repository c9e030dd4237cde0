// Makes a call of the system over and over, and prints the middle of what it took, in nanoseconds, for
// bench/beside_libfuse.
//
//   looks CALL FOLDER COUNT     CALL is stat, deep, open, miss, directory, create, rename, cold, list or anew
//
// `deep` looks at a file below seven directories, `miss` at a name that is not there. `directory` makes and removes one,
// `create` makes and removes a file, `rename` moves one there and back. `cold` looks once at each of so many files, which
// nobody looked at before. `list` lists a directory, and `anew` one that was changed just before, which the kernel has to
// ask for.
#define _GNU_SOURCE
#include <dirent.h>
#include <fcntl.h>
#include <stdio.h>
#include <stdlib.h>
#include <string.h>
#include <sys/stat.h>
#include <time.h>
#include <unistd.h>

static long now(void) {
  struct timespec at;
  clock_gettime(CLOCK_MONOTONIC, &at);
  return at.tv_sec * 1000000000L + at.tv_nsec;
}

static int compare(const void *one, const void *other) {
  long a = *(const long *)one, b = *(const long *)other;
  return (a > b) - (a < b);
}

static int looks_at(const char *path) {
  struct stat found;
  return stat(path, &found);
}

static int makes_file(const char *path) {
  int file = open(path, O_CREAT | O_EXCL | O_WRONLY, 0644);
  return file < 0 || close(file) || unlink(path);
}

static int opens(const char *path) {
  int file = open(path, O_RDONLY);
  return file < 0 || close(file);
}

static int lists(void) {
  DIR *directory = opendir("l");
  if (!directory)
    return 1;
  while (readdir(directory))
    ;
  return closedir(directory);
}

// Does what a call needs beforehand, and returns whether that failed.
static int prepare(const char *word) {
  return !strcmp(word, "anew") && (mkdir("l/made", 0755) || rmdir("l/made"));
}

// Makes the call once, and returns whether it failed.
static int call(const char *word, long number) {
  char path[64];
  if (!strcmp(word, "stat"))
    return looks_at("d5/f5");
  if (!strcmp(word, "deep"))
    return looks_at("e/e/e/e/e/e/e/f");
  if (!strcmp(word, "open"))
    return opens("d5/f5");
  if (!strcmp(word, "miss"))
    return !looks_at("d5/none");
  if (!strcmp(word, "directory"))
    return mkdir("work/made", 0755) || rmdir("work/made");
  if (!strcmp(word, "create"))
    return makes_file("work/made");
  if (!strcmp(word, "rename"))
    return rename("d5/f6", "d5/moved") || rename("d5/moved", "d5/f6");
  if (!strcmp(word, "list") || !strcmp(word, "anew"))
    return lists();
  snprintf(path, sizeof path, "d%ld/f%ld", number / 50, number % 50);
  return looks_at(path);
}

int main(int count, char **words) {
  long times = count == 4 ? atol(words[3]) : 0;
  long *took = calloc(times ? times : 1, sizeof *took);
  if (!times || chdir(words[2]) || !took)
    return 2;
  for (long number = 0; number < times; number++) {
    if (prepare(words[1]))
      return 1;
    long began = now();
    if (call(words[1], number)) {
      perror(words[1]);
      return 1;
    }
    took[number] = now() - began;
  }
  qsort(took, times, sizeof *took, compare);
  printf("%ld\n", took[times / 2]);
  return 0;
}
