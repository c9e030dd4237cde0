// A directory shown again over libfuse's low level, for bench/beside_libfuse: what libfuse's own `passthrough_ll` does for
// programs that only read. Threads answer side by side, and bytes of files are spliced.
//
//   passthrough MOUNTPOINT SECONDS DIRECTORY     entries and attributes are valid for so many seconds
#define FUSE_USE_VERSION 312
#define _GNU_SOURCE
#include <dirent.h>
#include <errno.h>
#include <fcntl.h>
#include <fuse_lowlevel.h>
#include <pthread.h>
#include <stdio.h>
#include <stdlib.h>
#include <string.h>
#include <sys/resource.h>
#include <sys/stat.h>
#include <unistd.h>

#define BUCKETS 65536

// A file, which its number leads to: its place, opened by O_PATH, and how often the kernel holds the number.
struct node {
  struct node *next;
  ino_t inode;
  int place;
  uint64_t held;
};

static struct node root = {.held = 1};
static struct node *buckets[BUCKETS];
static pthread_mutex_t lock = PTHREAD_MUTEX_INITIALIZER;
static double valid;

static struct node *node_of(fuse_ino_t number) {
  return number == FUSE_ROOT_ID ? &root : (struct node *)(uintptr_t)number;
}

// Opens the file of a number anew.
static int opened(fuse_ino_t number, int flags) {
  char path[64];
  snprintf(path, sizeof path, "/proc/self/fd/%d", node_of(number)->place);
  return open(path, flags);
}

// Counts one more for the file of an inode, which `place` leads to. That is closed where the file is known.
static struct node *held(ino_t inode, int place) {
  pthread_mutex_lock(&lock);
  struct node **bucket = &buckets[inode % BUCKETS], *node = *bucket;
  while (node && node->inode != inode)
    node = node->next;
  if (node) {
    close(place);
  } else {
    node = malloc(sizeof *node);
    *node = (struct node){.next = *bucket, .inode = inode, .place = place};
    *bucket = node;
  }
  node->held++;
  pthread_mutex_unlock(&lock);
  return node;
}

static void lookup(fuse_req_t request, fuse_ino_t above, const char *name) {
  struct fuse_entry_param entry = {.attr_timeout = valid, .entry_timeout = valid};
  int place = openat(node_of(above)->place, name, O_PATH | O_NOFOLLOW);
  if (place < 0 || fstat(place, &entry.attr)) {
    fuse_reply_err(request, errno);
    return;
  }
  entry.ino = (uintptr_t)held(entry.attr.st_ino, place);
  fuse_reply_entry(request, &entry);
}

static void forget(fuse_req_t request, fuse_ino_t number, uint64_t times) {
  struct node *node = node_of(number);
  pthread_mutex_lock(&lock);
  node->held -= times;
  if (node != &root && !node->held) {
    struct node **at = &buckets[node->inode % BUCKETS];
    while (*at != node)
      at = &(*at)->next;
    *at = node->next;
    close(node->place);
    free(node);
  }
  pthread_mutex_unlock(&lock);
  fuse_reply_none(request);
}

static void getattr(fuse_req_t request, fuse_ino_t number, struct fuse_file_info *file) {
  (void)file;
  struct stat found;
  if (fstat(node_of(number)->place, &found))
    fuse_reply_err(request, errno);
  else
    fuse_reply_attr(request, &found, valid);
}

static void open_file(fuse_req_t request, fuse_ino_t number, struct fuse_file_info *file) {
  int opens = opened(number, file->flags & ~(O_NOFOLLOW | O_DIRECT));
  if (opens < 0) {
    fuse_reply_err(request, errno);
    return;
  }
  file->fh = opens;
  file->keep_cache = 1;
  fuse_reply_open(request, file);
}

static void read_file(fuse_req_t request, fuse_ino_t number, size_t size, off_t offset, struct fuse_file_info *file) {
  (void)number;
  struct fuse_bufvec bytes = FUSE_BUFVEC_INIT(size);
  bytes.buf[0].flags = FUSE_BUF_IS_FD | FUSE_BUF_FD_SEEK;
  bytes.buf[0].fd = file->fh;
  bytes.buf[0].pos = offset;
  fuse_reply_data(request, &bytes, FUSE_BUF_SPLICE_MOVE);
}

static void release_file(fuse_req_t request, fuse_ino_t number, struct fuse_file_info *file) {
  (void)number;
  close(file->fh);
  fuse_reply_err(request, 0);
}

static void open_directory(fuse_req_t request, fuse_ino_t number, struct fuse_file_info *file) {
  DIR *opens = fdopendir(opened(number, O_RDONLY));
  if (!opens) {
    fuse_reply_err(request, errno);
    return;
  }
  file->fh = (uintptr_t)opens;
  fuse_reply_open(request, file);
}

static void list(fuse_req_t request, fuse_ino_t number, size_t size, off_t offset, struct fuse_file_info *file) {
  (void)number;
  DIR *directory = (DIR *)(uintptr_t)file->fh;
  char *text = malloc(size);
  size_t used = 0, len;
  seekdir(directory, offset);
  for (struct dirent *it; (it = readdir(directory)); used += len) {
    struct stat found = {.st_ino = it->d_ino, .st_mode = (mode_t)it->d_type << 12};
    len = fuse_add_direntry(request, text + used, size - used, it->d_name, &found, it->d_off);
    if (len > size - used)
      break;
  }
  fuse_reply_buf(request, text, used);
  free(text);
}

static void release_directory(fuse_req_t request, fuse_ino_t number, struct fuse_file_info *file) {
  (void)number;
  closedir((DIR *)(uintptr_t)file->fh);
  fuse_reply_err(request, 0);
}

static const struct fuse_lowlevel_ops calls = {
    .lookup = lookup,
    .forget = forget,
    .getattr = getattr,
    .open = open_file,
    .read = read_file,
    .release = release_file,
    .opendir = open_directory,
    .readdir = list,
    .releasedir = release_directory,
};

int main(int count, char **words) {
  struct rlimit files;
  if (count != 4 || getrlimit(RLIMIT_NOFILE, &files))
    return 2;
  files.rlim_cur = files.rlim_max;
  setrlimit(RLIMIT_NOFILE, &files);
  valid = atof(words[2]);
  root.place = open(words[3], O_PATH);
  char *options[] = {words[0], "-o", "default_permissions,fsname=passthrough", NULL};
  struct fuse_args args = FUSE_ARGS_INIT(3, options);
  struct fuse_session *session = fuse_session_new(&args, &calls, sizeof calls, NULL);
  struct fuse_loop_config *config = fuse_loop_cfg_create();
  if (root.place < 0 || !session || fuse_set_signal_handlers(session) || fuse_session_mount(session, words[1]))
    return 1;
  int status = fuse_session_loop_mt(session, config);
  fuse_session_unmount(session);
  return status != 0;
}
