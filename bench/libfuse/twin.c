// A file system in memory over libfuse's low level, for bench/beside_libfuse: the same requests as a checkout of edend,
// answered in one process by one thread. Nothing is kept on disk, and files have no content.
//
//   twin MOUNTPOINT SECONDS     entries and attributes are valid for so many seconds
#define FUSE_USE_VERSION 34
#include <errno.h>
#include <fuse_lowlevel.h>
#include <stdint.h>
#include <stdlib.h>
#include <string.h>
#include <sys/stat.h>
#include <unistd.h>

#define BUCKETS 65536

// A file, which its number leads to: its name in the directory above, and how often the kernel holds the number. A directory
// has its children in the order in which they came.
struct node {
  struct node *above, *next;
  struct node *first, *last, *before, *after;
  char *name;
  mode_t mode;
  uint64_t held;
  unsigned children;
};

static struct node root = {.mode = S_IFDIR | 0755, .held = 1};
static struct node *buckets[BUCKETS];
static double valid;

static struct node *node_of(fuse_ino_t number) {
  return number == FUSE_ROOT_ID ? &root : (struct node *)(uintptr_t)number;
}

static fuse_ino_t number_of(struct node *node) {
  return node == &root ? FUSE_ROOT_ID : (fuse_ino_t)(uintptr_t)node;
}

// Returns where the pointer to a name's file stands, or would stand.
static struct node **place_of(struct node *above, const char *name) {
  uint64_t hash = (uintptr_t)above * 0x9E3779B97F4A7C15u;
  for (const char *at = name; *at; at++)
    hash = (hash ^ (unsigned char)*at) * 0x100000001B3u;
  struct node **place = &buckets[(hash >> 24) % BUCKETS];
  while (*place && ((*place)->above != above || strcmp((*place)->name, name) != 0))
    place = &(*place)->next;
  return place;
}

static struct stat stat_of(struct node *node) {
  struct stat found = {.st_ino = number_of(node), .st_mode = node->mode};
  found.st_nlink = node != &root && !node->above ? 0 : S_ISDIR(node->mode) ? 2 : 1;
  found.st_uid = getuid();
  found.st_gid = getgid();
  return found;
}

static struct fuse_entry_param entry_of(struct node *node) {
  node->held++;
  return (struct fuse_entry_param){
      .ino = number_of(node), .attr = stat_of(node), .attr_timeout = valid, .entry_timeout = valid};
}

static void drop_if_unused(struct node *node) {
  if (node != &root && !node->held && !node->above) {
    free(node->name);
    free(node);
  }
}

static void append(struct node *above, struct node *node) {
  node->before = above->last;
  node->after = NULL;
  *(above->last ? &above->last->after : &above->first) = node;
  above->last = node;
  above->children++;
}

static void take_out(struct node *above, struct node *node) {
  *(node->before ? &node->before->after : &above->first) = node->after;
  *(node->after ? &node->after->before : &above->last) = node->before;
  above->children--;
}

static void unlink_at(struct node **place) {
  struct node *node = *place;
  *place = node->next;
  take_out(node->above, node);
  node->above = NULL;
  drop_if_unused(node);
}

static void link_at(struct node *node, struct node *above, const char *name) {
  struct node **place = place_of(above, name);
  free(node->name);
  node->name = strdup(name);
  node->above = above;
  node->next = *place;
  *place = node;
  append(above, node);
}

static struct node *made(struct node *above, const char *name, mode_t mode) {
  struct node *node = calloc(1, sizeof *node);
  node->mode = mode;
  link_at(node, above, name);
  return node;
}

static void lookup(fuse_req_t request, fuse_ino_t above, const char *name) {
  struct node *node = *place_of(node_of(above), name);
  if (!node) {
    fuse_reply_err(request, ENOENT);
    return;
  }
  struct fuse_entry_param entry = entry_of(node);
  fuse_reply_entry(request, &entry);
}

static void forget(fuse_req_t request, fuse_ino_t number, uint64_t times) {
  struct node *node = node_of(number);
  node->held -= times;
  drop_if_unused(node);
  fuse_reply_none(request);
}

static void getattr(fuse_req_t request, fuse_ino_t number, struct fuse_file_info *file) {
  (void)file;
  struct stat found = stat_of(node_of(number));
  fuse_reply_attr(request, &found, valid);
}

static void make_directory(fuse_req_t request, fuse_ino_t above, const char *name, mode_t mode) {
  struct fuse_entry_param entry = entry_of(made(node_of(above), name, S_IFDIR | mode));
  fuse_reply_entry(request, &entry);
}

static void create(fuse_req_t request, fuse_ino_t above, const char *name, mode_t mode, struct fuse_file_info *file) {
  struct fuse_entry_param entry = entry_of(made(node_of(above), name, S_IFREG | mode));
  fuse_reply_create(request, &entry, file);
}

static void remove_name(fuse_req_t request, fuse_ino_t above, const char *name) {
  struct node **place = place_of(node_of(above), name);
  int fault = !*place ? ENOENT : (*place)->children ? ENOTEMPTY : 0;
  if (!fault)
    unlink_at(place);
  fuse_reply_err(request, fault);
}

static void move(fuse_req_t request, fuse_ino_t above, const char *name, fuse_ino_t to, const char *to_name, unsigned flags) {
  struct node **place = place_of(node_of(above), name), *node = *place;
  if (!node || flags) {
    fuse_reply_err(request, flags ? EINVAL : ENOENT);
    return;
  }
  node->held++;
  unlink_at(place);
  struct node **there = place_of(node_of(to), to_name);
  if (*there)
    unlink_at(there);
  link_at(node, node_of(to), to_name);
  node->held--;
  fuse_reply_err(request, 0);
}

// Lists a directory. An offset is the address of the child that was told last, so no child may go while it is listed.
static void list(fuse_req_t request, fuse_ino_t number, size_t size, off_t offset, struct fuse_file_info *file) {
  (void)file;
  struct node *above = node_of(number), *node = offset > 2 ? ((struct node *)(uintptr_t)offset)->after : above->first;
  char *text = malloc(size);
  size_t used = 0, len;
  for (off_t dots = offset; dots < 2; dots++) {
    struct stat found = stat_of(dots && above->above ? above->above : above);
    used += fuse_add_direntry(request, text + used, size - used, dots ? ".." : ".", &found, dots + 1);
  }
  for (; node; node = node->after, used += len) {
    struct stat found = stat_of(node);
    len = fuse_add_direntry(request, text + used, size - used, node->name, &found, (off_t)(uintptr_t)node);
    if (len > size - used)
      break;
  }
  fuse_reply_buf(request, text, used);
  free(text);
}

static void not_served(fuse_req_t request, fuse_ino_t number, struct fuse_file_info *file) {
  (void)number, (void)file;
  fuse_reply_err(request, ENOSYS);
}

static const struct fuse_lowlevel_ops calls = {
    .lookup = lookup,
    .forget = forget,
    .getattr = getattr,
    .mkdir = make_directory,
    .create = create,
    .unlink = remove_name,
    .rmdir = remove_name,
    .rename = move,
    .readdir = list,
    .open = not_served,
    .opendir = not_served,
    .flush = not_served,
    .release = not_served,
};

int main(int count, char **words) {
  if (count != 3)
    return 2;
  valid = atof(words[2]);
  char *options[] = {words[0], "-o", "default_permissions,fsname=twin", NULL};
  struct fuse_args args = FUSE_ARGS_INIT(3, options);
  struct fuse_session *session = fuse_session_new(&args, &calls, sizeof calls, NULL);
  if (!session || fuse_set_signal_handlers(session) || fuse_session_mount(session, words[1]))
    return 1;
  int status = fuse_session_loop(session);
  fuse_session_unmount(session);
  return status != 0;
}
