/* A disk that misbehaves, under the C library of a replica (LD_PRELOAD). Of each file in the folder $DISK it keeps what a power cut leaves for certain (FILE.disk: what was
   there at the last sync that succeeded) and which ranges were written since (FILE.written: pairs of 64-bit numbers, offset and count). Files in the folder $FAULTS
   switch faults on, by their names: `sync` (a sync fails, and what it was to write counts as written from then on, though it isn't), `write` (a write fails),
   `short` (a write writes half of its octets), `full` (a write finds no room), `hang` (a sync doesn't come back). */
#define _GNU_SOURCE
#include <dlfcn.h>
#include <errno.h>
#include <fcntl.h>
#include <pthread.h>
#include <stdio.h>
#include <stdlib.h>
#include <string.h>
#include <sys/stat.h>
#include <sys/types.h>
#include <unistd.h>

static pthread_mutex_t one_at_a_time = PTHREAD_MUTEX_INITIALIZER;

static int fault(const char *name) {
  char path[4096];
  const char *folder = getenv("FAULTS");
  snprintf(path, sizeof path, "%s/%s", folder ? folder : "/nonexistent", name);
  return access(path, F_OK) == 0;
}

/* Whether a descriptor is of a file of the folder, and the path of that. */
static int watched(int fd, char *path, size_t room) {
  char link[64];
  const char *folder = getenv("DISK");
  snprintf(link, sizeof link, "/proc/self/fd/%d", fd);
  ssize_t length = readlink(link, path, room - 1);
  if (!folder || length < 0) return 0;
  path[length] = 0;
  return strncmp(path, folder, strlen(folder)) == 0 && path[strlen(folder)] == '/';
}

static int beside(const char *path, const char *ending, int flags) {
  char name[4200];
  snprintf(name, sizeof name, "%s%s", path, ending);
  return open(name, flags | O_CLOEXEC, 0600);
}

static ssize_t real_pwrite(int fd, const void *octets, size_t count, off_t at) {
  static ssize_t (*real)(int, const void *, size_t, off_t);
  if (!real) real = (ssize_t (*)(int, const void *, size_t, off_t))dlsym(RTLD_NEXT, "pwrite64");
  return real(fd, octets, count, at);
}

static ssize_t real_write(int fd, const void *octets, size_t count) {
  static ssize_t (*real)(int, const void *, size_t);
  if (!real) real = (ssize_t (*)(int, const void *, size_t))dlsym(RTLD_NEXT, "write");
  return real(fd, octets, count);
}

/* What a write is to do: how many octets it writes; 0 with errno set where it fails. */
static size_t allowed(size_t count) {
  if (fault("write")) { errno = EIO; return 0; }
  if (fault("full")) { errno = ENOSPC; return 0; }
  return fault("short") && count > 1 ? count / 2 : count;
}

static ssize_t noted(const char *path, int fd, const void *octets, size_t count, off_t at) {
  count = allowed(count);
  if (count == 0) return -1;
  pthread_mutex_lock(&one_at_a_time);
  long long range[2] = {at, (long long)count};
  int list = beside(path, ".written", O_WRONLY | O_CREAT | O_APPEND);
  if (list >= 0) { if (real_write(list, range, sizeof range) < 0) {} close(list); }
  ssize_t written = real_pwrite(fd, octets, count, at);
  pthread_mutex_unlock(&one_at_a_time);
  return written;
}

ssize_t pwrite64(int fd, const void *octets, size_t count, off_t at) {
  char path[4096];
  return count && watched(fd, path, sizeof path) ? noted(path, fd, octets, count, at) : real_pwrite(fd, octets, count, at);
}

ssize_t pwrite(int fd, const void *octets, size_t count, off_t at) { return pwrite64(fd, octets, count, at); }

ssize_t write(int fd, const void *octets, size_t count) {
  char path[4096];
  if (!count || !watched(fd, path, sizeof path)) return real_write(fd, octets, count);
  off_t at = lseek(fd, 0, SEEK_CUR);
  ssize_t written = noted(path, fd, octets, count, at);
  if (written > 0) lseek(fd, at + written, SEEK_SET);
  return written;
}

/* The ranges that were written are on the disk from now on, or are forgotten. */
static void settle(const char *path, int fd, int is_written) {
  int list = beside(path, ".written", O_RDWR);
  int disk = beside(path, ".disk", O_RDWR | O_CREAT);
  long long range[2];
  static char piece[1 << 16];
  struct stat about;
  if (is_written && disk >= 0) {
    while (list >= 0 && read(list, range, sizeof range) == sizeof range)
      for (long long done = 0; done < range[1];) {
        long long left = range[1] - done;
        ssize_t got = pread(fd, piece, left < (long long)sizeof piece ? left : (long long)sizeof piece, range[0] + done);
        if (got <= 0) break;
        real_pwrite(disk, piece, got, range[0] + done);
        done += got;
      }
    if (fstat(fd, &about) == 0 && ftruncate(disk, about.st_size)) {}
  }
  if (list >= 0) { if (ftruncate(list, 0)) {} close(list); }
  if (disk >= 0) close(disk);
}

static int synced(int fd, int (*real)(int)) {
  char path[4096];
  if (!watched(fd, path, sizeof path)) return real(fd);
  while (fault("hang")) usleep(20000);
  int fails = fault("sync");
  pthread_mutex_lock(&one_at_a_time);
  settle(path, fd, !fails);
  pthread_mutex_unlock(&one_at_a_time);
  if (fails) { errno = EIO; return -1; }
  return 0;
}

int fdatasync(int fd) { return synced(fd, (int (*)(int))dlsym(RTLD_NEXT, "fdatasync")); }
int fsync(int fd) { return synced(fd, (int (*)(int))dlsym(RTLD_NEXT, "fsync")); }
