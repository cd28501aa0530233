/* The place of a store's file: a folder of the service's user, on a file system of this machine, and a name with the
 * machine's boot. */
#ifndef PLACE_H
#define PLACE_H

#include <dirent.h>
#include <errno.h>
#include <linux/magic.h>
#include <regex.h>
#include <sys/file.h>
#include <sys/vfs.h>

#include "store.h"

/* Where the system says which boot this is. */
#ifndef BOOT_FILE
#define BOOT_FILE "/proc/sys/kernel/random/boot_id"
#endif
/* What names a boot, and what SQLite puts after the name of a file. */
#define BOOT "[0-9A-Za-z-]{1,64}"
#define BESIDE "^\\.boot-" BOOT "(\\.new)?(-wal|-shm|-journal)?$"

struct place {
    char folder[PATH_SIZE], name[256], boot[80], path[2 * PATH_SIZE];
};

/* What a process has written to a file of these stays if the process is killed, and locks are seen by all processes.
 * The last three are zfs, bcachefs and jfs. */
static const unsigned long local_systems[] = {
    EXT4_SUPER_MAGIC, TMPFS_MAGIC,           RAMFS_MAGIC, XFS_SUPER_MAGIC, BTRFS_SUPER_MAGIC,
    F2FS_SUPER_MAGIC, OVERLAYFS_SUPER_MAGIC, 0x2fc12fc1,  0xca451a4e,      0x3153464a};

static inline bool fits(const char *pattern, const char *text)
{
    regex_t it;
    bool does;

    if (regcomp(&it, pattern, REG_EXTENDED | REG_NOSUB) != 0)
        give_up(pattern);
    does = regexec(&it, text, 0, NULL, 0) == 0;
    regfree(&it);
    return does;
}

static inline bool read_boot(char boot[80])
{
    FILE *file = fopen(BOOT_FILE, "r");

    boot[0] = 0;
    if (file != NULL) {
        if (fgets(boot, 80, file) != NULL)
            boot[strcspn(boot, "\n")] = 0;
        fclose(file);
    }
    return fits("^" BOOT "$", boot) || refuse(BOOT_FILE, "it doesn't name the machine's boot");
}

/* Finds the file that a path stands for. */
static inline bool find_place(const char *path, struct place *place)
{
    const char *slash = strrchr(path, '/');
    char folder[PATH_SIZE];

    snprintf(folder, sizeof folder, "%.*s", slash == NULL ? 1 : (int)(slash - path + 1), slash == NULL ? "." : path);
    snprintf(place->name, sizeof place->name, "%s", slash == NULL ? path : slash + 1);
    if (realpath(folder, place->folder) == NULL)
        return refuse(path, strerror(errno));
    if (!read_boot(place->boot))
        return false;
    snprintf(place->path, sizeof place->path, "%s/%s.boot-%s", place->folder, place->name, place->boot);
    return true;
}

static inline bool is_local(const struct place *place)
{
    struct statfs found;

    for (size_t at = 0; statfs(place->folder, &found) == 0 && at < sizeof local_systems / sizeof *local_systems; at++)
        if ((unsigned long)found.f_type == local_systems[at])
            return true;
    return refuse("file system", "the folder's isn't known to be on this machine");
}

/* Whether nobody else may write to the folder, or rename it. (In a folder with the sticky bit, as /tmp, nobody can
 * rename what others have there.) */
static inline bool is_safe(const struct place *place)
{
    char path[PATH_SIZE];
    struct stat found;
    bool is_outer = false;

    for (snprintf(path, sizeof path, "%s", place->folder);; *strrchr(path, '/') = 0, is_outer = true) {
        if (stat(*path == 0 ? "/" : path, &found) != 0)
            return refuse(path, strerror(errno));
        if ((found.st_mode & (S_IWGRP | S_IWOTH)) != 0 && !(is_outer && (found.st_mode & S_ISVTX) != 0))
            return refuse(*path == 0 ? "/" : path, "others than its owner may write to the folder");
        if (found.st_uid != 0 && found.st_uid != geteuid())
            return refuse("folder", "it belongs to another user");
        if (*path == 0 || strcmp(path, "/") == 0)
            return is_local(place);
    }
}

/* Whether the file is its owner's alone; and which it is. */
static inline bool is_our_file(const struct place *place, struct stat *found)
{
    if (lstat(place->path, found) != 0)
        return refuse(place->path, strerror(errno));
    return (S_ISREG(found->st_mode) && found->st_uid == geteuid() && (found->st_mode & 07777) == 0600) ||
           refuse("mode", "the file isn't one of this user with the mode 0600");
}

/* Locks the folder, and returns its descriptor, or -1 if that takes too long. */
static inline int lock_folder(const struct place *place, int64_t last)
{
    int opened = open(place->folder, O_RDONLY | O_DIRECTORY | O_CLOEXEC);

    while (opened >= 0 && flock(opened, LOCK_EX | LOCK_NB) != 0) {
        if (errno != EWOULDBLOCK || milliseconds() > last) {
            close(opened);
            return -1;
        }
        usleep(1000);
    }
    return opened;
}

/* Removes what earlier boots have left, and what is left of a file that was removed. */
static inline void remove_others(const struct place *place)
{
    DIR *listed = opendir(place->folder);
    size_t size = strlen(place->name);
    struct dirent *it;

    while (listed != NULL && (it = readdir(listed)) != NULL)
        if (strncmp(it->d_name, place->name, size) == 0 && fits(BESIDE, it->d_name + size))
            unlinkat(dirfd(listed), it->d_name, 0);
    if (listed != NULL)
        closedir(listed);
}

/* Makes the file, if there is none, under another name, and renames it. One process at a time makes it. */
static inline bool make_if_lacking(const struct place *place, int64_t last, bool (*make)(const char *, const char *))
{
    char new[sizeof place->path + 4];
    int locked = access(place->path, F_OK) == 0 ? -1 : lock_folder(place, last), opened;

    snprintf(new, sizeof new, "%s.new", place->path);
    if (locked >= 0 && access(place->path, F_OK) != 0) {
        remove_others(place);
        opened = open(new, O_CREAT | O_EXCL | O_RDWR | O_CLOEXEC, 0600);
        if (opened >= 0 && fchmod(opened, 0600) == 0 && close(opened) == 0 && make(new, place->boot))
            (void)rename(new, place->path);
    }
    if (locked >= 0)
        close(locked);
    return access(place->path, F_OK) == 0 || refuse(place->path, "it wasn't made, or not in time");
}

static inline bool is_there(const struct place *place, const struct stat *is)
{
    struct stat found;

    return (stat(place->path, &found) == 0 && found.st_dev == is->st_dev && found.st_ino == is->st_ino) ||
           refuse(place->path, "it was removed: start the services that use it again");
}

/* The key of a stamp in a file, to be freed, or NULL. A stamp's time, its last 8 bytes, comes first in it: so new ones
 * are added at the end of the file's order. */
static inline uint8_t *key_of(const uint8_t *stamp, size_t size)
{
    size_t time = size < 8 ? size : 8;
    uint8_t *key = malloc(size + 1);

    if (key != NULL) {
        memcpy(key, stamp + size - time, time);
        memcpy(key + time, stamp, size - time);
    }
    return key;
}

#endif
