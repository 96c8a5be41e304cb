/* A store of nsf.h in a file, over POSIX: the other end of its line is a thread, which writes and syncs the file.
 *
 * None of this file is proved. What it is to do is what nsf.h asks of the other end of a line. It assumes that the file holds what
 * was written and synced, and that writing 512 bytes at a multiple of 512 harms no other sector: a disk of 512-byte sectors, or one
 * that keeps what it acknowledged if the power fails. Link with -pthread.
 *
 * The file is locked (flock) as long as it is open: a second opening is refused by NSF_SYSTEM and EWOULDBLOCK. Once it is closed, a child
 * of a fork has neither lock nor line. The thread takes no signals. Needs POSIX of 2008: under -std=c99, define _POSIX_C_SOURCE as
 * 200809L before the first header. */
#ifndef NSF_FILE_H
#define NSF_FILE_H

#include "nsf.h"

#include <errno.h>
#include <fcntl.h>
#include <pthread.h>
#include <signal.h>
#include <stdio.h>
#include <stdlib.h>
#include <string.h>
#include <sys/file.h>
#include <sys/socket.h>
#include <sys/stat.h>
#include <unistd.h>

#if !defined(_POSIX_C_SOURCE) || _POSIX_C_SOURCE < 200809L
#error "define _POSIX_C_SOURCE as 200809L before the first header: nsf_file.h needs POSIX of 2008"
#endif

typedef struct nsf_file {
    nsf_handle handle;
    int file;
    int line[2]; /* the store's end, and the thread's */
    pthread_t server;
} nsf_file;

static inline bool nsf_take_all(int from, uint8_t *bytes, size_t length)
{
    while (length > 0) {
        ssize_t got = read(from, bytes, length);
        if (got < 0 && errno == EINTR)
            continue;
        if (got <= 0)
            return false;
        bytes += got;
        length -= (size_t)got;
    }
    return true;
}

static inline bool nsf_put_all_at(int to, const uint8_t *bytes, size_t length, off_t at)
{
    while (length > 0) {
        ssize_t put = pwrite(to, bytes, length, at);
        if (put < 0 && errno == EINTR)
            continue;
        if (put <= 0)
            return false;
        bytes += put;
        length -= (size_t)put;
        at += put;
    }
    return true;
}

/* Does what is asked, and says so, until the store's end is closed. However it ends, a store that waits for an answer is told that none
 * will come. */
static inline void *nsf_file_serve(void *at)
{
    const nsf_file *f = (const nsf_file *)at;
    uint8_t asked[8 + NSF_SECTOR];
    ssize_t told = 1;
    while (told == 1 && nsf_take_all(f->line[1], asked, 8)) {
        uint64_t number = 0;
        bool done;
        for (int i = 7; i >= 0; i--)
            number = number << 8 | asked[i];
        if (number == UINT64_MAX)
            done = fdatasync(f->file) == 0;
        else if (nsf_take_all(f->line[1], asked + 8, NSF_SECTOR))
            done = nsf_put_all_at(f->file, asked + 8, NSF_SECTOR, (off_t)(number * NSF_SECTOR));
        else
            break;
        uint8_t answer = done ? 0 : 1;
        do
            told = write(f->line[1], &answer, 1);
        while (told < 0 && errno == EINTR);
    }
    shutdown(f->line[1], SHUT_WR);
    return NULL;
}

/* Starts a thread that takes no signals. Answers 0, or the number of the error. */
static inline int nsf_start_thread(pthread_t *thread, void *(*run)(void *), void *at)
{
    sigset_t all, before;
    sigfillset(&all);
    pthread_sigmask(SIG_BLOCK, &all, &before);
    int failed = pthread_create(thread, NULL, run, at);
    pthread_sigmask(SIG_SETMASK, &before, NULL);
    return failed;
}

static inline bool nsf_file_start(nsf_file *f)
{
    if (socketpair(AF_UNIX, SOCK_STREAM, 0, f->line) != 0)
        return false;
    fcntl(f->line[0], F_SETFD, FD_CLOEXEC);
    fcntl(f->line[1], F_SETFD, FD_CLOEXEC);
    int failed = nsf_start_thread(&f->server, nsf_file_serve, f);
    if (failed) {
        close(f->line[0]);
        close(f->line[1]);
        errno = failed;
        return false;
    }
    return true;
}

/* Unlocks the file, also for a child of a fork, and closes it. Leaves errno. */
static inline void nsf_file_leave(const nsf_file *f)
{
    int why = errno;
    flock(f->file, LOCK_UN);
    close(f->file);
    errno = why;
}

/* Ends the thread, behind all that it was asked, and closes the file. Leaves errno. */
static inline void nsf_file_stop(nsf_file *f)
{
    int why = errno;
    shutdown(f->line[0], SHUT_WR); /* a child of a fork may have this end too */
    pthread_join(f->server, NULL);
    close(f->line[0]);
    close(f->line[1]);
    errno = why;
    nsf_file_leave(f);
}

/* Syncs the folder that the path stands in, so that its names are safe. */
static inline bool nsf_sync_folder(const char *path)
{
    const char *end = strrchr(path, '/');
    char *folder = end ? strndup(path, end == path ? 1 : (size_t)(end - path)) : strdup(".");
    if (!folder)
        return false;
    int at = open(folder, O_RDONLY | O_CLOEXEC);
    free(folder);
    if (at < 0)
        return false;
    bool done = fsync(at) == 0;
    close(at);
    return done;
}

/* The name of the draft of a file, to be freed; NULL where memory is refused. */
static inline char *nsf_draft_of(const char *path)
{
    const size_t length = strlen(path) + sizeof ".nsf-draft";
    char *draft = (char *)malloc(length);
    if (draft)
        snprintf(draft, length, "%s.nsf-draft", path);
    return draft;
}

/* Whether the file that is open has this name. */
static inline bool nsf_has_name(int file, const char *path)
{
    struct stat found, named;
    return fstat(file, &found) == 0 && lstat(path, &named) == 0 && found.st_dev == named.st_dev && found.st_ino == named.st_ino;
}

/* Locks the draft, where it has its name still: whoever has that lock makes the file, or removes it. Else it is another's (EWOULDBLOCK). */
static inline bool nsf_own_draft(int file, const char *draft)
{
    if (flock(file, LOCK_EX | LOCK_NB) != 0)
        return false;
    errno = EWOULDBLOCK;
    return nsf_has_name(file, draft);
}

/* Whether the file begins as a draft does: with a store, plain or of blocks, or with zeros, as far as it has a first sector. */
static inline bool nsf_is_draft(int file)
{
    uint8_t first[NSF_SECTOR] = {0};
    size_t zeros = 0;
    if (pread(file, first, NSF_SECTOR, 0) < 0)
        return false;
    while (zeros < NSF_SECTOR && first[zeros] == 0)
        zeros++;
    return zeros == NSF_SECTOR || memcmp(first, "NSFINDEX", 8) == 0 || memcmp(first, "NSFBLOCK", 8) == 0;
}

/* Removes the draft of a creation that was cut off. It is refused by EWOULDBLOCK where another process makes the file now, and by EEXIST
 * where something else has the name. */
static inline bool nsf_remove_left(const char *draft)
{
    struct stat found;
    bool done = false;
    if (lstat(draft, &found) == 0 && !S_ISREG(found.st_mode)) {
        errno = EEXIST;
        return false;
    }
    int file = open(draft, O_RDONLY | O_CLOEXEC | O_NOFOLLOW | O_NONBLOCK);
    if (file < 0) {
        errno = errno == ENOENT ? EWOULDBLOCK : errno;
        return false;
    }
    if (nsf_own_draft(file, draft)) {
        errno = EEXIST;
        done = nsf_is_draft(file) && unlink(draft) == 0;
    }
    int why = errno;
    flock(file, LOCK_UN);
    close(file);
    errno = why;
    return done;
}

/* A new file of this name, in place of a draft that was left; -1 where it is refused. */
static inline int nsf_new_draft(const char *draft)
{
    const int flags = O_RDWR | O_CREAT | O_EXCL | O_CLOEXEC;
    int file = open(draft, flags, 0666);
    if (file < 0 && errno == EEXIST && nsf_remove_left(draft)) {
        file = open(draft, flags, 0666);
        if (file < 0 && errno == EEXIST)
            errno = EWOULDBLOCK;
    }
    return file;
}

/* Opens the file of the draft and locks it, with as many sectors of zeros as are asked for, all of them safe. */
static inline bool nsf_file_clear(nsf_file *f, const char *draft, uint64_t sectors)
{
    static const uint8_t zeros[NSF_SECTOR] = {0};
    f->file = nsf_new_draft(draft);
    if (f->file < 0)
        return false;
    const bool is_own = nsf_own_draft(f->file, draft);
    bool done = is_own;
    for (uint64_t n = 0; done && n < sectors; n++)
        done = nsf_put_all_at(f->file, zeros, NSF_SECTOR, (off_t)(n * NSF_SECTOR));
    done = done && fsync(f->file) == 0;
    if (!done) {
        int why = errno;
        if (is_own)
            unlink(draft);
        errno = why;
        nsf_file_leave(f);
    }
    return done;
}

/* Gives the file of the draft its name, which is safe then. Where it is refused, the file has its draft's name alone. */
static inline bool nsf_file_publish(const char *draft, const char *path)
{
    if (link(draft, path) != 0)
        return false;
    if (nsf_sync_folder(path) && unlink(draft) == 0)
        return true;
    int why = errno;
    unlink(path);
    errno = why;
    return false;
}

/* Makes the store in the file of the draft, and gives that its name. Where it is refused, the file is gone. */
static inline uint32_t nsf_file_make(nsf_file *f, const char *draft, const char *path, uint32_t pages, uint32_t entries, uint32_t slots)
{
    if (!nsf_file_clear(f, draft, nsf_sectors(pages, entries, slots)))
        return NSF_SYSTEM;
    const bool is_started = nsf_file_start(f);
    uint32_t refused = is_started ? nsf_create(&f->handle, f->line[0], pages, entries, slots) : (uint32_t)NSF_SYSTEM;
    if (!refused && !nsf_file_publish(draft, path)) {
        nsf_close(&f->handle);
        refused = NSF_SYSTEM;
    }
    if (refused) {
        int why = errno;
        unlink(draft); /* as long as it is locked: who has opened it by its name finds that it has none */
        errno = why;
        if (is_started)
            nsf_file_stop(f);
        else
            nsf_file_leave(f);
    }
    return refused;
}

/* Makes a store in a new file and opens it. Until it is made, the file has the name with .nsf-draft added, its draft, so that a crash meanwhile
 * leaves no half of a store. A draft that such a crash left is removed: one that nobody has open, and that begins with a store or with
 * zeros. Another file that has one of the names is left alone (EEXIST), and so is a draft that another process makes now (EWOULDBLOCK).
 * Where the call is refused, no other file is left. `f` stays where it is until nsf_file_close. */
static inline uint32_t nsf_file_create(nsf_file *f, const char *path, uint32_t pages, uint32_t entries, uint32_t slots)
{
    const nsf_handle vacant = NSF_VACANT;
    uint32_t refused = NSF_SYSTEM;
    f->handle = vacant;
    if (nsf_sectors(pages, entries, slots) == 0)
        return NSF_BAD_GEOMETRY;
    if (access(path, F_OK) == 0) {
        errno = EEXIST;
        return NSF_SYSTEM;
    }
    char *draft = nsf_draft_of(path);
    if (!draft)
        return NSF_SYSTEM;
    refused = nsf_file_make(f, draft, path, pages, entries, slots);
    int why = errno;
    free(draft);
    errno = why;
    return refused;
}

/* Whether the file can hold a store: by its kind and its length, and as it still has a name. */
static inline bool nsf_file_fits(const nsf_file *f, size_t *length)
{
    struct stat found;
    if (fstat(f->file, &found) != 0)
        return false;
    *length = (size_t)found.st_size;
    errno = found.st_nlink == 0 ? ENOENT : EINVAL;
    return found.st_nlink > 0 && S_ISREG(found.st_mode) && found.st_size >= NSF_SECTOR && found.st_size % NSF_SECTOR == 0
        && found.st_size <= (off_t)NSF_SECTOR << 23;
}

/* Ends the creation of a file that was cut off once the file had its name: the name of its draft goes, if the file has that too. */
static inline bool nsf_end_creation(int file, const char *path)
{
    char *draft = nsf_draft_of(path);
    const bool done = draft && (!nsf_has_name(file, draft) || unlink(draft) == 0);
    int why = errno;
    free(draft);
    errno = why;
    return done;
}

/* Reads the file, which is locked then. Its name and its bytes are safe: the folder is synced, if it may be read, and what was read is
 * written back and synced. After a sync that failed in an earlier process the system may show bytes that no disk has, and call them
 * safe. */
static inline uint8_t *nsf_file_read(nsf_file *f, const char *path, size_t *length)
{
    uint8_t *bytes = NULL;
    f->file = open(path, O_RDWR | O_CLOEXEC);
    if (f->file < 0)
        return NULL;
    if (flock(f->file, LOCK_EX | LOCK_NB) == 0 && nsf_file_fits(f, length) && nsf_end_creation(f->file, path)
        && (nsf_sync_folder(path) || errno == EACCES))
        bytes = (uint8_t *)malloc(*length);
    if (bytes && (lseek(f->file, 0, SEEK_SET) != 0 || !nsf_take_all(f->file, bytes, *length)
                  || !nsf_put_all_at(f->file, bytes, *length, 0) || fsync(f->file) != 0)) {
        int why = errno;
        free(bytes);
        errno = why;
        bytes = NULL;
    }
    if (!bytes)
        nsf_file_leave(f);
    return bytes;
}

/* Opens the store that the bytes hold under the handle, where its index fits its rows (nsf_can_open). */
static inline uint32_t nsf_open_sound(nsf_file *f, const uint8_t *bytes, size_t length)
{
    uint32_t refused = nsf_open(&f->handle, f->line[0], bytes, length);
    if (refused || nsf_can_open(&f->handle))
        return refused;
    nsf_close(&f->handle);
    return NSF_UNSOUND;
}

/* Opens the store in a file. One whose index isn't that of its rows is refused by NSF_UNSOUND. (To look at such a store, read the file and
 * call nsf_open.) `f` stays where it is until nsf_file_close. */
static inline uint32_t nsf_file_open(nsf_file *f, const char *path)
{
    const nsf_handle vacant = NSF_VACANT;
    size_t length = 0;
    uint32_t refused = NSF_SYSTEM;
    uint8_t *bytes = nsf_file_read(f, path, &length);
    f->handle = vacant;
    if (!bytes)
        return NSF_SYSTEM;
    if (nsf_file_start(f)) {
        refused = nsf_open_sound(f, bytes, length);
        if (refused)
            nsf_file_stop(f);
    } else {
        nsf_file_leave(f);
    }
    int why = errno;
    free(bytes);
    errno = why;
    return refused;
}

/* Closes the store and its file. What was not flushed is lost. Where none is open, as after a refused opening, or once it was closed, it
 * does nothing. */
static inline void nsf_file_close(nsf_file *f)
{
    if (!f->handle.at)
        return;
    nsf_close(&f->handle);
    nsf_file_stop(f);
}

#endif
