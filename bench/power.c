/* A disk that loses its power, in front of the system's calls of a node: `power.py` builds it and loads it.
 *
 * The log file is what the system's page cache shows: it has every write. Beside it stands an image of what the disk
 * has, which gets the written pages at each sync. When the power is lost, any subset of what was written since the last
 * sync reaches the disk, by whole sectors; the file has its old length, the new one or any between, and where it grew
 * without a write it has zeros, ones or what a removed file has left there; a name whose folder was not synced may be
 * gone. The process ends by SIGKILL.
 *
 * Environment:
 *   POWER_SEED   what is drawn from
 *   POWER_AT     the power is lost at the k-th call that opens, writes or syncs the log, or is the first to send after
 *                such a call; 0 for never
 *   POWER_LIES   where it is set, no sync keeps anything
 *   POWER_FAILS  from the k-th sync on, the first that is to keep the gate of an entry which ends in a later page fails
 *                with EIO and keeps nothing, and the system takes the gate's page as written; 0 for none
 *   POWER_SLOW   how many microseconds each sync takes; 0 for none
 *   POWER_MARK   a file that gets a line for each loss
 *
 * At SIGUSR1 the power is lost at one of the next 64 such calls; at a second one, at the next call of any kind.
 */

#define _GNU_SOURCE
#include <dlfcn.h>
#include <errno.h>
#include <fcntl.h>
#include <signal.h>
#include <stdarg.h>
#include <stdint.h>
#include <stdio.h>
#include <stdlib.h>
#include <string.h>
#include <sys/epoll.h>
#include <sys/socket.h>
#include <unistd.h>

#define NEXT(name) ((__typeof__(&name))dlsym(RTLD_NEXT, #name))
#define SECTOR 512
#define PAGE 4096
#define SOON 64
#define PIECES 4096

/* A write that was not synced. */
struct piece {
    size_t at, len;
    unsigned char *bytes;
};

static struct piece pieces[PIECES];
static int piece_count;
static unsigned char *image;
static size_t image_len, image_room;
/* Where the entry that was written last ends; zeros that are written ahead stand behind it. */
static size_t entry_end;
static int log_fd = -1, folder_fd = -1, is_name_new;
static char log_path[4096], image_path[4096 + 8];
static long calls, syncs, loss_at, failure_at, sync_time;
static int is_lying, has_sent;
static volatile sig_atomic_t signals;
static uint64_t state;

static void stop(const char *why) {
    dprintf(2, "power: %s\n", why);
    _exit(98);
}

static uint64_t draw(uint64_t below) {
    uint64_t x = state += 0x9e3779b97f4a7c15u;
    x = (x ^ (x >> 30)) * 0xbf58476d1ce4e5b9u;
    x = (x ^ (x >> 27)) * 0x94d049bb133111ebu;
    return (x ^ (x >> 31)) % below;
}

static long number_of(const char *name) {
    const char *text = getenv(name);
    return text ? atol(text) : 0;
}

static void on_signal(int number) {
    (void)number;
    signals++;
}

__attribute__((constructor)) static void begin(void) {
    state = (uint64_t)number_of("POWER_SEED");
    loss_at = number_of("POWER_AT");
    failure_at = number_of("POWER_FAILS");
    is_lying = getenv("POWER_LIES") != NULL;
    sync_time = number_of("POWER_SLOW");
    signal(SIGUSR1, on_signal);
}

static size_t log_len(void) {
    off_t len = lseek(log_fd, 0, SEEK_END);
    if (len < 0)
        stop("the log has no length");
    return (size_t)len;
}

static size_t smaller(size_t one, size_t other) { return one < other ? one : other; }

static void grow_image(size_t len) {
    if (len > image_room) {
        image_room = 2 * len + PAGE;
        image = realloc(image, image_room);
        if (!image)
            stop("no memory");
    }
    if (len > image_len)
        memset(image + image_len, 0, len - image_len);
    image_len = len;
}

static void read_into_image(const char *path) {
    int from = NEXT(open)(path, O_RDONLY);
    off_t len = from < 0 ? -1 : lseek(from, 0, SEEK_END);
    if (len < 0)
        stop("the log cannot be read");
    grow_image((size_t)len);
    if (NEXT(pread)(from, image, (size_t)len, 0) != len)
        stop("the log cannot be read");
    NEXT(close)(from);
}

/* What a log holds when it is opened is on the disk, unless a sync of it has failed before. */
static void take_image(void) {
    snprintf(image_path, sizeof image_path, "%s.disk", log_path);
    read_into_image(access(image_path, R_OK) == 0 ? image_path : log_path);
}

static void forget_pieces(void) {
    while (piece_count > 0)
        free(pieces[--piece_count].bytes);
}

/* A sync that keeps what it says: each page that was written to, and the length. */
static void keep_pages(void) {
    grow_image(log_len());
    for (int k = 0; k < piece_count; k++) {
        size_t from = pieces[k].at / PAGE * PAGE;
        size_t to = smaller((pieces[k].at + pieces[k].len + PAGE - 1) / PAGE * PAGE, image_len);
        if (NEXT(pread)(log_fd, image + from, to - from, (off_t)from) != (ssize_t)(to - from))
            stop("the log cannot be read");
    }
    forget_pieces();
}

/* A sync that fails: the system takes the pages as written, and the disk has none of them. */
static void drop_pages(void) {
    int to = NEXT(open)(image_path, O_WRONLY | O_CREAT | O_TRUNC, 0600);
    if (to < 0 || NEXT(write)(to, image, image_len) != (ssize_t)image_len)
        stop("the image cannot be written");
    NEXT(close)(to);
    forget_pieces();
}

/* Bytes that no write has put where the file has grown. */
static void fill(size_t from, size_t to) {
    uint64_t kind = draw(3);
    for (size_t k = from; k < to; k++)
        image[k] = kind == 0 ? 0 : kind == 1 ? 1 : (unsigned char)draw(256);
}

/* Lets some sectors of the unsynced writes reach the image; answers how many of all. */
static void let_some_through(size_t *kept, size_t *all) {
    uint64_t quarters = draw(5);
    for (int k = 0; k < piece_count; k++) {
        size_t at = pieces[k].at, end = at + pieces[k].len;
        while (at < end) {
            size_t next = smaller((at / SECTOR + 1) * SECTOR, end);
            *all += 1;
            if (draw(4) < quarters) {
                *kept += 1;
                if (at < image_len)
                    memcpy(image + at, pieces[k].bytes + (at - pieces[k].at), smaller(next, image_len) - at);
            }
            at = next;
        }
    }
}

static void write_image(void) {
    if (NEXT(pwrite)(log_fd, image, image_len, 0) != (ssize_t)image_len ||
        NEXT(ftruncate)(log_fd, (off_t)image_len) != 0)
        stop("the log cannot be written");
}

static void note(const char *call, size_t kept, size_t all, size_t was, size_t top, int is_name_lost) {
    const char *mark = getenv("POWER_MARK");
    int to = mark ? NEXT(open)(mark, O_WRONLY | O_CREAT | O_APPEND, 0600) : -1;
    if (to >= 0)
        dprintf(to, "%s %ld %zu %zu %zu %zu %zu %d\n", call, calls, kept, all, was, image_len, top, is_name_lost);
}

static void lose_power(const char *call) {
    size_t kept = 0, all = 0;
    if (log_fd >= 0) {
        size_t was = image_len, top = log_len();
        uint64_t length = top > was ? draw(4) : 0;
        size_t len = length == 0 ? was : length == 1 ? top : was + (size_t)draw(top - was + 1);
        grow_image(len);
        fill(was, len);
        let_some_through(&kept, &all);
        write_image();
        int is_name_lost = is_name_new && draw(2) == 0;
        if (is_name_lost)
            unlink(log_path);
        unlink(image_path);
        note(call, kept, all, was, top, is_name_lost);
    }
    kill(getpid(), SIGKILL);
    for (;;)
        pause();
}

/* Where a signal came twice, this is the moment. */
static void look(const char *call) {
    if (signals == 1 && loss_at <= calls)
        loss_at = calls + 1 + (long)draw(SOON);
    if (signals > 1)
        lose_power(call);
}

static void count(const char *call) {
    look(call);
    has_sent = strcmp(call, "sendto") == 0;
    if (++calls == loss_at)
        lose_power(call);
}

int open(const char *path, int flags, ...) {
    va_list more;
    va_start(more, flags);
    mode_t mode = flags & O_CREAT ? va_arg(more, mode_t) : 0;
    va_end(more);
    size_t len = strlen(path);
    int is_log = len > 4 && len < sizeof log_path && strcmp(path + len - 4, ".log") == 0;
    int is_new = is_log && access(path, F_OK) != 0;
    int fd = NEXT(open)(path, flags, mode);
    if (is_log && fd >= 0) {
        strcpy(log_path, path);
        log_fd = fd;
        is_name_new = is_new;
        take_image();
        count("open");
    } else if (strcmp(path, ".") == 0) {
        folder_fd = fd;
    }
    return fd;
}

int close(int fd) {
    log_fd = fd == log_fd ? -1 : log_fd;
    folder_fd = fd == folder_fd ? -1 : folder_fd;
    return NEXT(close)(fd);
}

ssize_t pwrite(int fd, const void *of, size_t size, off_t from) {
    ssize_t done = NEXT(pwrite)(fd, of, size, from);
    if (fd != log_fd || done <= 0)
        return done;
    if (piece_count == PIECES) {
        if (!is_lying)
            stop("too many writes without a sync");
        forget_pieces();
    }
    struct piece *new = &pieces[piece_count++];
    new->at = (size_t)from;
    new->len = (size_t)done;
    new->bytes = malloc((size_t)done);
    if (!new->bytes)
        stop("no memory");
    memcpy(new->bytes, of, (size_t)done);
    if (done > 1)
        entry_end = new->at + new->len;
    count("pwrite");
    return done;
}

int ftruncate(int fd, off_t len) {
    if (fd == log_fd)
        stop("the log is cut, which this library does not know");
    return NEXT(ftruncate)(fd, len);
}

/* Whether what is not synced is the gate of an entry that ends in a later page, or of one that was there at the start. */
static int is_gate_alone(void) {
    return piece_count == 1 && pieces[0].len == 1 && pieces[0].at / PAGE != (entry_end - 1) / PAGE;
}

static int sync_it(int fd, const char *call, int (*next)(int)) {
    if (fd != log_fd && fd != folder_fd)
        return next(fd);
    count(call);
    if (sync_time > 0)
        usleep(sync_time);
    if (++syncs >= failure_at && failure_at > 0 && fd == log_fd && is_gate_alone()) {
        failure_at = 0;
        drop_pages();
        errno = EIO;
        return -1;
    }
    if (!is_lying && fd == log_fd)
        keep_pages();
    if (!is_lying && fd == folder_fd)
        is_name_new = 0;
    return 0;
}

int fsync(int fd) { return sync_it(fd, "fsync", NEXT(fsync)); }
int fdatasync(int fd) { return sync_it(fd, "fdatasync", NEXT(fdatasync)); }

ssize_t write(int fd, const void *of, size_t size) {
    if (fd == log_fd)
        stop("the log is written to without a place, which this library does not know");
    look("write");
    return NEXT(write)(fd, of, size);
}

ssize_t sendto(int fd, const void *of, size_t size, int flags, const struct sockaddr *to, socklen_t len) {
    if (has_sent)
        look("sendto");
    else
        count("sendto");
    return NEXT(sendto)(fd, of, size, flags, to, len);
}

int epoll_wait(int fd, struct epoll_event *events, int most, int wait) {
    int got = NEXT(epoll_wait)(fd, events, most, wait);
    look("epoll_wait");
    if (got < 0 && errno == EINTR)
        got = 0;
    return got;
}
