/* A network between sites far apart, on one machine: carries packets between network namespaces, each after a time.

   router SPACE..   the namespaces of sites 0, 1, .., 2 to 15 of them, which `ip netns add` has made

   Makes a device `wan` in each namespace, and hands what a site sends to 10.77.0.(K + 1) to site K, UDP and TCP alike,
   when the way between them has taken its time. First a line `ready` is written. Commands come by lines, and each is
   answered by a line, `ok` where nothing else is said; A and B are sites, or `*` for each:

     delay A B US     the way from A to B takes so many microseconds
     jitter A B US    and for each packet up to so many more; the packets of a way stay in order
     scatter A B US   the same, and a packet may overtake those before it
     loss A B P       loses each packet with a likelihood of P in 1,000,000
     cut A            loses what A sends, and what is sent to it
     heal A           ends that
     counts           answers in JSON what was seen since `zero`: `late` and `latest` say by how many microseconds
                      packets were handed on too late, on average and at most, `full` counts those that found no room,
                      and each of `ways` has from, to, packets, their bytes, how many were UDP, and how many were lost
     zero             counts anew
     record FILE      writes what sites send into a file, as programs that show packets read it; `record -` ends that
*/
#define _GNU_SOURCE
#include <fcntl.h>
#include <linux/if.h>
#include <linux/if_tun.h>
#include <sched.h>
#include <stdint.h>
#include <stdio.h>
#include <stdlib.h>
#include <string.h>
#include <sys/epoll.h>
#include <sys/ioctl.h>
#include <sys/prctl.h>
#include <time.h>
#include <unistd.h>

enum { SITES = 15, LONGEST = 2048, BATCH = 64, ROOM = 1 << 20, UDP = 17, RAW_IP = 101 };

struct packet {
    uint64_t due, number;
    int to, length;
    struct packet *next;
    unsigned char bytes[LONGEST];
};

/* Times in nanoseconds. */
struct way {
    uint64_t delay, jitter, scatter, last_due;
    uint32_t loss;
    uint64_t packets, bytes, udp, lost;
};

static int sites, devices[SITES], is_cut[SITES];
static struct way ways[SITES][SITES];
static uint64_t late, latest, handed_on, full;
static FILE *recorded;

/* What waits: `heap[0]` is the packet that is due first. */
static struct packet *heap[ROOM], *unused;
static size_t waiting;
static uint64_t taken;

static uint64_t state = 88172645463325252u;

static uint32_t draw(void) {
    state ^= state << 13;
    state ^= state >> 7;
    state ^= state << 17;
    return state >> 16;
}

/* A time below `most`. */
static uint64_t drawn(uint64_t most) {
    return most ? draw() * most >> 32 : 0;
}

static uint64_t now(void) {
    struct timespec time;
    clock_gettime(CLOCK_MONOTONIC, &time);
    return time.tv_sec * 1000000000ull + time.tv_nsec;
}

static void stop(const char *what) {
    perror(what);
    exit(1);
}

static int opened(const char *space) {
    char path[256];
    struct ifreq request = {.ifr_name = "wan", .ifr_flags = IFF_TUN | IFF_NO_PI};
    snprintf(path, sizeof path, "/run/netns/%s", space);
    int into = open(path, O_RDONLY | O_CLOEXEC);
    if (into < 0 || setns(into, CLONE_NEWNET))
        stop(path);
    close(into);
    int made = open("/dev/net/tun", O_RDWR | O_NONBLOCK | O_CLOEXEC);
    if (made < 0 || ioctl(made, TUNSETIFF, &request))
        stop("/dev/net/tun");
    return made;
}

static struct packet *fresh(void) {
    struct packet *it = unused;
    if (it)
        unused = it->next;
    else if (!(it = malloc(sizeof *it)))
        stop("no memory");
    return it;
}

static void give_back(struct packet *it) {
    it->next = unused;
    unused = it;
}

static int is_before(const struct packet *one, const struct packet *other) {
    return one->due != other->due ? one->due < other->due : one->number < other->number;
}

static void add(struct packet *it) {
    size_t at = waiting++;
    for (; at > 0 && is_before(it, heap[(at - 1) / 2]); at = (at - 1) / 2)
        heap[at] = heap[(at - 1) / 2];
    heap[at] = it;
}

static struct packet *take_first(void) {
    struct packet *first = heap[0], *last = heap[--waiting];
    size_t at = 0;
    for (size_t below; (below = 2 * at + 1) < waiting; at = below) {
        if (below + 1 < waiting && is_before(heap[below + 1], heap[below]))
            below++;
        if (is_before(last, heap[below]))
            break;
        heap[at] = heap[below];
    }
    heap[at] = last;
    return first;
}

/* A packet in the file: seconds, microseconds, length in the file and in the network. */
static void record(const struct packet *it) {
    struct timespec time;
    clock_gettime(CLOCK_REALTIME, &time);
    uint32_t head[4] = {time.tv_sec, time.tv_nsec / 1000, it->length, it->length};
    fwrite(head, sizeof head, 1, recorded);
    fwrite(it->bytes, it->length, 1, recorded);
}

static void begin_record(const char *path) {
    struct {
        uint32_t mark;
        uint16_t major, minor;
        uint32_t zone, figures, longest, kind;
    } head = {0xa1b2c3d4, 2, 4, 0, 0, LONGEST, RAW_IP};
    if (recorded)
        fclose(recorded);
    recorded = strcmp(path, "-") ? fopen(path, "w") : NULL;
    if (recorded)
        fwrite(&head, sizeof head, 1, recorded);
}

/* The site that a packet is for, or none: other hosts than sites, and packets that no site sends. */
static int receiver(const struct packet *it, int from) {
    const unsigned char *bytes = it->bytes;
    if (it->length < 20 || bytes[0] >> 4 != 4 || bytes[16] != 10 || bytes[17] != 77 || bytes[18] != 0)
        return -1;
    int to = bytes[19] - 1;
    return to >= 0 && to < sites && to != from ? to : -1;
}

/* Has a packet wait for its time; answers whether it does. */
static int is_under_way(struct packet *it, int from) {
    it->to = receiver(it, from);
    if (it->to < 0)
        return 0;
    struct way *way = &ways[from][it->to];
    way->packets++;
    way->bytes += it->length;
    way->udp += it->bytes[9] == UDP;
    if (recorded)
        record(it);
    if (is_cut[from] || is_cut[it->to] || (way->loss && draw() < way->loss)) {
        way->lost++;
        return 0;
    }
    if (waiting == ROOM) {
        full++;
        return 0;
    }
    it->number = taken++;
    it->due = now() + way->delay + drawn(way->jitter);
    if (it->due < way->last_due)
        it->due = way->last_due;
    way->last_due = it->due;
    it->due += drawn(way->scatter);
    add(it);
    return 1;
}

static void take_from(int site) {
    for (int count = 0; count < BATCH; count++) {
        struct packet *it = fresh();
        it->length = read(devices[site], it->bytes, LONGEST);
        int is_there = it->length > 0;
        if (!is_there || !is_under_way(it, site))
            give_back(it);
        if (!is_there)
            return;
    }
}

/* Hands on all that is due; answers how long the next packet has to wait, a second at most. */
static uint64_t hand_on(void) {
    while (waiting) {
        uint64_t at = now();
        if (heap[0]->due > at)
            return heap[0]->due - at < 999999999 ? heap[0]->due - at : 999999999;
        struct packet *it = take_first();
        full += write(devices[it->to], it->bytes, it->length) != it->length;
        late += at - it->due;
        if (at - it->due > latest)
            latest = at - it->due;
        handed_on++;
        give_back(it);
    }
    return 999999999;
}

static void print_counts(void) {
    double mean = handed_on ? late / 1e3 / handed_on : 0;
    printf("{\"late\": %.1f, \"latest\": %.1f, \"full\": %lu, \"ways\": [", mean, latest / 1e3, full);
    for (int from = 0; from < sites; from++)
        for (int to = 0; to < sites; to++)
            if (from != to) {
                const struct way *it = &ways[from][to];
                const char *comma = from == 0 && to == 1 ? "" : ", ";
                printf("%s[%d, %d, %lu, %lu, %lu, %lu]", comma, from, to, it->packets, it->bytes, it->udp, it->lost);
            }
    puts("]}");
}

static void zero(void) {
    for (int from = 0; from < SITES; from++)
        for (int to = 0; to < SITES; to++) {
            struct way *it = &ways[from][to];
            it->packets = it->bytes = it->udp = it->lost = 0;
        }
    late = latest = handed_on = full = 0;
}

static int is_named(const char *word, int site) {
    return strcmp(word, "*") == 0 || atoi(word) == site;
}

static int is_set(struct way *it, const char *what, double value) {
    if (strcmp(what, "delay") == 0)
        it->delay = value * 1e3;
    else if (strcmp(what, "jitter") == 0)
        it->jitter = value * 1e3;
    else if (strcmp(what, "scatter") == 0)
        it->scatter = value * 1e3;
    else if (strcmp(what, "loss") == 0)
        it->loss = value * 4294.967295;
    else
        return 0;
    return 1;
}

/* A command about sites; answers whether it is one. */
static int is_obeyed(const char *what, const char *one, const char *other, double value, int words) {
    int is_known = words == 2 && (strcmp(what, "cut") == 0 || strcmp(what, "heal") == 0);
    for (int from = 0; from < sites; from++) {
        if (!is_named(one, from))
            continue;
        if (words == 2 && is_known)
            is_cut[from] = strcmp(what, "cut") == 0;
        for (int to = 0; to < sites && words == 4; to++)
            is_known |= is_named(other, to) && is_set(&ways[from][to], what, value);
    }
    return is_known;
}

static void obey(const char *line) {
    char what[16] = "", one[256] = "", other[16] = "";
    double value = 0;
    int words = sscanf(line, "%15s %255s %15s %lf", what, one, other, &value);
    if (strcmp(what, "counts") == 0) {
        print_counts();
        return;
    }
    if (strcmp(what, "zero") == 0)
        zero();
    else if (strcmp(what, "record") == 0)
        begin_record(one);
    else if (!is_obeyed(what, one, other, value, words))
        exit(2);
    puts("ok");
}

/* Takes the commands that have come; answers whether there may be more. */
static int obey_all(void) {
    static char text[4096];
    static size_t length;
    ssize_t got = read(0, text + length, sizeof text - 1 - length);
    if (got <= 0)
        return 0;
    length += got;
    text[length] = 0;
    char *line = text;
    for (char *end; (end = strchr(line, '\n')); line = end + 1) {
        *end = 0;
        obey(line);
    }
    length -= line - text;
    memmove(text, line, length);
    return 1;
}

int main(int words, char **word) {
    int wait = epoll_create1(EPOLL_CLOEXEC);
    struct epoll_event event = {.events = EPOLLIN}, ready[SITES + 1];
    sites = words - 1;
    if (sites < 2 || sites > SITES)
        return 2;
    prctl(PR_SET_TIMERSLACK, 1);
    setvbuf(stdout, NULL, _IOLBF, 0);
    for (int at = 0; at < sites; at++) {
        devices[at] = opened(word[at + 1]);
        event.data.u32 = at;
        epoll_ctl(wait, EPOLL_CTL_ADD, devices[at], &event);
    }
    event.data.u32 = SITES;
    epoll_ctl(wait, EPOLL_CTL_ADD, 0, &event);
    puts("ready");
    for (;;) {
        struct timespec pause = {0, hand_on()};
        int found = epoll_pwait2(wait, ready, SITES + 1, &pause, NULL);
        for (int at = 0; at < found; at++)
            if (ready[at].data.u32 < SITES)
                take_from(ready[at].data.u32);
            else if (!obey_all())
                return 0;
    }
}
