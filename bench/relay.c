/* A network between nodes on this machine that can be made to fail.

   relay COUNT PORT..   the ports at 127.0.0.1 of nodes 0 .. COUNT - 1

   For each node A and each other node B there is a socket that stands for B at A: what A sends there is handed on to B
   from the socket that stands for A at B, so each node sees one address for each other one. First a line `AT OF PORT` is
   written for each such socket, then a line `ready`. Commands come by lines, and each is answered by `ok`:

     loss P         loses each packet with a likelihood of P in 10,000
     bursts P MS    loses all of a link's packets for MS milliseconds, again and again, P in 10,000 of the time
     longest BYTES  loses packets that are longer
     cut A B        loses what A sends to B
     join A B       ends that
     delay MS       hands each packet on so many milliseconds after it came
     delay A B MS   does so with what A sends to B
     reorder P MS   hands a packet on up to MS milliseconds later than others, with a likelihood of P in 10,000
     hold A B       keeps what A sends to B and has a part of a control message in it; all else goes on
     release A B    hands that on, in the order in which it came, and keeps no more
     heads A B      of what A sends to B and has a part of a control message in it, hands on nothing but first fragments
     tails A B      of the same, hands on nothing but the other fragments
     whole A B      ends these two
     mend           ends all of these; what is under way comes when it would have come
     count A B      first writes a line of what A has sent to B so far: TAKEN LOST PACKED HEADS TAILS, the packets that
                    came, those that were lost, and of the others the bundles without a part of a control message, the
                    first fragments and the other fragments

   Packets are told by their first bytes: 20 or, of a release before, 17, and a kind, and what has neither is a datagram.
*/
#define _GNU_SOURCE
#include <arpa/inet.h>
#include <limits.h>
#include <stdint.h>
#include <stdio.h>
#include <stdlib.h>
#include <string.h>
#include <sys/epoll.h>
#include <sys/socket.h>
#include <time.h>
#include <unistd.h>

enum { NODES = 16, ROOM = 65536, BATCH = 64, SLOT = 16384, MOST_LATE = 1 << 18 };

/* The bytes that packets begin with, the kinds behind them, and where fragments have their index. */
enum { PACKED = 20, PACKED_BEFORE = 17, BUNDLE = 0, FRAGMENT = 1, INDEX_AT = 38, INDEX_AT_BEFORE = 10, PART = 3 };

/* Which fragments of a link are handed on. */
enum { WHOLE, HEADS, TAILS };

/* What a packet is, and a packet without a part of a control message in it is OTHER. */
enum { OTHER, HAS_PART, IS_HEAD, IS_TAIL };

struct link {
    int cut, holds, passes;
    long delay_ms, taken, lost, packed, heads, tails;
};

/* A packet that is handed on later; of two that are due together the one that came first is first. */
struct late {
    long due_us, order;
    int from, to;
    size_t length;
    unsigned char bytes[];
};

static const long NEVER = LONG_MAX;

static int count, sockets[NODES][NODES];
static struct sockaddr_in nodes[NODES];
static struct link links[NODES][NODES];
static long loss, bursts, burst_ms, longest = ROOM, reorder, reorder_ms;
static uint64_t state = 88172645463325252u;
static unsigned char bytes[BATCH][SLOT];
static struct late *late[MOST_LATE];
static long waiting, orders;

static uint64_t draw(void) {
    state ^= state << 13;
    state ^= state >> 7;
    return state ^= state << 17;
}

static long now_us(void) {
    struct timespec now;
    clock_gettime(CLOCK_MONOTONIC, &now);
    return now.tv_sec * 1000000 + now.tv_nsec / 1000;
}

/* ---- what is handed on later: a heap, the next one first */

static int is_before(const struct late *one, const struct late *other) {
    return one->due_us != other->due_us ? one->due_us < other->due_us : one->order < other->order;
}

static void swap(long one, long other) {
    struct late *kept = late[one];
    late[one] = late[other];
    late[other] = kept;
}

static void rise(long at) {
    for (; at > 0 && is_before(late[at], late[(at - 1) / 2]); at = (at - 1) / 2)
        swap(at, (at - 1) / 2);
}

static void sink(long at) {
    for (long next = 2 * at + 1; next < waiting; at = next, next = 2 * at + 1) {
        if (next + 1 < waiting && is_before(late[next + 1], late[next]))
            next++;
        if (!is_before(late[next], late[at]))
            return;
        swap(at, next);
    }
}

static int keep(int from, int to, const unsigned char *packet, size_t length, long due_us) {
    struct late *kept = waiting < MOST_LATE ? malloc(sizeof *kept + length) : NULL;
    if (!kept)
        return 0;
    *kept = (struct late){due_us, orders++, from, to, length};
    memcpy(kept->bytes, packet, length);
    late[waiting++] = kept;
    rise(waiting - 1);
    return 1;
}

static void send_due(void) {
    for (long now = now_us(); waiting > 0 && late[0]->due_us <= now;) {
        struct late *first = late[0];
        sendto(sockets[first->to][first->from], first->bytes, first->length, MSG_DONTWAIT,
               (struct sockaddr *)&nodes[first->to], sizeof nodes[first->to]);
        late[0] = late[--waiting];
        sink(0);
        free(first);
    }
}

static int ms_until_due(void) {
    if (waiting == 0 || late[0]->due_us == NEVER)
        return -1;
    long left = late[0]->due_us - now_us();
    return left > 0 ? (left + 999) / 1000 : 0;
}

static void release(int from, int to) {
    for (long at = 0; at < waiting; at++)
        if (late[at]->from == from && late[at]->to == to && late[at]->due_us == NEVER)
            late[at]->due_us = now_us();
    for (long at = waiting / 2; at >= 0; at--)
        sink(at);
    links[from][to].holds = 0;
}

/* ---- what becomes of a packet */

static int is_packed(const unsigned char *packet, long length) {
    return length >= 2 && (packet[0] == PACKED || packet[0] == PACKED_BEFORE);
}

static int kind_of(const unsigned char *packet, long length) {
    if (!is_packed(packet, length))
        return length > 0 && packet[0] == PART ? HAS_PART : OTHER;
    if (packet[1] == FRAGMENT) {
        long at = packet[0] == PACKED ? INDEX_AT : INDEX_AT_BEFORE;
        return length > at && packet[at] == 0 ? IS_HEAD : IS_TAIL;
    }
    for (long at = 2; at + 2 < length; at += 2 + packet[at] * 256 + packet[at + 1])
        if (packet[at + 2] == PART)
            return HAS_PART;
    return OTHER;
}

/* Each link has bursts of its own, which begin at another time. */
static int is_in_burst(int from, int to) {
    if (bursts == 0)
        return 0;
    long period = burst_ms * 10000 / bursts;
    return (now_us() / 1000 + (from * NODES + to) * 7919L) % period < burst_ms;
}

static int is_lost(int from, int to, long length, int kind) {
    const struct link *link = &links[from][to];
    if (link->passes != WHOLE && kind != OTHER && kind != (link->passes == HEADS ? IS_HEAD : IS_TAIL))
        return 1;
    return link->cut || length > longest || (long)(draw() % 10000) < loss || is_in_burst(from, to);
}

static long due_of(const struct link *link, int kind) {
    if (link->holds && kind != OTHER)
        return NEVER;
    long more_us = (long)(draw() % 10000) < reorder ? (long)(draw() % (uint64_t)(reorder_ms * 1000 + 1)) : 0;
    return link->delay_ms || more_us ? now_us() + link->delay_ms * 1000 + more_us : 0;
}

static void note(struct link *link, const unsigned char *packet, long length, int kind) {
    link->heads += kind == IS_HEAD;
    link->tails += kind == IS_TAIL;
    link->packed += kind == OTHER && is_packed(packet, length);
}

/* Returns whether a packet is to be handed on at once. */
static int is_due(int from, int to, const unsigned char *packet, long length) {
    struct link *link = &links[from][to];
    int kind = kind_of(packet, length);
    link->taken++;
    if (is_lost(from, to, length, kind)) {
        link->lost++;
        return 0;
    }
    long due_us = due_of(link, kind);
    if (due_us != 0 && !keep(from, to, packet, length, due_us)) {
        link->lost++;
        return 0;
    }
    note(link, packet, length, kind);
    return due_us == 0;
}

static int opened(int at, int of) {
    struct sockaddr_in address = {.sin_family = AF_INET, .sin_addr.s_addr = htonl(INADDR_LOOPBACK)};
    socklen_t size = sizeof address;
    int made = socket(AF_INET, SOCK_DGRAM | SOCK_NONBLOCK, 0), room = 1 << 22;
    setsockopt(made, SOL_SOCKET, SO_RCVBUF, &room, sizeof room);
    if (made < 0 || bind(made, (struct sockaddr *)&address, size) || getsockname(made, (struct sockaddr *)&address, &size))
        exit(1);
    printf("%d %d %d\n", at, of, ntohs(address.sin_port));
    return made;
}

/* Hands on what waits at the socket that stands for `to` at `from`. */
static void hand_on(int from, int to) {
    struct mmsghdr in[BATCH], out[BATCH];
    struct iovec room[BATCH];
    int kept = 0;
    memset(in, 0, sizeof in);
    for (int at = 0; at < BATCH; at++) {
        room[at] = (struct iovec){bytes[at], SLOT};
        in[at].msg_hdr.msg_iov = &room[at];
        in[at].msg_hdr.msg_iovlen = 1;
    }
    int got = recvmmsg(sockets[from][to], in, BATCH, MSG_DONTWAIT, NULL);
    for (int at = 0; at < got; at++) {
        if (!is_due(from, to, bytes[at], in[at].msg_len))
            continue;
        room[at].iov_len = in[at].msg_len;
        memset(&out[kept], 0, sizeof out[kept]);
        out[kept].msg_hdr = (struct msghdr){
            .msg_name = &nodes[to], .msg_namelen = sizeof nodes[to], .msg_iov = &room[at], .msg_iovlen = 1};
        kept++;
    }
    for (int sent = 0, more; sent < kept; sent += more > 0 ? more : 1)
        more = sendmmsg(sockets[to][from], out + sent, kept - sent, MSG_DONTWAIT);
}

/* ---- commands */

static void mend(void) {
    for (int at = 0; at < count; at++)
        for (int of = 0; of < count; of++) {
            if (links[at][of].holds)
                release(at, of);
            links[at][of].cut = links[at][of].passes = links[at][of].delay_ms = 0;
        }
    loss = bursts = reorder = 0;
    longest = ROOM;
}

static void delay_all(long ms) {
    for (int at = 0; at < NODES; at++)
        for (int of = 0; of < NODES; of++)
            links[at][of].delay_ms = ms;
}

/* Obeys a command that names a link; returns whether it is one. */
static int obey_of(const char *word, int from, int to) {
    struct link *link = &links[from][to];
    if (strcmp(word, "cut") == 0)
        link->cut = 1;
    else if (strcmp(word, "join") == 0)
        link->cut = 0;
    else if (strcmp(word, "hold") == 0)
        link->holds = 1;
    else if (strcmp(word, "release") == 0)
        release(from, to);
    else if (strcmp(word, "heads") == 0)
        link->passes = HEADS;
    else if (strcmp(word, "tails") == 0)
        link->passes = TAILS;
    else if (strcmp(word, "whole") == 0)
        link->passes = WHOLE;
    else if (strcmp(word, "count") == 0)
        printf("%ld %ld %ld %ld %ld\n", link->taken, link->lost, link->packed, link->heads, link->tails);
    else
        return 0;
    return 1;
}

static void obey(const char *line) {
    long one = 0, two = 0, three = 0;
    char word[16] = "";
    int numbers = sscanf(line, "%15s %ld %ld %ld", word, &one, &two, &three) - 1;
    int is_link = one >= 0 && one < NODES && two >= 0 && two < NODES;
    if (strcmp(word, "loss") == 0 && numbers == 1)
        loss = one;
    else if (strcmp(word, "bursts") == 0 && numbers == 2)
        bursts = one, burst_ms = two;
    else if (strcmp(word, "longest") == 0 && numbers == 1)
        longest = one;
    else if (strcmp(word, "delay") == 0 && numbers == 1)
        delay_all(one);
    else if (strcmp(word, "delay") == 0 && numbers == 3 && is_link)
        links[one][two].delay_ms = three;
    else if (strcmp(word, "reorder") == 0 && numbers == 2)
        reorder = one, reorder_ms = two;
    else if (strcmp(word, "mend") == 0)
        mend();
    else if (numbers != 2 || !is_link || !obey_of(word, one, two))
        exit(2);
    puts("ok");
    fflush(stdout);
}

int main(int words, char **word) {
    int wait = epoll_create1(0);
    struct epoll_event event = {.events = EPOLLIN};
    count = words > 1 ? atoi(word[1]) : 0;
    if (count < 2 || count > NODES || words != count + 2)
        return 2;
    for (int at = 0; at < count; at++)
        nodes[at] = (struct sockaddr_in){AF_INET, htons(atoi(word[at + 2])), {htonl(INADDR_LOOPBACK)}, {0}};
    for (int at = 0; at < count; at++)
        for (int of = 0; of < count; of++)
            if (at != of) {
                sockets[at][of] = opened(at, of);
                event.data.u64 = at * NODES + of;
                epoll_ctl(wait, EPOLL_CTL_ADD, sockets[at][of], &event);
            }
    event.data.u64 = NODES * NODES;
    epoll_ctl(wait, EPOLL_CTL_ADD, 0, &event);
    puts("ready");
    fflush(stdout);
    for (char line[256];;) {
        struct epoll_event ready[BATCH];
        int found = epoll_wait(wait, ready, BATCH, ms_until_due());
        send_due();
        for (int at = 0; at < found; at++) {
            if (ready[at].data.u64 < NODES * NODES)
                hand_on(ready[at].data.u64 / NODES, ready[at].data.u64 % NODES);
            else if (fgets(line, sizeof line, stdin))
                obey(line);
            else
                return 0;
        }
    }
}
