// The clients and the replicas of bench/waiting.py, each process with one epoll set.
//
//     waiting_load replica
//         Serves two ports, which it writes first, until its input ends. A reply is the letter of
//         its port, `a` or `b`, and the field l5d-dst-residual of the request, as `a/17`.
//     waiting_load hold PORT COUNT RATE
//         Opens COUNT connections, RATE a second, with a request on each. Then they are silent
//         until its input ends. Where all were answered, there is one request more on each, as many
//         a second. It writes what came of the first requests, and in the end of both.
//     waiting_load probe PORT COUNT RATE
//         Opens COUNT connections, RATE a second, and closes each once its request has its reply.
//     waiting_load busy PORT COUNT SECONDS
//         On each of COUNT connections a request follows each reply at once.
//     waiting_load paced PORT COUNT SECONDS
//         On each of COUNT connections there is a request a second.
//
// Clients write a line of JSON: how many requests were due, answered, answered wrongly, and lost
// with their connection; how many connections ended while no reply was due, and how many were
// opened anew behind a reply that closed; how long a reply took, in microseconds; and the first
// thing that was wrong. A reply is right where its letter fits its number, which is odd for `a`,
// and where the number is not below one that its connection was given before.

#define _GNU_SOURCE
#include <arpa/inet.h>
#include <ctype.h>
#include <errno.h>
#include <netinet/in.h>
#include <netinet/tcp.h>
#include <signal.h>
#include <stdbool.h>
#include <stdint.h>
#include <stdio.h>
#include <stdlib.h>
#include <string.h>
#include <sys/epoll.h>
#include <sys/socket.h>
#include <sys/timerfd.h>
#include <time.h>
#include <unistd.h>

#define SECOND 1000000000ull

enum {
    ROOM = 1024,          // of a reply, or of a request at the replica
    EVENTS = 512,         // of one wait
    QUEUE = 4096,         // of a replica's port
    SOURCES = 16,         // addresses that clients come from, so that ports don't run out
    PATIENCE = 15,        // seconds that the last replies may take
    MOST_CALLERS = 65536, // descriptors of a replica
};

// What an epoll set tells beside the places of clients, or the callers of a replica.
static const uint32_t TIMER = UINT32_MAX - 1, INPUT = UINT32_MAX;

static const char REQUEST[] = "GET / HTTP/1.1\r\nHost: web\r\n\r\n";

static int set;

static void fail(const char *what) {
    perror(what);
    exit(2);
}

static uint64_t now(void) {
    struct timespec time;
    clock_gettime(CLOCK_MONOTONIC, &time);
    return time.tv_sec * SECOND + time.tv_nsec;
}

static void watch(int descriptor, uint32_t events, uint32_t place) {
    struct epoll_event event = {.events = events, .data.u32 = place};
    if (epoll_ctl(set, EPOLL_CTL_ADD, descriptor, &event) < 0) fail("epoll_ctl");
}

static struct sockaddr_in loopback(uint8_t last, uint16_t port) {
    struct sockaddr_in address = {.sin_family = AF_INET, .sin_port = htons(port)};
    address.sin_addr.s_addr = htonl(0x7f000000u + last);
    return address;
}

// ---- replicas

struct caller {
    char letter;
    size_t length;
    char text[ROOM + 1];
};

static struct caller *callers[MOST_CALLERS];

static int port_of_its_own(uint16_t *port) {
    int socket_ = socket(AF_INET, SOCK_STREAM | SOCK_NONBLOCK, 0);
    struct sockaddr_in address = loopback(1, 0);
    socklen_t size = sizeof address;
    if (bind(socket_, (struct sockaddr *)&address, size) < 0) fail("bind");
    if (listen(socket_, QUEUE) < 0) fail("listen");
    if (getsockname(socket_, (struct sockaddr *)&address, &size) < 0) fail("getsockname");
    *port = ntohs(address.sin_port);
    return socket_;
}

static void let_in(int listening, char letter) {
    int one = 1, descriptor;
    while ((descriptor = accept4(listening, NULL, NULL, SOCK_NONBLOCK)) >= 0) {
        if (descriptor >= MOST_CALLERS) {
            close(descriptor);
            continue;
        }
        setsockopt(descriptor, IPPROTO_TCP, TCP_NODELAY, &one, sizeof one);
        struct caller *caller = malloc(sizeof *caller);
        if (!caller) fail("malloc");
        caller->letter = letter;
        caller->length = 0;
        callers[descriptor] = caller;
        watch(descriptor, EPOLLIN, descriptor);
    }
}

static void hang_up(int descriptor) {
    free(callers[descriptor]);
    callers[descriptor] = NULL;
    close(descriptor);
}

// Answers the request whose head this is. Whether the connection stays.
static bool answer(int descriptor, char letter, const char *head) {
    static const char FIELD[] = "\r\nl5d-dst-residual:";
    char body[64], reply[256];
    const char *value = strcasestr(head, FIELD);
    value = value ? value + strlen(FIELD) : "";
    while (*value == ' ') value++;
    int length = snprintf(body, sizeof body, "%c%.*s", letter, (int)strcspn(value, "\r\n"), value);
    int size = snprintf(reply, sizeof reply, "HTTP/1.1 200 OK\r\nContent-Length: %d\r\n\r\n%s",
                        length, body);
    bool is_sent = send(descriptor, reply, size, MSG_NOSIGNAL) == size;
    return is_sent && !strcasestr(head, "\r\nconnection: close");
}

static void hear(int descriptor) {
    struct caller *caller = callers[descriptor];
    ssize_t count = recv(descriptor, caller->text + caller->length, ROOM - caller->length, 0);
    if (count < 0 && errno == EAGAIN) return;
    if (count <= 0) {
        hang_up(descriptor);
        return;
    }
    caller->length += count;
    caller->text[caller->length] = 0;
    char *end;
    while ((end = strstr(caller->text, "\r\n\r\n"))) {
        *end = 0;
        if (!answer(descriptor, caller->letter, caller->text)) {
            hang_up(descriptor);
            return;
        }
        caller->length -= end + 4 - caller->text;
        memmove(caller->text, end + 4, caller->length + 1);
    }
}

static void be_replicas(void) {
    struct epoll_event events[EVENTS];
    uint16_t a, b;
    int for_a = port_of_its_own(&a), for_b = port_of_its_own(&b);
    watch(for_a, EPOLLIN, for_a);
    watch(for_b, EPOLLIN, for_b);
    watch(STDIN_FILENO, EPOLLIN, INPUT);
    printf("%d %d\n", a, b);
    fflush(stdout);
    while (true) {
        int count = epoll_wait(set, events, EVENTS, -1);
        for (int at = 0; at < count; at++) {
            uint32_t place = events[at].data.u32;
            if (place == INPUT) return;
            if ((int)place == for_a) let_in(for_a, 'a');
            else if ((int)place == for_b) let_in(for_b, 'b');
            else if (callers[place]) hear(place);
        }
    }
}

// ---- clients

enum kind { HOLD, PROBE, BUSY, PACED };

struct client {
    int socket; // -1 where there is none
    bool is_connected, waits;
    uint32_t due, sent; // requests
    uint32_t seen;      // the greatest number that it was given
    uint64_t since;     // when the request was due whose reply it waits for
    size_t length;
    char text[ROOM + 1];
};

static enum kind kind;
static uint16_t port;
static uint32_t count_of_clients, fired, total;
static uint64_t begin, gap, end;
static struct client *clients;
static uint64_t due, answered, wrong, lost, ended, reopened;
static bool is_again; // the silent ones ask once more
static uint64_t *times;
static size_t times_kept, times_room;
static char problem[256];

static void note_problem(const char *what, const char *text) {
    if (problem[0]) return;
    snprintf(problem, sizeof problem, "%s %.180s", what, text);
    for (char *at = problem; *at; at++)
        if (!isprint((unsigned char)*at) || *at == '"' || *at == '\\') *at = ' ';
}

static void keep_time(uint64_t time) {
    if (times_kept == times_room) {
        times_room = times_room ? 2 * times_room : 1 << 16;
        times = realloc(times, times_room * sizeof *times);
        if (!times) fail("realloc");
    }
    times[times_kept++] = time;
}

static void open_client(uint32_t place, uint64_t since) {
    struct client *client = &clients[place];
    int one = 1;
    client->socket = socket(AF_INET, SOCK_STREAM | SOCK_NONBLOCK, 0);
    if (client->socket < 0) fail("socket");
    struct sockaddr_in from = loopback(2 + place % SOURCES, 0), to = loopback(1, port);
    setsockopt(client->socket, IPPROTO_IP, IP_BIND_ADDRESS_NO_PORT, &one, sizeof one);
    setsockopt(client->socket, IPPROTO_TCP, TCP_NODELAY, &one, sizeof one);
    if (bind(client->socket, (struct sockaddr *)&from, sizeof from) < 0) fail("bind");
    client->is_connected = false;
    client->waits = false;
    client->since = since;
    client->length = 0;
    if (connect(client->socket, (struct sockaddr *)&to, sizeof to) < 0 && errno != EINPROGRESS)
        fail("connect");
    watch(client->socket, EPOLLIN | EPOLLOUT | EPOLLRDHUP | EPOLLET, place);
}

static void close_client(struct client *client) {
    close(client->socket);
    client->socket = -1;
    client->is_connected = client->waits = false;
}

// Sends a request that was due at this moment.
static void ask(struct client *client, uint64_t since) {
    client->sent++;
    client->since = since;
    client->waits = true;
    send(client->socket, REQUEST, strlen(REQUEST), MSG_NOSIGNAL);
}

// When a paced request was due.
static uint64_t due_at(uint32_t place, uint32_t request) {
    return begin + ((uint64_t)request * count_of_clients + place) * gap;
}

// One request more is due.
static void fire(uint32_t place, uint64_t moment) {
    struct client *client = &clients[place];
    if (is_again && client->socket < 0) return;
    client->due++;
    due++;
    if (client->socket < 0) open_client(place, moment);
    else if (client->is_connected && !client->waits) ask(client, moment);
}

// What follows a reply, or the end of a connection.
static void go_on(uint32_t place, uint64_t moment) {
    struct client *client = &clients[place];
    if (kind == BUSY && moment < end) {
        client->due++;
        due++;
    }
    if (client->sent == client->due) return;
    if (client->socket < 0) open_client(place, moment);
    else ask(client, kind == PACED ? due_at(place, client->sent) : moment);
}

static void connection_ended(uint32_t place, const char *what) {
    struct client *client = &clients[place];
    bool was_asked = client->waits || !client->is_connected;
    // A request that could not be sent counts as one that was.
    if (!client->is_connected) client->sent++;
    close_client(client);
    if (was_asked) {
        lost++;
        note_problem("lost:", what);
        if (kind == BUSY || kind == PACED) go_on(place, now());
    } else {
        ended++;
    }
}

// How many bytes the reply has that the text begins with, 0 where it goes on.
static size_t reply_length(const char *text, size_t length) {
    const char *head_end = strstr(text, "\r\n\r\n");
    if (!head_end) return 0;
    const char *field = strcasestr(text, "\r\ncontent-length:");
    size_t content = field && field < head_end ? strtoul(field + 17, NULL, 10) : 0;
    size_t whole = head_end + 4 - text + content;
    return whole <= length ? whole : 0;
}

static bool is_right(struct client *client, const char *text, size_t length) {
    char letter;
    unsigned number;
    int used = -1;
    const char *body = strstr(text, "\r\n\r\n") + 4;
    if (strncmp(text, "HTTP/1.1 200 ", 13) != 0) return false;
    if (sscanf(body, "%c/%u%n", &letter, &number, &used) != 2) return false;
    if (body + used != text + length) return false;
    if (letter != (number % 2 ? 'a' : 'b') || number < client->seen) return false;
    client->seen = number;
    return true;
}

static void take_reply(uint32_t place, size_t length) {
    struct client *client = &clients[place];
    uint64_t moment = now();
    if (client->length > length) {
        wrong++;
        note_problem("bytes behind a reply:", client->text + length);
    } else if (!is_right(client, client->text, length)) {
        char seen[ROOM + 64];
        snprintf(seen, sizeof seen, "after %u: %s", client->seen, client->text);
        wrong++;
        note_problem("wrong:", seen);
    }
    answered++;
    keep_time(moment - client->since);
    client->waits = false;
    client->length = 0;
    if (kind == PROBE) {
        close_client(client);
        return;
    }
    if (strcasestr(client->text, "\r\nconnection: close")) {
        reopened++;
        close_client(client);
    }
    go_on(place, moment);
}

static void client_has_news(uint32_t place, uint32_t events) {
    struct client *client = &clients[place];
    if (client->socket < 0) return;
    if (!client->is_connected && (events & EPOLLOUT) && !(events & (EPOLLERR | EPOLLHUP))) {
        client->is_connected = true;
        if (client->sent < client->due) ask(client, client->since);
    }
    if (!(events & ~(uint32_t)EPOLLOUT)) return;
    while (client->socket >= 0) {
        ssize_t count =
            recv(client->socket, client->text + client->length, ROOM - client->length, 0);
        if (count < 0 && errno == EAGAIN) return;
        if (count <= 0) {
            connection_ended(place, count < 0 ? strerror(errno) : "the connection was ended");
            return;
        }
        client->length += count;
        client->text[client->length] = 0;
        if (!client->waits) {
            wrong++;
            note_problem("bytes that nobody asked for:", client->text);
            close_client(client);
            return;
        }
        size_t length = reply_length(client->text, client->length);
        if (length) take_reply(place, length);
    }
}

static int compare(const void *left, const void *right) {
    uint64_t a = *(const uint64_t *)left, b = *(const uint64_t *)right;
    return (a > b) - (a < b);
}

static double microseconds_at(double share) {
    if (!times_kept) return 0;
    size_t at = share * times_kept;
    return times[at < times_kept ? at : times_kept - 1] / 1000.0;
}

static void report(double seconds) {
    if (times_kept) qsort(times, times_kept, sizeof *times, compare);
    printf("{\"due\": %lu, \"answered\": %lu, \"wrong\": %lu, \"lost\": %lu, \"ended\": %lu, "
           "\"reopened\": %lu, \"seconds\": %.3f, \"p50\": %.1f, \"p99\": %.1f, \"most\": %.1f, "
           "\"problem\": \"%s\"}\n",
           due, answered, wrong, lost, ended, reopened, seconds, microseconds_at(0.5),
           microseconds_at(0.99), microseconds_at(1), problem);
    fflush(stdout);
}

static bool is_over(uint64_t moment) {
    uint64_t last = kind == BUSY ? end : begin + total * gap;
    bool is_answered = fired == total && answered + lost == due && (kind != BUSY || moment >= end);
    return is_answered || moment >= last + PATIENCE * SECOND;
}

// The input has ended. Whether there is one request more on each connection.
static bool ask_again(void) {
    epoll_ctl(set, EPOLL_CTL_DEL, STDIN_FILENO, NULL);
    is_again = answered == due;
    begin = now();
    fired = times_kept = 0;
    return is_again;
}

static void be_clients(uint32_t seconds) {
    struct epoll_event events[EVENTS];
    int timer = timerfd_create(CLOCK_MONOTONIC, TFD_NONBLOCK);
    watch(timer, EPOLLIN | EPOLLET, TIMER);
    if (kind == HOLD) watch(STDIN_FILENO, EPOLLIN, INPUT);
    clients = calloc(count_of_clients, sizeof *clients);
    if (!clients) fail("calloc");
    for (uint32_t place = 0; place < count_of_clients; place++) clients[place].socket = -1;
    begin = now();
    end = begin + seconds * SECOND;
    bool is_silent = false;
    while (true) {
        uint64_t moment = now();
        while (fired < total && begin + fired * gap <= moment) {
            uint32_t place = fired++ % count_of_clients;
            fire(place, moment);
        }
        if (!is_silent && is_over(moment)) {
            report((moment - begin) / (double)SECOND);
            if (kind != HOLD || is_again) return;
            is_silent = true;
        }
        if (fired < total) {
            uint64_t next = begin + fired * gap;
            struct itimerspec at = {.it_value = {next / SECOND, next % SECOND}};
            timerfd_settime(timer, TFD_TIMER_ABSTIME, &at, NULL);
        }
        int count = epoll_wait(set, events, EVENTS, 100);
        for (int at = 0; at < count; at++) {
            uint32_t place = events[at].data.u32;
            if (place == INPUT) {
                if (!ask_again()) {
                    report(0);
                    return;
                }
                is_silent = false;
            } else if (place != TIMER) {
                client_has_news(place, events[at].events);
            }
        }
    }
}

int main(int argc, char **argv) {
    set = epoll_create1(0);
    if (set < 0) fail("epoll_create1");
    signal(SIGPIPE, SIG_IGN);
    if (argc == 2 && strcmp(argv[1], "replica") == 0) {
        be_replicas();
        return 0;
    }
    static const char *const KINDS[] = {"hold", "probe", "busy", "paced"};
    if (argc != 5) return 2;
    while (kind < 4 && strcmp(argv[1], KINDS[kind]) != 0) kind++;
    if (kind == 4) return 2;
    port = atoi(argv[2]);
    count_of_clients = atoi(argv[3]);
    uint32_t number = atoi(argv[4]);
    if (!port || !count_of_clients || !number) return 2;
    total = kind == PACED ? count_of_clients * number : count_of_clients;
    gap = kind == BUSY ? 0 : SECOND / (kind == PACED ? count_of_clients : number);
    be_clients(kind == BUSY ? number : 0);
    return 0;
}
