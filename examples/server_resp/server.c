/* A server that speaks Redis's protocol and keeps its values in a store, which serves them while
 * fragments are lost:
 *
 *     server PORT WIDTH [THREADS]
 *
 * Port 0 stands for any. It prints its port once it serves, and ends at SIGINT and SIGTERM. Each of
 * its threads, as many as processors if that is left out, serves many connections by a session of
 * each shard. It knows PING, ECHO, SET, GET, STRLEN, EXISTS, DEL, DBSIZE, INFO, COMMAND, CONFIG GET
 * and QUIT; and of its own LOSE key stripe fragment, and MEND. A command with other words than
 * these take, such as an option of SET or a second key of DEL, is refused and does nothing. */
#define _GNU_SOURCE
#include "lrc_store.h"

#include <arpa/inet.h>
#include <errno.h>
#include <inttypes.h>
#include <netinet/tcp.h>
#include <poll.h>
#include <pthread.h>
#include <signal.h>
#include <stdio.h>
#include <stdlib.h>
#include <string.h>
#include <strings.h>
#include <sys/epoll.h>
#include <sys/eventfd.h>
#include <sys/signalfd.h>
#include <sys/socket.h>
#include <time.h>
#include <unistd.h>

enum { MOST_WORDS = 8, READ_AT_ONCE = 65536, MOST_BYTES = 64 << 20, RUNS = 16, SHARDS = 16 };
/* Of the 64 sessions of a shard, half are left for MEND, INFO and DBSIZE. */
enum { MOST_THREADS = 32, EVENTS_AT_ONCE = 64 };
/* From how many bytes on a value is received into memory of the store. */
enum { LARGE = 65536 };
/* With so many bytes of replies that are not sent, a client gets no further command. */
enum { MOST_UNSENT = 1 << 20 };
/* A line such as "$5" has at most so many bytes. */
enum { MOST_LINE = 32 };
/* How long the server waits to accept if it can have no further file. */
enum { PAUSE_NS = 100000000 };

struct bytes {
    char *at;
    size_t len, room;
};

struct word {
    const char *at;
    size_t len;
};

/* A thread: its epoll instance, what wakes it to end, its session of each shard, once it had to do
 * with the shard, and its clients, which the thread that accepts adds. */
struct worker {
    pthread_t thread;
    int events, wake;
    lrc_shards *shards;
    lrc_slot *sessions[SHARDS];
    pthread_mutex_t mutex; /* of the list */
    struct client *clients;
};

/* The name of a key, and the session of its shard. */
struct key {
    uint8_t name[LRC_STORE_NAME_LEN];
    lrc_slot *session;
};

/* A large value that is on its way. If there is none, the slot is empty and the buffer has no
 * bytes. */
struct value {
    struct key key;
    lrc_slot slot;
    lrc_buffer buffer;
    size_t filled;
};

static const lrc_buffer NO_BUFFER = {(uint8_t *)"", 0};

struct client {
    int socket;
    struct worker *worker;
    struct client *next, *before; /* in the worker's list */
    struct bytes in, out;
    struct value value;
    size_t sent;   /* of `out` */
    int has_more;  /* whether commands of `in` wait until replies are sent */
    int is_paused; /* whether it waits until the socket takes more, and receives nothing */
    int is_over;
};

/* ---- bytes */

static int reserve(struct bytes *bytes, size_t more) {
    size_t room = bytes->room ? bytes->room : READ_AT_ONCE;
    while (room - bytes->len < more) room *= 2;
    if (room == bytes->room) return 1;
    char *at = realloc(bytes->at, room);
    if (!at) return 0;
    bytes->at = at;
    bytes->room = room;
    return 1;
}

/* Frees what an idle client would keep of a large command or reply. */
static void shrink(struct bytes *bytes) {
    if (bytes->len || bytes->room <= READ_AT_ONCE) return;
    free(bytes->at);
    *bytes = (struct bytes){NULL, 0, 0};
}

static void append(struct client *client, const void *at, size_t len) {
    if (!reserve(&client->out, len)) {
        client->is_over = 1;
        return;
    }
    memcpy(client->out.at + client->out.len, at, len);
    client->out.len += len;
}

static void say(struct client *client, const char *text) { append(client, text, strlen(text)); }

static void say_number(struct client *client, char kind, uint64_t number) {
    char text[24], *at = text + sizeof text;
    *--at = '\n';
    *--at = '\r';
    do *--at = (char)('0' + number % 10);
    while (number /= 10);
    *--at = kind;
    append(client, at, (size_t)(text + sizeof text - at));
}

static void say_bulk(struct client *client, const void *at, size_t len) {
    say_number(client, '$', len);
    append(client, at, len);
    say(client, "\r\n");
}

static void say_error(struct client *client, uint32_t status) {
    say(client, "-ERR ");
    say(client, lrc_store_text(status));
    say(client, "\r\n");
}

static void say_status(struct client *client, uint32_t status) {
    if (status)
        say_error(client, status);
    else
        say(client, "+OK\r\n");
}

/* ---- commands */

static void set(struct client *client, const struct key *key, const struct word *words) {
    uint64_t version;
    say_status(client,
               lrc_store_put_wait(key->session, key->name, sizeof key->name,
                                  (const uint8_t *)words[2].at, words[2].len, 12, &version, -1));
}

/* Sends a value that is lent. */
static void say_lent(struct client *client, lrc_slot *whole, uint64_t len) {
    lrc_slice runs[RUNS];
    uint64_t count = RUNS, at = 0;
    say_number(client, '$', len);
    while (count == RUNS) {
        for (int i = 0; i < RUNS; i++) runs[i] = (lrc_slice){(const uint8_t *)"", 0};
        lrc_slot_runs(whole, at, runs, RUNS, &count);
        for (uint64_t i = 0; i < count; i++, at += runs[i - 1].len)
            append(client, runs[i].at, runs[i].len);
    }
    say(client, "\r\n");
}

static void get(struct client *client, const struct key *key, const struct word *words) {
    lrc_slot whole = LRC_SLOT_EMPTY;
    uint64_t version, len, pieces;
    const uint32_t status = lrc_store_get_wait(key->session, key->name, sizeof key->name, &whole,
                                               &version, &len, &pieces, -1);
    if (status == LRC_STORE_DONE)
        say_lent(client, &whole, len);
    else if (status == LRC_STORE_NO_NAME)
        say(client, "$-1\r\n");
    else
        say_error(client, status);
    lrc_slot_release(&whole);
    (void)words;
}

/* The length of a key's value, and whether it has one. Says an error itself. */
static int measured(struct client *client, const struct key *key, uint64_t *len, int *exists) {
    uint64_t version, stripes, lost;
    const uint32_t status = lrc_store_stat_wait(key->session, key->name, sizeof key->name, &version,
                                                len, &stripes, &lost, -1);
    *exists = status == LRC_STORE_DONE;
    if (*exists || status == LRC_STORE_NO_NAME) return 1;
    say_error(client, status);
    return 0;
}

static void say_length(struct client *client, const struct key *key, const struct word *words) {
    uint64_t len = 0;
    int exists;
    if (measured(client, key, &len, &exists)) say_number(client, ':', len);
    (void)words;
}

static void say_presence(struct client *client, const struct key *key, const struct word *words) {
    uint64_t len;
    int exists;
    if (measured(client, key, &len, &exists)) say_number(client, ':', (uint64_t)exists);
    (void)words;
}

static void delete (struct client *client, const struct key *key, const struct word *words) {
    uint64_t version;
    const uint32_t status =
        lrc_store_delete_wait(key->session, key->name, sizeof key->name, &version, -1);
    if (status == LRC_STORE_DONE || status == LRC_STORE_NO_NAME)
        say_number(client, ':', status == LRC_STORE_DONE);
    else
        say_error(client, status);
    (void)words;
}

/* Whether a word is a number of decimal digits, which is written. */
static int is_number(struct word word, uint64_t *number) {
    *number = 0;
    for (size_t i = 0; i < word.len; i++) {
        const unsigned digit = (unsigned char)word.at[i] - '0';
        if (digit > 9 || *number > (UINT64_MAX - digit) / 10) return 0;
        *number = 10 * *number + digit;
    }
    return word.len > 0;
}

static void lose(struct client *client, const struct key *key, const struct word *words) {
    uint64_t version, stripe, fragment;
    if (is_number(words[2], &stripe) && is_number(words[3], &fragment))
        say_status(client, lrc_store_lose_wait(key->session, key->name, sizeof key->name, stripe,
                                               fragment, &version, -1));
    else
        say(client, "-ERR a stripe or a fragment is no number\r\n");
}

static void mend(struct client *client, const struct word *words) {
    uint64_t repaired = 0;
    const uint32_t status = lrc_shards_mend(client->worker->shards, &repaired, -1);
    (void)words;
    if (status)
        say_error(client, status);
    else
        say_number(client, ':', repaired);
}

static void count_keys(struct client *client, const struct word *words) {
    lrc_numbers numbers;
    (void)words;
    const uint32_t status = lrc_shards_numbers(client->worker->shards, &numbers, -1);
    if (status)
        say_error(client, status);
    else
        say_number(client, ':', numbers.blobs);
}

static void inform(struct client *client, const struct word *words) {
    lrc_numbers numbers;
    char text[256];
    (void)words;
    const uint32_t status = lrc_shards_numbers(client->worker->shards, &numbers, -1);
    if (status) {
        say_error(client, status);
        return;
    }
    const int len =
        snprintf(text, sizeof text,
                 "# lrcstore\r\nblobs:%" PRIu64 "\r\nbytes:%" PRIu64 "\r\nlost_fragments:%" PRIu64
                 "\r\nunrecoverable_stripes:%" PRIu64 "\r\ncalls:%" PRIu64 "\r\n",
                 numbers.blobs, numbers.bytes, numbers.lost, numbers.unrecoverable, numbers.calls);
    say_bulk(client, text, (size_t)len);
}

static void echo(struct client *client, const struct word *words) {
    say_bulk(client, words[1].at, words[1].len);
}

static void pong(struct client *client, const struct word *words) {
    if (words[1].at)
        echo(client, words);
    else
        say(client, "+PONG\r\n");
}

static int is_word(struct word word, const char *text) {
    return strlen(text) == word.len && !strncasecmp(text, word.at, word.len);
}

/* What clients ask for when they connect, and can do without: COMMAND [DOCS], CONFIG GET. */
static void say_empty_list(struct client *client, const struct word *words) {
    if (!words[1].at || is_word(words[1], "DOCS") || is_word(words[1], "GET"))
        say(client, "*0\r\n");
    else
        say(client, "-ERR unknown command\r\n");
}

static void quit(struct client *client, const struct word *words) {
    (void)words;
    say(client, "+OK\r\n");
    client->is_over = 1;
}

/* A command of a key has the second function, which gets a session of the key's shard. */
static const struct command {
    const char *word;
    size_t least, most; /* words, with its own */
    void (*run)(struct client *client, const struct word *words);
    void (*run_at)(struct client *client, const struct key *key, const struct word *words);
} commands[] = {
    {"GET", 2, 2, NULL, get},
    {"SET", 3, 3, NULL, set},
    {"DEL", 2, 2, NULL, delete},
    {"STRLEN", 2, 2, NULL, say_length},
    {"EXISTS", 2, 2, NULL, say_presence},
    {"LOSE", 4, 4, NULL, lose},
    {"MEND", 1, 1, mend, NULL},
    {"DBSIZE", 1, 1, count_keys, NULL},
    {"INFO", 1, 1, inform, NULL},
    {"PING", 1, 2, pong, NULL},
    {"ECHO", 2, 2, echo, NULL},
    {"COMMAND", 1, MOST_WORDS, say_empty_list, NULL},
    {"CONFIG", 3, MOST_WORDS, say_empty_list, NULL},
    {"QUIT", 1, 1, quit, NULL},
};

/* The name of a key, and the worker's session of its shard, which it takes once and keeps. */
static uint32_t find_key(struct worker *worker, struct word word, struct key *key) {
    uint32_t shard = 0, status;
    lrc_pool *pool;
    lrc_store_name((const uint8_t *)word.at, word.len, key->name);
    status = lrc_store_shard(key->name, sizeof key->name, SHARDS, &shard);
    if (status) return status;
    lrc_slot **session = &worker->sessions[shard];
    if (!*session) status = lrc_shards_at(worker->shards, shard, &pool);
    if (!*session && !status) status = lrc_pool_take(pool, session, -1);
    key->session = *session;
    return status;
}

static void run(struct client *client, const struct word *words, size_t count) {
    struct key key;
    uint32_t status;
    const struct command *command = commands, *end = commands + sizeof commands / sizeof *commands;
    while (command < end && !is_word(words[0], command->word)) command++;
    if (command == end)
        say(client, "-ERR unknown command\r\n");
    else if (count < command->least || count > command->most)
        say(client, "-ERR wrong number of words: this server has no options\r\n");
    else if (command->run)
        command->run(client, words);
    else if ((status = find_key(client->worker, words[1], &key)))
        say_error(client, status);
    else
        command->run_at(client, &key, words);
}

/* ---- the protocol */

/* Reads a line such as "*3" or "$5", and moves `at` behind it. -1: it is not all there; -2: it is
 * something else. */
static int64_t number_line(char kind, const char **at, const char *end) {
    const char *line = *at, *last = memchr(line, '\n', (size_t)(end - line));
    int64_t number = 0;
    if (!last) return end - line > MOST_LINE ? -2 : -1;
    if (last - line < 3 || *line != kind || last[-1] != '\r') return -2;
    while (++line < last - 1) {
        if (*line < '0' || *line > '9' || number > MOST_BYTES) return -2;
        number = 10 * number + (*line - '0');
    }
    *at = last + 1;
    return number;
}

/* A command: how many words it has, and those that are there. Of the next one, if its length is
 * there, the length and the address. */
struct text {
    size_t number, count;
    struct word words[MOST_WORDS];
};

/* Reads a command. Returns how many bytes it has, 0 if it is not all there, and -1 if it is none.
 */
static int64_t command_in(const char *from, const char *end, struct text *text) {
    const char *at = from;
    const int64_t number = number_line('*', &at, end);
    *text = (struct text){.number = number < 0 ? 0 : (size_t)number};
    if (number == -1) return 0;
    if (number < 1 || number > MOST_WORDS) return -1;
    for (; text->count < text->number; text->count++) {
        const int64_t len = number_line('$', &at, end);
        if (len == -1) return 0;
        if (len < 0 || len > MOST_BYTES) return -1;
        text->words[text->count] = (struct word){at, (size_t)len};
        if (end - at < len + 2) return 0;
        if (memcmp(at + len, "\r\n", 2)) return -1;
        at += len + 2;
    }
    return at - from;
}

/* Whether the value of a SET is large and on its way. Then what there is of it moves into memory of
 * the store, unless there is none. */
static int is_begun(struct client *client, const struct text *text, const char *end) {
    const struct word *word = &text->words[2];
    struct value *value = &client->value;
    if (text->number != 3 || text->count != 2 || !word->at || !is_word(text->words[0], "SET"))
        return 0;
    if (word->len < LARGE || (size_t)(end - word->at) >= word->len) return 0;
    if (find_key(client->worker, text->words[1], &value->key)) return 0;
    if (lrc_slot_reserve(word->len, &value->slot)) return 0;
    lrc_slot_buffer(&value->slot, &value->buffer);
    value->filled = (size_t)(end - word->at);
    memcpy(value->buffer.at, word->at, value->filled);
    return 1;
}

/* Ends a client that sends something else than commands, once the reply is sent. */
static void end_protocol(struct client *client) {
    say(client, "-ERR protocol\r\n");
    client->is_over = 1;
}

/* Stores a value that is all there, if its line end follows. */
static void store(struct client *client, struct value *value) {
    uint64_t version;
    if (memcmp(client->in.at, "\r\n", 2))
        end_protocol(client);
    else
        say_status(client,
                   lrc_store_put_from_wait(value->key.session, value->key.name,
                                           sizeof value->key.name, &value->slot, 12, &version, -1));
    lrc_slot_release(&value->slot);
    value->buffer = NO_BUFFER;
    value->filled = 0;
}

/* Runs the whole commands of the input, up to so many replies, and keeps the rest. */
static void run_all(struct client *client) {
    const char *at = client->in.at, *end = client->in.at + client->in.len;
    struct text text;
    int64_t len = 1;
    if (client->value.buffer.len) {
        if (client->in.len < 2) return;
        store(client, &client->value);
        at += 2;
    }
    while (at < end && len > 0 && !client->is_over && client->out.len < MOST_UNSENT) {
        len = command_in(at, end, &text);
        if (len > 0) run(client, text.words, text.count);
        if (len < 0) end_protocol(client);
        if (len == 0 && is_begun(client, &text, end)) at = end;
        at += len > 0 ? len : 0;
    }
    client->has_more = at < end && len > 0 && !client->is_over;
    client->in.len = (size_t)(end - at);
    memmove(client->in.at, at, client->in.len);
}

/* ---- connections */

/* Sends as much as the socket takes now. Returns 0 on an error. */
static int send_some(struct client *client) {
    while (client->sent < client->out.len) {
        const ssize_t count = send(client->socket, client->out.at + client->sent,
                                   client->out.len - client->sent, MSG_NOSIGNAL | MSG_DONTWAIT);
        if (count < 0 && errno == EINTR) continue;
        if (count < 0) return errno == EAGAIN || errno == EWOULDBLOCK;
        client->sent += (size_t)count;
    }
    client->sent = client->out.len = 0;
    return 1;
}

/* Receives what there is, a large value into its own memory, and runs the commands in it. Returns 0
 * at the end and on an error. */
static int receive_some(struct client *client) {
    struct value *value = &client->value;
    const int is_large = value->filled < value->buffer.len;
    if (!is_large && !reserve(&client->in, READ_AT_ONCE)) return 0;
    uint8_t *to =
        is_large ? value->buffer.at + value->filled : (uint8_t *)client->in.at + client->in.len;
    const size_t room = is_large ? value->buffer.len - value->filled : READ_AT_ONCE;
    const ssize_t count = recv(client->socket, to, room, MSG_DONTWAIT);
    if (count < 0) return errno == EINTR || errno == EAGAIN || errno == EWOULDBLOCK;
    if (count == 0) return 0;
    if (is_large) {
        value->filled += (size_t)count;
    } else {
        client->in.len += (size_t)count;
        run_all(client);
    }
    return 1;
}

/* Serves a client whose socket is ready. It receives no further command before its replies are
 * sent. Of those that it has, it runs some, until MOST_UNSENT bytes wait. Returns 0 once it is
 * over. */
static int serve(struct client *client) {
    if (client->has_more && !client->out.len)
        run_all(client);
    else if (!client->is_paused && !receive_some(client))
        return 0;
    if (!send_some(client)) return 0;
    shrink(&client->in);
    shrink(&client->out);
    if (client->is_over && !client->out.len) return 0;
    const int is_paused = client->out.len || client->has_more;
    if (is_paused == client->is_paused) return 1;
    struct epoll_event event = {.events = is_paused ? EPOLLOUT : EPOLLIN, .data.ptr = client};
    client->is_paused = is_paused;
    return !epoll_ctl(client->worker->events, EPOLL_CTL_MOD, client->socket, &event);
}

static void begin(struct client *client) {
    struct worker *worker = client->worker;
    pthread_mutex_lock(&worker->mutex);
    client->next = worker->clients;
    if (client->next) client->next->before = client;
    worker->clients = client;
    pthread_mutex_unlock(&worker->mutex);
}

static void end(struct client *client) {
    struct worker *worker = client->worker;
    pthread_mutex_lock(&worker->mutex);
    if (client->next) client->next->before = client->before;
    *(client->before ? &client->before->next : &worker->clients) = client->next;
    pthread_mutex_unlock(&worker->mutex);
    close(client->socket);
    lrc_slot_release(&client->value.slot);
    free(client->in.at);
    free(client->out.at);
    free(client);
}

/* Serves the clients of a worker, in turn, until it is woken to end. */
static void *work(void *argument) {
    const struct worker *worker = argument;
    struct epoll_event events[EVENTS_AT_ONCE];
    for (;;) {
        const int count = epoll_wait(worker->events, events, EVENTS_AT_ONCE, -1);
        if (count < 0 && errno != EINTR) return NULL;
        for (int i = 0; i < count; i++) {
            if (!events[i].data.ptr) return NULL;
            if (!serve(events[i].data.ptr)) end(events[i].data.ptr);
        }
    }
}

/* Accepts a client, for a worker. If there can be no further file, or no memory, it waits a while
 * for others to end. */
static void accept_one(int listener, struct worker *worker) {
    const struct timespec pause = {0, PAUSE_NS};
    const int one = 1, socket = accept4(listener, NULL, NULL, SOCK_CLOEXEC);
    struct client *client = socket < 0 ? NULL : calloc(1, sizeof *client);
    if (client) {
        struct epoll_event event = {.events = EPOLLIN, .data.ptr = client};
        setsockopt(socket, IPPROTO_TCP, TCP_NODELAY, &one, sizeof one);
        *client = (struct client){.socket = socket,
                                  .worker = worker,
                                  .value.slot = LRC_SLOT_EMPTY,
                                  .value.buffer = NO_BUFFER};
        begin(client);
        if (!epoll_ctl(worker->events, EPOLL_CTL_ADD, socket, &event)) return;
        end(client);
    } else if (socket >= 0) {
        close(socket);
    }
    if (socket >= 0 || errno == EMFILE || errno == ENFILE || errno == ENOBUFS || errno == ENOMEM)
        nanosleep(&pause, NULL);
}

/* Starts a worker. Returns 0 if it cannot. */
static int start(struct worker *worker, lrc_shards *shards) {
    struct epoll_event event = {.events = EPOLLIN, .data.ptr = NULL};
    *worker = (struct worker){.events = epoll_create1(EPOLL_CLOEXEC),
                              .wake = eventfd(0, EFD_CLOEXEC),
                              .shards = shards,
                              .mutex = PTHREAD_MUTEX_INITIALIZER};
    if (worker->events >= 0 && worker->wake >= 0 &&
        !epoll_ctl(worker->events, EPOLL_CTL_ADD, worker->wake, &event) &&
        !pthread_create(&worker->thread, NULL, work, worker))
        return 1;
    close(worker->events);
    close(worker->wake);
    return 0;
}

/* Ends a worker: its connections, and its sessions. */
static void stop(struct worker *worker) {
    lrc_pool *pool;
    eventfd_write(worker->wake, 1);
    pthread_join(worker->thread, NULL);
    while (worker->clients) end(worker->clients);
    for (uint32_t shard = 0; shard < SHARDS; shard++)
        if (worker->sessions[shard] && !lrc_shards_at(worker->shards, shard, &pool))
            lrc_pool_give(pool, worker->sessions[shard]);
    close(worker->events);
    close(worker->wake);
}

/* A socket that listens on a port of the loopback address, or -1. Prints the port. */
static int listen_on(uint16_t port) {
    struct sockaddr_in address = {
        .sin_family = AF_INET, .sin_port = htons(port), .sin_addr.s_addr = htonl(INADDR_LOOPBACK)};
    socklen_t len = sizeof address;
    const int one = 1, listener = socket(AF_INET, SOCK_STREAM | SOCK_CLOEXEC, 0);
    setsockopt(listener, SOL_SOCKET, SO_REUSEADDR, &one, sizeof one);
    if (bind(listener, (struct sockaddr *)&address, len) || listen(listener, 511) ||
        getsockname(listener, (struct sockaddr *)&address, &len))
        return -1;
    printf("%d\n", ntohs(address.sin_port));
    fflush(stdout);
    return listener;
}

/* Accepts clients for the workers, in turn, until a signal comes. */
static void serve_all(int listener, int signals, struct worker *workers, unsigned count) {
    struct pollfd ready[] = {{listener, POLLIN, 0}, {signals, POLLIN, 0}};
    for (unsigned next = 0; !ready[1].revents; next++)
        if (poll(ready, 2, -1) > 0 && ready[0].revents)
            accept_one(listener, &workers[next % count]);
}

/* Lets SIGINT and SIGTERM be read from a file, which it returns, or -1. */
static int signals_as_file(void) {
    sigset_t ending;
    sigemptyset(&ending);
    sigaddset(&ending, SIGINT);
    sigaddset(&ending, SIGTERM);
    pthread_sigmask(SIG_BLOCK, &ending, NULL);
    return signalfd(-1, &ending, SFD_CLOEXEC);
}

static int usage(void) {
    fprintf(stderr, "usage: server PORT WIDTH [THREADS], at most %d\n", MOST_THREADS);
    return 2;
}

/* Whether a word of the command line is a number of at most `most`, which is written. */
static int is_given(const char *text, uint64_t most, uint64_t *number) {
    return is_number((struct word){text, strlen(text)}, number) && *number <= most;
}

/* Serves until a signal comes. Returns the status of the process. */
static int serve_store(uint16_t port, unsigned threads, lrc_shards *shards) {
    static struct worker workers[MOST_THREADS];
    const int signals = signals_as_file(), listener = signals < 0 ? -1 : listen_on(port);
    unsigned started = 0;
    while (listener >= 0 && started < threads && start(&workers[started], shards)) started++;
    if (!started) {
        perror("server");
        return 1;
    }
    serve_all(listener, signals, workers, started);
    close(listener);
    close(signals);
    while (started > 0) stop(&workers[--started]);
    return 0;
}

int main(int count, char **words) {
    lrc_options options = {sizeof options, 0, SHARDS, 0, 0};
    lrc_shards *shards;
    uint64_t port, width, entries;
    const long processors = sysconf(_SC_NPROCESSORS_ONLN);
    uint64_t threads = processors < 1              ? 1
                       : processors < MOST_THREADS ? (uint64_t)processors
                                                   : MOST_THREADS;
    uint32_t lawful;
    if (count < 3 || count > 4 || !is_given(words[1], UINT16_MAX, &port) ||
        !is_given(words[2], UINT32_MAX, &width))
        return usage();
    if (count == 4 && (!is_given(words[3], MOST_THREADS, &threads) || !threads)) return usage();
    options.width = (uint32_t)width;
    const uint32_t status = lrc_shards_open(&options, &shards);
    if (status) {
        fprintf(stderr, "server: %s\n", lrc_store_text(status));
        return 1;
    }
    const int ended = serve_store((uint16_t)port, (unsigned)threads, shards);
    return lrc_shards_close(shards, &entries, &lawful) ? 1 : ended;
}
