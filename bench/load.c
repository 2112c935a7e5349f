/* Loads a served program with clients that each wait for their replies.
 *
 *     cc -O2 -pthread -o load load.c
 *     load PORT CLIENTS WORK SECONDS VERSIONS
 *
 * WORK is `commit`, BEGIN, UPDATE of one row and COMMIT in one message, each client at keys of its own; `as-of`, a
 * query of one key at a random instant; or `mixed`, half of the clients one and half the other. There are 100 rows for
 * each client, changed by commits of 100 rows until there are VERSIONS versions. Prints operations per second, and the
 * median and the 99th percentile of their times in microseconds. Any reply of another kind ends it with status 1.
 */
#include <arpa/inet.h>
#include <netinet/in.h>
#include <netinet/tcp.h>
#include <pthread.h>
#include <stdint.h>
#include <stdio.h>
#include <stdlib.h>
#include <string.h>
#include <sys/socket.h>
#include <time.h>
#include <unistd.h>

enum { KEYS_OF_A_CLIENT = 100, BUFFER = 1 << 16, STATEMENT = 8192, MOST_CLIENTS = 64 };

struct client {
    int socket, number, reads;
    char buffer[BUFFER];
    size_t read, taken;
    uint64_t random;
    uint32_t *times;
    size_t count, room;
    pthread_t thread;
};

static struct client clients[MOST_CLIENTS];
static int client_count, version_count;
static uint64_t *instants, end_time;
static size_t instant_count;
static pthread_barrier_t start;

static void fail(const char *what, const char *detail)
{
    fprintf(stderr, "load: %s: %s\n", what, detail);
    exit(1);
}

static uint64_t nanoseconds(void)
{
    struct timespec now;
    clock_gettime(CLOCK_MONOTONIC, &now);
    return (uint64_t)now.tv_sec * 1000000000u + (uint64_t)now.tv_nsec;
}

static uint64_t next_random(struct client *client)
{
    client->random ^= client->random << 13;
    client->random ^= client->random >> 7;
    client->random ^= client->random << 17;
    return client->random >> 11;
}

static void connect_client(struct client *client, int port)
{
    struct sockaddr_in address = {.sin_family = AF_INET, .sin_port = htons((uint16_t)port)};
    int on = 1;
    address.sin_addr.s_addr = htonl(INADDR_LOOPBACK);
    client->socket = socket(AF_INET, SOCK_STREAM, 0);
    if (connect(client->socket, (struct sockaddr *)&address, sizeof address) != 0)
        fail("connect", "refused");
    setsockopt(client->socket, IPPROTO_TCP, TCP_NODELAY, &on, sizeof on);
}

static void send_text(struct client *client, const char *text)
{
    size_t left = strlen(text);
    while (left > 0) {
        ssize_t sent = send(client->socket, text, left, MSG_NOSIGNAL);
        if (sent <= 0)
            fail("send", "the connection ended");
        text += sent;
        left -= (size_t)sent;
    }
}

/* Returns the next line, without its line feed; it holds until the next call. */
static char *next_line(struct client *client)
{
    for (;;) {
        char *begin = client->buffer + client->taken;
        char *end = memchr(begin, '\n', client->read - client->taken);
        if (end != NULL) {
            *end = '\0';
            client->taken = (size_t)(end - client->buffer) + 1;
            return begin;
        }
        client->read -= client->taken;
        memmove(client->buffer, begin, client->read);
        client->taken = 0;
        ssize_t more = recv(client->socket, client->buffer + client->read, BUFFER - client->read, 0);
        if (more <= 0)
            fail("receive", "the connection ended or a line is too long");
        client->read += (size_t)more;
    }
}

/* Takes a reply that begins with a word, and returns the number behind it. */
static uint64_t expect(struct client *client, const char *word)
{
    char *line = next_line(client);
    size_t length = strlen(word);
    if (strncmp(line, word, length) != 0)
        fail(word, line);
    return strtoull(line + length, NULL, 10);
}

static uint64_t change(struct client *client, const char *statement, const char *reply)
{
    static _Thread_local char text[STATEMENT + 32];
    snprintf(text, sizeof text, "BEGIN\n%s\nCOMMIT\n", statement);
    send_text(client, text);
    expect(client, "begun ");
    expect(client, reply);
    return expect(client, "committed ");
}

/* Gives each client its rows, and changes 100 rows in each commit until there are enough versions. */
static void make_history(void)
{
    static char statement[STATEMENT];
    int commits = version_count / KEYS_OF_A_CLIENT;
    if (commits < client_count)
        commits = client_count;
    instants = calloc((size_t)commits, sizeof *instants);
    for (int commit = 0; commit < commits; commit++) {
        int low = commit % client_count * KEYS_OF_A_CLIENT;
        if (commit < client_count) {
            char *place = statement + sprintf(statement, "INSERT INTO emp VALUES ");
            for (int key = low; key < low + KEYS_OF_A_CLIENT; key++)
                place += sprintf(place, "%s(%d, 'first')", key == low ? "" : ", ", key);
            instants[0] = change(&clients[0], statement, "inserted ");
            instant_count = 1;
        } else {
            sprintf(statement, "UPDATE emp SET name = 'v%d' WHERE no >= %d AND no < %d", commit, low,
                    low + KEYS_OF_A_CLIENT);
            instants[instant_count++] = change(&clients[0], statement, "updated ");
        }
    }
}

static void operate(struct client *client)
{
    char statement[256];
    if (client->reads) {
        uint64_t key = next_random(client) % (uint64_t)(client_count * KEYS_OF_A_CLIENT);
        uint64_t instant = instants[next_random(client) % instant_count];
        sprintf(statement, "SELECT * FROM emp FOR SYSTEM_TIME AS OF %llu WHERE no = %llu\n",
                (unsigned long long)instant, (unsigned long long)key);
        send_text(client, statement);
        expect(client, "rows 1");
        next_line(client);
    } else {
        uint64_t key = (uint64_t)(client->number * KEYS_OF_A_CLIENT) + next_random(client) % KEYS_OF_A_CLIENT;
        sprintf(statement, "UPDATE emp SET name = 'w%u' WHERE no = %llu", (unsigned)(next_random(client) & 0xffff),
                (unsigned long long)key);
        change(client, statement, "updated 1");
    }
}

static void *run(void *given)
{
    struct client *client = given;
    pthread_barrier_wait(&start);
    pthread_barrier_wait(&start);
    for (uint64_t before = nanoseconds(); before < end_time;) {
        operate(client);
        uint64_t after = nanoseconds();
        if (client->count == client->room) {
            client->room = client->room * 2 + 1024;
            client->times = realloc(client->times, client->room * sizeof *client->times);
        }
        client->times[client->count++] = (uint32_t)(after - before);
        before = after;
    }
    return NULL;
}

static int compare(const void *one, const void *other)
{
    uint32_t a = *(const uint32_t *)one, b = *(const uint32_t *)other;
    return (a > b) - (a < b);
}

static void report(double seconds)
{
    size_t count = 0, place = 0;
    for (int number = 0; number < client_count; number++)
        count += clients[number].count;
    uint32_t *times = malloc((count + 1) * sizeof *times);
    for (int number = 0; number < client_count; number++) {
        memcpy(times + place, clients[number].times, clients[number].count * sizeof *times);
        place += clients[number].count;
    }
    qsort(times, count, sizeof *times, compare);
    printf("%.0f %.1f %.1f\n", (double)count / seconds, times[count / 2] / 1e3, times[count * 99 / 100] / 1e3);
}

int main(int count, char **words)
{
    if (count != 6 || atoi(words[2]) < 1 || atoi(words[2]) > MOST_CLIENTS)
        fail("words", "PORT CLIENTS WORK SECONDS VERSIONS");
    const char *work = words[3];
    double seconds = atof(words[4]);
    client_count = atoi(words[2]);
    version_count = atoi(words[5]);
    if (strcmp(work, "commit") != 0 && strcmp(work, "as-of") != 0 && strcmp(work, "mixed") != 0)
        fail("no such work", work);
    for (int number = 0; number < client_count; number++) {
        struct client *client = &clients[number];
        client->number = number;
        client->random = 88172645463325252u * (uint64_t)(number + 3);
        client->reads = strcmp(work, "as-of") == 0 || (strcmp(work, "mixed") == 0 && number % 2 == 1);
        connect_client(client, atoi(words[1]));
    }
    make_history();
    pthread_barrier_init(&start, NULL, (unsigned)client_count + 1);
    for (int number = 0; number < client_count; number++)
        pthread_create(&clients[number].thread, NULL, run, &clients[number]);
    pthread_barrier_wait(&start);
    uint64_t began = nanoseconds();
    end_time = began + (uint64_t)(seconds * 1e9);
    pthread_barrier_wait(&start);
    for (int number = 0; number < client_count; number++)
        pthread_join(clients[number].thread, NULL);
    report((double)(nanoseconds() - began) / 1e9);
    return 0;
}
