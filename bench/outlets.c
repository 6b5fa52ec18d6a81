/* How long after a command's reply the lines of its frames are at the readers of the outlets, over named pipes:
 * outlets PROGRAM SHOW UNIVERSES COUNT PERIOD LINE..
 *
 * Run in an empty folder. The program plays SHOW live; its outlets are pipes that are read here, all by one thread. After the key `go` the
 * lines LINE are sent in turn, COUNT in all, one each PERIOD microseconds. For each of them and each universe the time counts from the reply's
 * arrival to that of the first whole line whose version has the command. Where the line came first the time is below 0. */
#define _GNU_SOURCE
#include <errno.h>
#include <fcntl.h>
#include <poll.h>
#include <signal.h>
#include <stdint.h>
#include <stdio.h>
#include <stdlib.h>
#include <string.h>
#include <sys/stat.h>
#include <sys/wait.h>
#include <time.h>
#include <unistd.h>

enum { MOST = 32, ROOM = 1 << 16, LINES = 1 << 15 };

struct outlet {
    int file;
    char head[64];     /* the front of the line that is under way */
    size_t length;     /* of that line, so far */
    long seen, lines;  /* the last command that a line had; how many lines came */
    double at[LINES];  /* when the first line came that had the command */
};

static struct outlet outlets[MOST];
static double replied[LINES];
static long replies;

static double now(void) {
    struct timespec t;
    clock_gettime(CLOCK_MONOTONIC, &t);
    return t.tv_sec * 1e6 + t.tv_nsec * 1e-3;
}

static void must(int holds, const char *what) {
    if (!holds) {
        perror(what);
        exit(EXIT_FAILURE);
    }
}

/* The same where it is no call of the system that failed. */
static void need(int holds, const char *what) {
    if (!holds) {
        fprintf(stderr, "outlets: %s\n", what);
        exit(EXIT_FAILURE);
    }
}

/* A whole line: `frame COUNT ..`. */
static void line_came(struct outlet *o, double at) {
    long count = strtol(o->head + 6, NULL, 10);
    for (long k = o->seen + 1; k <= count && k < LINES; k++)
        o->at[k] = at;
    if (count > o->seen)
        o->seen = count;
    o->lines++;
}

static void read_outlet(struct outlet *o, double at) {
    static char bytes[ROOM];
    ssize_t got = read(o->file, bytes, sizeof bytes);
    for (ssize_t i = 0; i < got; i++) {
        if (o->length < sizeof o->head - 1)
            o->head[o->length] = bytes[i];
        o->length++;
        if (bytes[i] == '\n') {
            line_came(o, at);
            memset(o->head, 0, sizeof o->head);
            o->length = 0;
        }
    }
}

static void read_replies(int file, double at) {
    static char bytes[ROOM];
    ssize_t got = read(file, bytes, sizeof bytes);
    for (ssize_t i = 0; i < got; i++)
        if (bytes[i] == '\n' && replies < LINES)
            replied[replies++] = at;
}

static void pause_until(struct pollfd *polled, int count, double until) {
    for (double left = until - now(); left > 0; left = until - now()) {
        struct timespec t = { (time_t)(left / 1e6), (long)(left * 1e3) % 1000000000 };
        if (ppoll(polled, (nfds_t)count, &t, NULL) <= 0)
            return;
        double at = now();
        if (polled[0].revents)
            read_replies(polled[0].fd, at);
        for (int u = 1; u < count; u++)
            if (polled[u].revents & POLLIN)
                read_outlet(&outlets[u - 1], at);
    }
}

static void send_text(int file, const char *text, size_t length) {
    while (length > 0) {
        ssize_t sent = write(file, text, length);
        must(sent > 0, "write");
        text += sent;
        length -= (size_t)sent;
    }
}

static int by_size(const void *a, const void *b) {
    double x = *(const double *)a, y = *(const double *)b;
    return (x > y) - (x < y);
}

static void tell(int universes, long from, long count) {
    double *took = malloc(sizeof *took * (size_t)count * (size_t)universes);
    size_t n = 0;
    long lines = 0;
    for (int u = 0; u < universes; u++) {
        lines += outlets[u].lines;
        for (long k = from + 1; k <= from + count; k++)
            if (outlets[u].at[k] > 0)
                took[n++] = outlets[u].at[k] - replied[k - 1];
    }
    qsort(took, n, sizeof *took, by_size);
    need(n > 0, "no line came");
    printf("%ld commands, %d outlets: from reply to line %.0f us at the median, %.0f for 99 of 100, %.0f at most; %zu of %ld came, in %ld lines\n",
           count, universes, took[n / 2], took[n * 99 / 100], took[n - 1], n, count * universes, lines);
    free(took);
}

int main(int words, char **word) {
    need(words > 6, "usage: outlets PROGRAM SHOW UNIVERSES COUNT PERIOD LINE..");
    int universes = atoi(word[3]), to[2], from[2];
    long count = atol(word[4]);
    double period = atof(word[5]);
    struct pollfd polled[1 + MOST];
    signal(SIGPIPE, SIG_IGN);
    need(universes >= 1 && universes <= MOST, "UNIVERSES is from 1 to 32");
    need(count >= 1 && count < LINES - 8, "COUNT is from 1 to 32,759");
    for (int u = 0; u < universes; u++) {
        char name[32];
        snprintf(name, sizeof name, "universe-%d.txt", u + 1);
        must(mkfifo(name, 0600) == 0, name);
        outlets[u].file = open(name, O_RDONLY | O_NONBLOCK);
        must(outlets[u].file >= 0, name);
        fcntl(outlets[u].file, F_SETPIPE_SZ, 1 << 20);
        polled[1 + u] = (struct pollfd){ outlets[u].file, POLLIN, 0 };
    }
    must(pipe2(to, O_CLOEXEC) == 0 && pipe2(from, O_CLOEXEC) == 0, "pipe");
    pid_t desk = fork();
    if (desk == 0) {
        dup2(to[0], 0);
        dup2(from[1], 1);
        execl(word[1], word[1], "run", word[3], (char *)NULL);
        _exit(127);
    }
    close(to[0]);
    close(from[1]);
    polled[0] = (struct pollfd){ from[0], POLLIN, 0 };
    FILE *show = fopen(word[2], "rb");
    must(show != NULL, word[2]);
    static char text[1 << 16];
    for (size_t got; (got = fread(text, 1, sizeof text, show)) > 0;)
        send_text(to[1], text, got);
    send_text(to[1], "go\n", 3);
    for (double start = now(); replies < 1 && now() - start < 1e7;)
        pause_until(polled, 1 + universes, now() + 1000);
    double start = now();
    for (long k = 0; k < count; k++) {
        char line[256];
        int length = snprintf(line, sizeof line, "%s\n", word[6 + k % (words - 6)]);
        need(length < (int)sizeof line, "a LINE is too long");
        send_text(to[1], line, (size_t)length);
        pause_until(polled, 1 + universes, start + (k + 1) * period);
    }
    pause_until(polled, 1 + universes, now() + 500000);
    tell(universes, 1, count);
    close(to[1]);
    for (int left = universes, status; left > 0;) {
        pause_until(polled, 1 + universes, now() + 10000);
        if (waitpid(desk, &status, WNOHANG) == desk)
            return WIFEXITED(status) ? WEXITSTATUS(status) : EXIT_FAILURE;
    }
    return EXIT_SUCCESS;
}
