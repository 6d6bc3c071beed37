/* The bare cost of a call: so many octets to a child and so many back, over two pipes, one write each way, and so many
   octets of memory that are written for the first time and kept.
   usage: pingpong ROUNDS THERE BACK KEPT */
#include <stdio.h>
#include <stdlib.h>
#include <string.h>
#include <sys/wait.h>
#include <unistd.h>

enum { MOST = 65536 };

static char room[MOST];

static void fail(const char *what) {
    perror(what);
    exit(1);
}

/* Reads that many octets; answers 0 where the input ends before the first. */
static int take(int from, size_t count) {
    size_t have = 0;
    while (have < count) {
        ssize_t n = read(from, room + have, count - have);
        if (n < 0) fail("read");
        if (n == 0) {
            if (have == 0) return 0;
            fprintf(stderr, "the input ends in the middle\n");
            exit(1);
        }
        have += (size_t)n;
    }
    return 1;
}

static void give(int to, size_t count) {
    if (write(to, room, count) != (ssize_t)count) fail("write");
}

static int child(size_t there, size_t back) {
    while (take(0, there)) give(1, back);
    return 0;
}

static int parent(char **words, long rounds, size_t there, size_t back, size_t kept) {
    int down[2], up[2], status;
    char *memory = malloc((size_t)rounds * kept + 1);
    if (memory == NULL) fail("malloc");
    if (pipe(down) < 0 || pipe(up) < 0) fail("pipe");
    pid_t pid = fork();
    if (pid < 0) fail("fork");
    if (pid == 0) {
        dup2(down[0], 0);
        dup2(up[1], 1);
        close(down[0]);
        close(down[1]);
        close(up[0]);
        close(up[1]);
        char *again[] = {words[0], "child", words[2], words[3], "0", NULL};
        execv("/proc/self/exe", again);
        fail("exec");
    }
    close(down[0]);
    close(up[1]);
    for (long i = 0; i < rounds; i++) {
        give(down[1], there);
        memset(memory + (size_t)i * kept, 1, kept);
        if (!take(up[0], back)) {
            fprintf(stderr, "the child ended\n");
            return 1;
        }
    }
    close(down[1]);
    if (waitpid(pid, &status, 0) < 0) fail("wait");
    free(memory);
    return status == 0 ? 0 : 1;
}

int main(int count, char **words) {
    if (count != 5) {
        fprintf(stderr, "usage: pingpong ROUNDS THERE BACK KEPT\n");
        return 2;
    }
    size_t there = strtoul(words[2], NULL, 10), back = strtoul(words[3], NULL, 10);
    if (there == 0 || there > MOST || back == 0 || back > MOST) {
        fprintf(stderr, "1 to %d octets\n", MOST);
        return 2;
    }
    if (strcmp(words[1], "child") == 0) return child(there, back);
    return parent(words, strtol(words[1], NULL, 10), there, back, strtoul(words[4], NULL, 10));
}
