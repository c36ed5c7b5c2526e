/* Drives perfly_live over pipes: writes a live text up to the end of each frame, and waits for the picture before it writes on.

       drive TEXT MARK PERFLY_LIVE [WORD..]

   Prints the frames, the seconds from the start of the program to its end, and the KiB that it held at most (VmHWM) behind
   frame MARK and behind the last one. */
#define _POSIX_C_SOURCE 200809L
#include <fcntl.h>
#include <poll.h>
#include <signal.h>
#include <stdio.h>
#include <stdlib.h>
#include <string.h>
#include <sys/stat.h>
#include <sys/wait.h>
#include <time.h>
#include <unistd.h>

enum { WAIT = 60000 }; /* milliseconds, above which it is a hang */

struct text {
    char *bytes;
    size_t size, given, end; /* all of it, what was written, and where the frame ends that is under way */
};

struct run {
    pid_t program;
    int source, sinks[2];
    size_t shown; /* bytes of pictures that came */
};

static void give_up(const char *why)
{
    fprintf(stderr, "drive: %s\n", why);
    exit(1);
}

static double now(void)
{
    struct timespec t;
    clock_gettime(CLOCK_MONOTONIC, &t);
    return (double)t.tv_sec + (double)t.tv_nsec * 1e-9;
}

static struct text read_text(const char *path)
{
    struct stat found;
    struct text text = {NULL, 0, 0, 0};
    FILE *file = fopen(path, "rb");
    if (!file || fstat(fileno(file), &found) || !(text.bytes = malloc((size_t)found.st_size + 1)))
        give_up("no text");
    text.size = fread(text.bytes, 1, (size_t)found.st_size, file);
    text.bytes[text.size] = 0;
    fclose(file);
    return text;
}

/* The bytes of a picture, by the line `size` of the text; of one channel. */
static size_t picture_size(const struct text *text)
{
    unsigned width, height;
    if (sscanf(text->bytes, "perfly live 1\nsize %u %u", &width, &height) != 2)
        give_up("this is no live text");
    return (size_t)snprintf(NULL, 0, "P6\n%u %u\n255\n", width, height) + (size_t)3 * width * height;
}

static struct run start(char **call)
{
    int pipes[3][2];
    for (int k = 0; k < 3; k++)
        if (pipe(pipes[k]))
            give_up("no pipe");
    struct run run = {fork(), pipes[0][1], {pipes[1][0], pipes[2][0]}, 0};
    if (run.program == 0) {
        for (int k = 0; k < 3; k++)
            dup2(pipes[k][k > 0], k);
        for (int k = 0; k < 3; k++)
            close(pipes[k][0]), close(pipes[k][1]);
        execv(call[0], call);
        _exit(127);
    }
    for (int k = 0; k < 3; k++)
        close(pipes[k][k > 0]);
    fcntl(run.source, F_SETFL, O_NONBLOCK);
    signal(SIGPIPE, SIG_IGN);
    return run;
}

/* Reads what came by a sink; returns 0 where it has ended. */
static int take(struct run *run, int sink)
{
    static char bytes[1 << 16];
    ssize_t count = read(run->sinks[sink], bytes, sizeof bytes);
    if (count > 0 && sink == 0)
        run->shown += (size_t)count;
    return count > 0;
}

/* Writes the frame that is under way, and reads until there are so many bytes of pictures; returns 0 where both sinks ended. */
static int go_on(struct run *run, struct text *text, size_t due)
{
    static int is_open[2] = {1, 1};
    while (text->given < text->end || run->shown < due) {
        struct pollfd ends[3] = {{text->given < text->end ? run->source : -1, POLLOUT, 0},
                                 {is_open[0] ? run->sinks[0] : -1, POLLIN, 0},
                                 {is_open[1] ? run->sinks[1] : -1, POLLIN, 0}};
        if (!is_open[0] && !is_open[1])
            return 0;
        if (poll(ends, 3, WAIT) <= 0)
            give_up("it hangs");
        for (int k = 0; k < 2; k++)
            if (ends[k + 1].revents)
                is_open[k] = take(run, k);
        if (ends[0].revents) {
            ssize_t count = write(run->source, text->bytes + text->given, text->end - text->given);
            text->given += count > 0 ? (size_t)count : 0;
            if (count <= 0 && (ends[0].revents & POLLERR))
                text->given = text->end;
        }
    }
    return 1;
}

static long peak(pid_t program)
{
    char path[64], line[256];
    long found = 0;
    snprintf(path, sizeof path, "/proc/%ld/status", (long)program);
    FILE *file = fopen(path, "r");
    while (file && fgets(line, sizeof line, file))
        sscanf(line, "VmHWM: %ld", &found);
    if (file)
        fclose(file);
    return found;
}

int main(int count, char **words)
{
    if (count < 4)
        give_up("TEXT MARK PERFLY_LIVE [WORD..]");
    struct text text = read_text(words[1]);
    size_t size = picture_size(&text);
    long frames = 0, mark = atol(words[2]), first = 0, last = 0;
    double begin = now();
    struct run run = start(words + 3);
    for (char *at = text.bytes; (at = strstr(at, "\nframe\n")); at += 6) {
        text.end = (size_t)(at + 7 - text.bytes);
        if (!go_on(&run, &text, (size_t)++frames * size))
            give_up("it ended before its input");
        if (frames == mark)
            first = peak(run.program);
    }
    last = peak(run.program);
    text.end = text.size;
    go_on(&run, &text, 0);
    close(run.source);
    go_on(&run, &text, (size_t)-1);
    int status = 1;
    waitpid(run.program, &status, 0);
    printf("%ld %.6f %ld %ld\n", frames, now() - begin, first, last);
    return status ? 1 : 0;
}
