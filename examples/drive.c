/* Drives perfly_live from C: a gem that turns, drawn while this program runs; each frame is a picture and some replies.
 *
 *     cc -O2 -o drive examples/drive.c
 *     ./drive crates/perfly_live/out/perfly_live 36 gem       writes gem001.ppm to gem036.ppm
 *
 * docs/LIVE.md says what is read and written. The replies to one frame are few here, and find room in a pipe. A driver
 * that makes thousands of edits a frame reads both streams at once, as by poll, or has the report written to a file.
 */
#include <signal.h>
#include <stdio.h>
#include <stdlib.h>
#include <string.h>
#include <sys/wait.h>
#include <unistd.h>

enum { WIDTH = 320, HEIGHT = 240, UNIT = 4096 };

struct live {
    pid_t program;
    FILE *commands, *pictures, *report;
};

static void give_up(const char *why) {
    fprintf(stderr, "drive: %s\n", why);
    exit(1);
}

/* Starts the program with a pipe at each of its streams. */
static struct live start(char *const call[]) {
    int pipes[3][2];
    for (int k = 0; k < 3; k++)
        if (pipe(pipes[k]))
            give_up("no pipe");
    struct live live = {fork(), NULL, NULL, NULL};
    if (live.program < 0)
        give_up("no process");
    if (live.program == 0) {
        for (int k = 0; k < 3; k++)
            dup2(pipes[k][k > 0], k);
        for (int k = 0; k < 3; k++)
            close(pipes[k][0]), close(pipes[k][1]);
        execv(call[0], call);
        dprintf(2, "perfly: %s cannot be run\n", call[0]);
        _exit(127);
    }
    for (int k = 0; k < 3; k++)
        close(pipes[k][k > 0]);
    live.commands = fdopen(pipes[0][1], "w");
    live.pictures = fdopen(pipes[1][0], "r");
    live.report = fdopen(pipes[2][0], "r");
    signal(SIGPIPE, SIG_IGN); /* where the program has ended, its last words are in the report */
    return live;
}

/* Node 2, a gem of eight triangles, below node 1, which stands six units before the eye and can be turned. */
static void write_model(FILE *to) {
    static const int ring[5][2] = {{1, 0}, {0, 1}, {-1, 0}, {0, -1}, {1, 0}};
    fprintf(to, "dcs 1\nadd 0 1\ntrans 1 0 %d 0\ngeode 2 0 8\n", 6 * UNIT);
    for (int k = 0; k < 8; k++) {
        const int *a = ring[k % 4], *b = ring[k % 4 + 1], r = 2 * UNIT, tip = k < 4 ? r : -UNIT;
        const int red = 255 - 20 * k, blue = 60 + 20 * k;
        fprintf(to, "t %d %d 0 %d 60 %d %d %d 0 %d 90 %d 0 0 %d 255 255 %d\n", r * a[0], r * a[1], red, blue, r * b[0],
                r * b[1], red, blue, tip, blue);
    }
    fprintf(to, "add 1 2\nview 0 0 %d 0 -100 0\n", UNIT);
}

/* Reads the report up to the line of a frame, or to its end; shows what was refused, and what the program says last. */
static void read_replies(FILE *report, int frame) {
    char line[65536], last[32];
    snprintf(last, sizeof last, "frame %d ", frame);
    while (fgets(line, sizeof line, report) && strncmp(line, last, strlen(last)))
        if (strstr(line, " : fault ") || !strncmp(line, "perfly: ", 8))
            fputs(line, stderr);
}

/* Reads a picture and writes it as a file. */
static int keep_picture(FILE *pictures, const char *name, int frame) {
    static unsigned char pixels[3 * WIDTH * HEIGHT];
    char line[32], path[4096];
    for (int k = 0; k < 3; k++)
        if (!fgets(line, sizeof line, pictures)) /* P6, the size, 255 */
            return 0;
    if (fread(pixels, 3 * WIDTH, HEIGHT, pictures) != HEIGHT)
        return 0;
    snprintf(path, sizeof path, "%s%03d.ppm", name, frame);
    FILE *file = fopen(path, "w");
    if (!file)
        give_up("the picture cannot be written");
    fprintf(file, "P6\n%d %d\n255\n", WIDTH, HEIGHT);
    fwrite(pixels, 3 * WIDTH, HEIGHT, file);
    if (fclose(file))
        give_up("the picture cannot be written");
    return 1;
}

int main(int count, char *words[]) {
    if (count != 4)
        give_up("PERFLY_LIVE FRAMES NAME");
    struct live live = start((char *[]){words[1], NULL});
    fprintf(live.commands, "perfly live 1\nsize %d %d\nlens 280 4096 4096000\nback 20 24 40\napp\n", WIDTH, HEIGHT);
    write_model(live.commands);
    for (int frame = 1; frame <= atoi(words[2]); frame++) {
        fprintf(live.commands, "rot 1 %d 0 0\nframe\n", 100 * frame % 3600);
        fflush(live.commands);
        if (!keep_picture(live.pictures, words[3], frame))
            break;
        read_replies(live.report, frame);
    }
    fclose(live.commands); /* the end of the text: the program closes the pipe, and ends */
    read_replies(live.report, 0);
    int status = 1;
    waitpid(live.program, &status, 0);
    return WIFEXITED(status) ? WEXITSTATUS(status) : 1;
}
