/* The disk of an emulator in C: filser serves calls over two pipes, one line per call and one per reply. cc emulator.c
   -o emulator && ./emulator PROGRAM IMAGE: job 1 logs in and prints the word of its core at 121. */
#include <stdio.h>
#include <stdlib.h>
#include <sys/wait.h>
#include <unistd.h>

static FILE *calls, *replies;

static pid_t serve(const char *program, const char *image) {
    int to[2], from[2];
    if (pipe(to) != 0 || pipe(from) != 0) exit(4);
    pid_t child = fork();
    if (child == 0) {
        dup2(to[0], 0);
        dup2(from[1], 1);
        close(to[1]);
        close(from[0]);
        execl(program, program, "calls", image, (char *)NULL);
        _exit(4);
    }
    close(to[0]);
    close(from[1]);
    calls = fdopen(to[1], "w");
    replies = fdopen(from[0], "r");
    return child;
}

static void ask(const char *line) {
    char reply[80];
    fprintf(calls, "%s\n", line);
    fflush(calls);
    if (fgets(reply, sizeof reply, replies) == NULL) exit(4);
    printf("%s: %s", line, reply);
}

int main(int count, char **words) {
    if (count != 3) return 2;
    pid_t child = serve(words[1], words[2]);
    ask("1 LOGIN 10,20 1000");
    ask("1 EXA 121");
    fclose(calls);
    return waitpid(child, NULL, 0) == child ? 0 : 4;
}
