/* Tests the client in C where something goes wrong around it: memory, signals, other threads, the terminal.

   usage: clients_faults memory|signals|descriptors|threads|stop|options|reported|loop PROGRAM IMAGE
          clients_faults interrupt|values PROGRAM IMAGE
          clients_faults group PROGRAM IMAGE SHARES

   This file includes the client, so that each allocation and each system call of it can be made to fail. Prints a line
   for each check that failed, and at the end how many were made and how many of them failed. */
#define _GNU_SOURCE
#include <errno.h>
#include <fcntl.h>
#include <poll.h>
#include <pthread.h>
#include <signal.h>
#include <stdbool.h>
#include <stddef.h>
#include <stdio.h>
#include <stdlib.h>
#include <string.h>
#include <sys/types.h>
#include <sys/wait.h>
#include <time.h>
#include <unistd.h>

#define NEVER (-1)
#define DESCRIPTORS 256

static pthread_mutex_t counting = PTHREAD_MUTEX_INITIALIZER;
static int checks, failures;
static long until_refused = NEVER, until_interrupted = NEVER, piece = NEVER;
static bool watches_descriptors, was_open[DESCRIPTORS];

static void check(bool is_good, const char *what, long number) {
    pthread_mutex_lock(&counting);
    checks++;
    if (!is_good) {
        failures++;
        printf("%s (%ld)\n", what, number);
    }
    pthread_mutex_unlock(&counting);
}

/* Returns whether this allocation is the one that finds no memory. */
static bool is_refused(void) { return until_refused != NEVER && until_refused-- == 0; }

static void *test_malloc(size_t size) { return is_refused() ? NULL : malloc(size); }
static void *test_calloc(size_t count, size_t size) { return is_refused() ? NULL : calloc(count, size); }
static void *test_realloc(void *data, size_t size) { return is_refused() ? NULL : realloc(data, size); }

/* Returns whether a signal interrupts this system call. */
static bool is_interrupted(void) {
    if (until_interrupted == NEVER || until_interrupted-- != 0) return false;
    raise(SIGUSR1);
    errno = EINTR;
    return true;
}

static size_t piece_of(size_t size) { return piece != NEVER && size > (size_t)piece ? (size_t)piece : size; }

static ssize_t test_write(int file, const void *data, size_t size) {
    return is_interrupted() ? -1 : write(file, data, piece_of(size));
}

static ssize_t test_read(int file, void *data, size_t size) {
    return is_interrupted() ? -1 : read(file, data, piece_of(size));
}

static int test_poll(struct pollfd *ends, nfds_t count, int timeout) {
    return is_interrupted() ? -1 : poll(ends, count, timeout);
}

static pid_t test_waitpid(pid_t child, int *status, int how) {
    return is_interrupted() ? -1 : waitpid(child, status, how);
}

/* Checks that a program which another thread starts now inherits no descriptor that the client has opened. */
static void check_descriptors(const char *call) {
    for (int file = 3; file < DESCRIPTORS && watches_descriptors; file++) {
        int flags = fcntl(file, F_GETFD);
        if (flags >= 0 && !was_open[file]) check((flags & FD_CLOEXEC) != 0, call, file);
    }
}

static int test_pipe2(int ends[2], int flags) {
    int result = pipe2(ends, flags);
    check_descriptors("after pipe2");
    return result;
}

static pid_t test_fork(void) {
    check_descriptors("before fork");
    return fork();
}

#define malloc test_malloc
#define calloc test_calloc
#define realloc test_realloc
#define write test_write
#define read test_read
#define poll(ends, count, timeout) test_poll(ends, count, timeout)
#define waitpid test_waitpid
#define pipe2 test_pipe2
#define fork test_fork
#include "filser.c"
#undef malloc
#undef calloc
#undef realloc
#undef write
#undef read
#undef poll
#undef waitpid
#undef pipe2
#undef fork

enum { CORE_WORDS = 02000, BLOCK = 0210, LIST = 0400, WORDS = 01000 };

/* A machine with a service, and what every test does with them. */
struct bench {
    const char *program, *image;
    struct filser *service;
    uint64_t accumulators[16], memory[CORE_WORDS];
};

static void prepare(struct bench *bench, const char *program, const char *image) {
    memset(bench, 0, sizeof *bench);
    bench->program = program;
    bench->image = image;
    bench->memory[0121] = 0140;
    bench->memory[BLOCK] = 017;
    bench->memory[BLOCK + 1] = 0446353000000; /* SIXBIT /DSK/ */
    bench->memory[LIST] = 0777775000777;      /* three words from 1000 */
    for (uint64_t place = 0; place < 3; place++) bench->memory[WORDS + place] = 0123456 + place;
}

static enum filser_error start_with(struct bench *bench, struct filser_options options) {
    options.size = sizeof options;
    options.program = bench->program;
    options.image = bench->image;
    return filser_start(&options, &bench->service);
}

static enum filser_error start(struct bench *bench, int shares_group) {
    const struct filser_options options = {.form = 1, .shares_group = shares_group};
    return start_with(bench, options);
}

static enum filser_error login(struct bench *bench, uint32_t words) {
    struct filser_memory memory = {.accumulators = bench->accumulators, .words = bench->memory};
    return filser_login(bench->service, 1, 010, 020, words, &memory, NULL);
}

static enum filser_error uuo(struct bench *bench, uint64_t operation, uint32_t address,
                             struct filser_outcome *outcome) {
    const struct filser_instruction instruction = {
        .job = 1, .word = operation << 27 | 1 << 23 | address, .address = address};
    return filser_uuo(bench->service, &instruction, outcome);
}

/* Returns whether the service's core has the machine's words. */
static bool is_same_core(struct bench *bench, size_t size) {
    struct filser_answer answer;
    if (filser_examine(bench->service, 1, 0, (uint32_t)size, &answer) != FILSER_ERROR_NONE) return false;
    for (size_t place = 0; place < size; place++) {
        uint64_t word = place < 16 ? bench->accumulators[place] : bench->memory[place];
        if (answer.changes[place].word != word) return false;
    }
    return true;
}

/* Collects orders with many words of answers, and sends them. */
static enum filser_error send_batch(struct bench *bench, int orders) {
    const struct filser_answer *answers;
    size_t count;
    for (int order = 0; order < orders; order++) {
        enum filser_error error = filser_add_examine(bench->service, 1, 0, 01000);
        if (error) return error;
    }
    return filser_send(bench->service, &answers, &count);
}

/* Memory. */

/* Returns whether a step found no memory, and then checks what is promised: either nothing was sent, or every later
   call finds that the exchange has ended. */
static bool is_out_of_memory(struct bench *bench, enum filser_error error, long number, bool *ended) {
    uint64_t blocks;
    const struct filser_answer *answers;
    size_t count;
    if (error == FILSER_ERROR_NONE) return false;
    bool is_lost = error == FILSER_ERROR_LOST;
    check(is_lost || error == FILSER_ERROR_NO_MEMORY, "another error than that there is no memory", number);
    if (bench->service->order_count > 0 && !bench->service->has_ended)
        check(filser_send(bench->service, &answers, &count) == FILSER_ERROR_NONE, "what was collected", number);
    *ended = filser_room(bench->service, &blocks) == FILSER_ERROR_ENDED;
    check(*ended == is_lost, "whether the service has ended", number);
    if (!*ended) check(filser_room(bench->service, &blocks) == FILSER_ERROR_NONE, "after a lack of memory", number);
    return true;
}

/* Does a UUO of a machine that has changed a word, again if there was no memory, and returns whether it was done. */
static bool do_uuo(struct bench *bench, long number) {
    struct filser_outcome outcome;
    bool ended = false;
    bench->memory[WORDS]++;
    if (is_out_of_memory(bench, uuo(bench, FILSER_CALL_OPEN, BLOCK, &outcome), number, &ended) && !ended)
        check(uuo(bench, FILSER_CALL_OPEN, BLOCK, &outcome) == FILSER_ERROR_NONE, "a second try", number);
    if (!ended) check(outcome.kind == FILSER_ANSWER_DONE && outcome.advance == 2, "the outcome", number);
    return !ended;
}

/* Logs in a second time with another core. Without memory the first login is as it was. */
static bool log_in_again(struct bench *bench, long number) {
    bool ended = false;
    if (!is_out_of_memory(bench, login(bench, CORE_WORDS), number, &ended)) return true;
    if (ended) return false;
    check(is_same_core(bench, 01000), "the core after a login without memory", number);
    check(login(bench, CORE_WORDS) == FILSER_ERROR_NONE, "a login again", number);
    return true;
}

/* Plays with one allocation refused, and returns whether it came to that. */
static bool play_without(const char *program, const char *image, long number) {
    struct bench bench;
    bool ended = false, was_reached = true;
    prepare(&bench, program, image);
    until_refused = number;
    enum filser_error error = start(&bench, 0);
    if (error) {
        check(error == FILSER_ERROR_NO_MEMORY || error == FILSER_ERROR_LOST, "a start without memory", number);
    } else {
        if (is_out_of_memory(&bench, login(&bench, 01000), number, &ended) && !ended)
            check(login(&bench, 01000) == FILSER_ERROR_NONE, "a first login again", number);
        bool goes_on = !ended && do_uuo(&bench, number) && log_in_again(&bench, number) && do_uuo(&bench, number);
        if (goes_on && is_out_of_memory(&bench, send_batch(&bench, 200), number, &ended)) goes_on = !ended;
        was_reached = until_refused == NEVER;
        until_refused = NEVER;
        if (goes_on) check(is_same_core(&bench, CORE_WORDS), "the core at the end", number);
    }
    until_refused = NEVER;
    filser_stop(bench.service);
    return was_reached;
}

static void test_memory(const char *program, const char *image) {
    long number = 0;
    while (play_without(program, image, number)) number++;
    check(number > 10, "there are allocations to refuse", number);
}

/* Signals. */

static volatile sig_atomic_t signals;

static void count_signal(int number) {
    (void)number;
    signals++;
}

/* Plays with one system call interrupted, and returns whether it came to that. */
static bool play_interrupted(const char *program, const char *image, long number, int orders) {
    struct bench bench;
    struct filser_outcome outcome;
    prepare(&bench, program, image);
    check(start(&bench, 0) == FILSER_ERROR_NONE, "a start", number);
    until_interrupted = number;
    check(login(&bench, CORE_WORDS) == FILSER_ERROR_NONE, "a login", number);
    check(uuo(&bench, FILSER_CALL_OPEN, BLOCK, &outcome) == FILSER_ERROR_NONE && outcome.advance == 2, "a UUO", number);
    check(send_batch(&bench, orders) == FILSER_ERROR_NONE, "a batch", number);
    check(is_same_core(&bench, CORE_WORDS), "the core", number);
    check(filser_stop(bench.service) == 0, "a stop", number);
    bool was_reached = until_interrupted == NEVER;
    until_interrupted = NEVER;
    return was_reached;
}

static void test_signals(const char *program, const char *image) {
    struct sigaction action;
    long number = 0;
    memset(&action, 0, sizeof action);
    action.sa_handler = count_signal;
    sigaction(SIGUSR1, &action, NULL);
    while (play_interrupted(program, image, number, 200)) number++;
    check(number > 15 && signals == number, "there are system calls to interrupt", number);
    for (piece = 1; piece < 8; piece += 6) play_interrupted(program, image, NEVER, 2);
    piece = NEVER;
}

/* Descriptors and threads. */

static void test_descriptors(const char *program, const char *image) {
    struct bench bench;
    prepare(&bench, program, image);
    for (int file = 0; file < DESCRIPTORS; file++) was_open[file] = fcntl(file, F_GETFD) >= 0;
    watches_descriptors = true;
    check(start(&bench, 0) == FILSER_ERROR_NONE, "a start", 0);
    check_descriptors("after a start");
    watches_descriptors = false;
    check(filser_stop(bench.service) == 0, "a stop", 0);
    for (int file = 0; file < DESCRIPTORS; file++)
        if (!was_open[file]) check(fcntl(file, F_GETFD) < 0, "a descriptor is left", file);
}

struct thread {
    const char *program;
    char image[4096];
    unsigned seed;
    pthread_t id;
};

/* Starts a service some times, and each time plays UUOs and deposits on it. */
static void *serve(void *data) {
    struct thread *thread = data;
    struct filser_outcome outcome;
    struct bench bench;
    for (int turn = 0; turn < 10; turn++) {
        prepare(&bench, thread->program, thread->image);
        check(start(&bench, 0) == FILSER_ERROR_NONE && login(&bench, CORE_WORDS) == FILSER_ERROR_NONE, "a start", turn);
        for (int step = 0; step < 30; step++) {
            thread->seed = thread->seed * 1103515245 + 12345;
            bench.memory[WORDS + thread->seed / 65536 % 01000] = thread->seed;
            bool is_done = uuo(&bench, FILSER_CALL_OPEN, BLOCK, &outcome) == FILSER_ERROR_NONE && outcome.advance == 2;
            check(is_done && is_same_core(&bench, CORE_WORDS), "a UUO", step);
        }
        check(filser_stop(bench.service) == 0, "a stop", turn);
    }
    return NULL;
}

/* Starts programs that live on: one that inherited a pipe's end would keep a service from its end. */
static void *start_others(void *data) {
    pid_t *children = data;
    for (int place = 0; place < 40; place++) {
        children[place] = fork();
        if (children[place] == 0) {
            execlp("sleep", "sleep", "1000", (char *)NULL);
            _exit(127);
        }
        const struct timespec pause = {0, 3000000};
        nanosleep(&pause, NULL);
    }
    return NULL;
}

static void test_threads(const char *program, const char *image) {
    static struct thread threads[2];
    static pid_t children[40];
    pthread_t forking;
    for (unsigned place = 0; place < 2; place++) {
        threads[place].program = program;
        threads[place].seed = place;
        snprintf(threads[place].image, sizeof threads[place].image, "%s.%u", image, place);
        pthread_create(&threads[place].id, NULL, serve, &threads[place]);
    }
    pthread_create(&forking, NULL, start_others, children);
    for (int place = 0; place < 2; place++) pthread_join(threads[place].id, NULL);
    pthread_join(forking, NULL);
    for (int place = 0; place < 40; place++) {
        if (children[place] <= 0) continue;
        kill(children[place], SIGKILL);
        waitpid(children[place], NULL, 0);
    }
}

/* The terminal, and a stop. */

static void test_group(const char *program, const char *image, int shares_group) {
    struct bench bench;
    struct sigaction action;
    uint64_t blocks;
    memset(&action, 0, sizeof action);
    action.sa_handler = count_signal;
    sigaction(SIGINT, &action, NULL);
    setpgid(0, 0);
    prepare(&bench, program, image);
    check(start(&bench, shares_group) == FILSER_ERROR_NONE, "a start", shares_group);
    kill(0, SIGINT);
    if (shares_group) {
        siginfo_t ended;
        waitid(P_PID, (id_t)bench.service->child, &ended, WEXITED | WNOWAIT);
    }
    enum filser_error wanted = shares_group ? FILSER_ERROR_ENDED : FILSER_ERROR_NONE;
    check(filser_room(bench.service, &blocks) == wanted, "after SIGINT", shares_group);
    check(filser_stop(bench.service) == (shares_group ? -SIGINT : 0), "the status", shares_group);
}

/* Stops a service that has more answers to write than a pipe takes, and one that doesn't answer in time. */
static void test_stop(const char *program, const char *image) {
    struct bench bench;
    uint64_t blocks;
    prepare(&bench, program, image);
    check(start(&bench, 0) == FILSER_ERROR_NONE && login(&bench, CORE_WORDS) == FILSER_ERROR_NONE, "a start", 0);
    for (int order = 0; order < 200; order++) filser_add_examine(bench.service, 1, 0, CORE_WORDS);
    const struct bytes *orders = &bench.service->sending;
    check(write(bench.service->to, orders->data, orders->length) == (ssize_t)orders->length, "orders", 0);
    check(filser_stop(bench.service) == 4, "the status of a service with unread answers", 0);

    prepare(&bench, program, image);
    check(start(&bench, 0) == FILSER_ERROR_NONE, "a start", 1);
    kill(bench.service->child, SIGSTOP);
    bench.service->timeout = 50;
    check(filser_room(bench.service, &blocks) == FILSER_ERROR_TIMED_OUT, "a service that was stopped", 0);
    check(filser_room(bench.service, &blocks) == FILSER_ERROR_ENDED, "after a timeout", 0);
    check(filser_stop(bench.service) == -SIGKILL, "it is killed", 0);
}

/* Options, what a machine reports, an event loop, and words. */

/* Tests options: their size, the form, and where the program's standard error goes. */
static void test_options(const char *program, const char *image) {
    struct bench bench;
    struct filser_options options = {.size = 0};
    FILE *errors = tmpfile();
    prepare(&bench, program, image);
    options.program = program;
    options.image = image;
    check(filser_start(&options, &bench.service) == FILSER_ERROR_BAD_ARGUMENT, "options without a size", 0);
    options.size = sizeof options + 1;
    check(filser_start(&options, &bench.service) == FILSER_ERROR_BAD_ARGUMENT, "more options than there are", 0);
    options.size = offsetof(struct filser_options, form);
    options.form = 3;
    check(filser_start(&options, &bench.service) == FILSER_ERROR_NONE, "fewer options", 0);
    check(filser_stop(bench.service) == 0, "a stop", 0);
    bench.image = "/nothing/is/here";
    const struct filser_options to_file = {.error_output = fileno(errors)};
    check(start_with(&bench, to_file) == FILSER_ERROR_IMAGE_REFUSED, "no image", 0);
    check(strcmp(filser_printed(bench.service), "?Device fault") == 0, "its line", 0);
    check(filser_stop(bench.service) == 4, "its status", 0);
    check(fseek(errors, 0, SEEK_END) == 0 && ftell(errors) > 0, "its reason", ftell(errors));
    fclose(errors);
    bench.program = "/nothing/is/here";
    check(start(&bench, 0) == FILSER_ERROR_NOT_FOUND, "no program", 0);
    check(filser_printed(bench.service)[0] != '\0' && filser_stop(bench.service) == 127, "its status", 0);
}

static enum filser_error login_comparing(struct bench *bench, enum filser_compare compare) {
    struct filser_memory memory = {.accumulators = bench->accumulators, .words = bench->memory, .compare = compare};
    return filser_login(bench->service, 1, 010, 020, CORE_WORDS, &memory, NULL);
}

/* Tests what is compared, and a logout. */
static void test_reported(const char *program, const char *image) {
    struct bench bench;
    struct filser_outcome outcome;
    struct filser_answer answer;
    prepare(&bench, program, image);
    check(start(&bench, 0) == FILSER_ERROR_NONE, "a start", 0);
    check(login_comparing(&bench, FILSER_COMPARE_DEBUG) == FILSER_ERROR_NONE, "a login", 0);
    check(uuo(&bench, FILSER_CALL_OPEN, BLOCK, &outcome) == FILSER_ERROR_NONE, "all is compared once", 0);
    bench.memory[01001]++;
    bench.memory[01003]++;
    filser_touched(bench.service, 1, 01000, 3);
    check(uuo(&bench, FILSER_CALL_OPEN, BLOCK, &outcome) == FILSER_ERROR_MISSED, "a missed word", 0);
    check(filser_missed(bench.service) == 01003, "its address", filser_missed(bench.service));
    filser_touched(bench.service, 1, 01003, 1);
    check(uuo(&bench, FILSER_CALL_OPEN, BLOCK, &outcome) == FILSER_ERROR_NONE, "it is named", 0);
    check(is_same_core(&bench, CORE_WORDS), "the core", 0);
    check(login_comparing(&bench, FILSER_COMPARE_TOUCHED) == FILSER_ERROR_NONE, "a second login", 0);
    check(uuo(&bench, FILSER_CALL_OPEN, BLOCK, &outcome) == FILSER_ERROR_NONE, "all is compared again", 0);
    for (uint32_t place = 01000; place < CORE_WORDS; place += 0123) {
        bench.memory[place]++;
        filser_touched(bench.service, 1, place, 1);
        bool is_none = uuo(&bench, 051, BLOCK, &outcome) == FILSER_ERROR_NONE;
        check(is_none && outcome.next == FILSER_NEXT_NOT_MINE, "TTCALL", place);
    }
    filser_touched(bench.service, 1, CORE_WORDS - 1, UINT32_MAX);
    filser_touched(bench.service, 999, 0, 1);
    check(uuo(&bench, FILSER_CALL_OPEN, BLOCK, &outcome) == FILSER_ERROR_NONE, "what was named", 0);
    check(is_same_core(&bench, CORE_WORDS), "the core of what was named", 0);
    check(filser_logout(bench.service, 1, 0, 0, &answer) == FILSER_ERROR_NONE, "a logout", 0);
    check(answer.kind == FILSER_ANSWER_DONE, "its answer", (long)answer.kind);
    check(uuo(&bench, FILSER_CALL_OPEN, BLOCK, &outcome) == FILSER_ERROR_NOT_LOGGED_IN, "after a logout", 0);
    check(filser_examine(bench.service, 1, 0, 1, &answer) == FILSER_ERROR_NOT_LOGGED_IN, "examine after a logout", 0);
    check(filser_login(bench.service, 1, 010, 020, CORE_WORDS, NULL, NULL) == FILSER_ERROR_NONE, "a third login", 0);
    check(uuo(&bench, FILSER_CALL_OPEN, BLOCK, &outcome) == FILSER_ERROR_NO_MACHINE, "without a machine", 0);
    check(filser_stop(bench.service) == 0, "a stop", 0);
}

static struct filser *to_interrupt;

static void interrupt_by_signal(int number) {
    (void)number;
    filser_interrupt(to_interrupt);
}

static void wait_as_told(const struct filser *service) {
    struct filser_waits waits = filser_waits_for(service);
    struct pollfd ends[3] = {{waits.readable, POLLIN, 0}, {waits.writable, POLLOUT, 0}, {waits.interrupt, POLLIN, 0}};
    poll(ends, 3, waits.timeout);
}

/* Tests exchanges of an event loop, and an interrupt by a handler of a signal. */
static void test_loop(const char *program, const char *image) {
    struct bench bench;
    struct filser_outcome outcome;
    const struct filser_answer *answers;
    const struct filser_instruction open = {.job = 1, .word = 0050040000210, .address = BLOCK};
    const struct filser_instruction other = {.job = 1, .word = 0051040000210, .address = BLOCK};
    enum filser_error error;
    uint64_t blocks;
    size_t count = 0;
    prepare(&bench, program, image);
    check(start(&bench, 0) == FILSER_ERROR_NONE && login(&bench, CORE_WORDS) == FILSER_ERROR_NONE, "a start", 0);
    check(filser_begin_uuo(bench.service, &open) == FILSER_ERROR_NONE, "a UUO begins", 0);
    check(filser_room(bench.service, &blocks) == FILSER_ERROR_UNFINISHED, "another call meanwhile", 0);
    check(filser_advance(bench.service, &answers, &count) == FILSER_ERROR_BAD_ARGUMENT, "the other advance", 0);
    while ((error = filser_advance_uuo(bench.service, &outcome)) == FILSER_ERROR_UNFINISHED)
        wait_as_told(bench.service);
    check(error == FILSER_ERROR_NONE && outcome.advance == 2 && is_same_core(&bench, CORE_WORDS), "its end", 0);
    check(filser_begin_uuo(bench.service, &other) == FILSER_ERROR_NONE, "a UUO that isn't the service's", 0);
    check(filser_advance_uuo(bench.service, &outcome) == FILSER_ERROR_NONE, "its end", 1);
    for (int order = 0; order < 200; order++) filser_add_examine(bench.service, 1, 0, CORE_WORDS);
    check(filser_begin(bench.service) == FILSER_ERROR_NONE, "a batch begins", 0);
    while ((error = filser_advance(bench.service, &answers, &count)) == FILSER_ERROR_UNFINISHED)
        wait_as_told(bench.service);
    check(error == FILSER_ERROR_NONE && count == 200 && answers[199].count == CORE_WORDS, "the batch", (long)count);
    to_interrupt = bench.service;
    signal(SIGUSR2, interrupt_by_signal);
    raise(SIGUSR2);
    check(!filser_has_ended(bench.service), "it hasn't ended yet", 0);
    check(filser_room(bench.service, &blocks) == FILSER_ERROR_INTERRUPTED, "an interrupt", 0);
    check(filser_has_ended(bench.service) && filser_room(bench.service, &blocks) == FILSER_ERROR_ENDED, "after it", 0);
    check(filser_stop(bench.service) == 0, "a stop", 0);
}

static void *interrupt_in_thread(void *service) {
    filser_interrupt(service);
    return NULL;
}

/* Tests an interrupt by another thread, while the exchange waits for a service that doesn't answer. */
static void test_interrupt(const char *program, const char *image) {
    struct bench bench;
    pthread_t thread;
    uint64_t blocks;
    prepare(&bench, program, image);
    check(start(&bench, 0) == FILSER_ERROR_NONE, "a start", 0);
    kill(bench.service->child, SIGSTOP);
    pthread_create(&thread, NULL, interrupt_in_thread, bench.service);
    check(filser_room(bench.service, &blocks) == FILSER_ERROR_INTERRUPTED, "an interrupt by a thread", 0);
    pthread_join(thread, NULL);
    kill(bench.service->child, SIGCONT);
    filser_stop(bench.service);
}

static void test_values(void) {
    uint64_t word = 0;
    unsigned date = 0, minute = 9999;
    check(filser_sixbit("DSK", &word) == FILSER_ERROR_NONE && word == 0446353000000, "SIXBIT", 0);
    check(filser_sixbit("TOOLONG", &word) == FILSER_ERROR_BAD_ARGUMENT, "seven characters", 0);
    check(filser_sixbit("dsk", &word) == FILSER_ERROR_BAD_ARGUMENT, "lower case", 0);
    check(filser_iowd(2, 0500, &word) == FILSER_ERROR_NONE && word == 0777776000477, "IOWD", 0);
    check(filser_iowd(0, 0500, &word) == FILSER_ERROR_BAD_ARGUMENT, "no words", 0);
    check(filser_iowd(1, 0, &word) == FILSER_ERROR_BAD_ARGUMENT, "no address before", 0);
    check(filser_date(1975, 1, 4, &date) == FILSER_ERROR_NONE && date == 4095, "4-Jan-1975", date);
    check(filser_date(2052, 2, 1, &date) == FILSER_ERROR_NONE && date == 32767, "1-Feb-2052", date);
    check(filser_date(2052, 2, 2, &date) == FILSER_ERROR_BAD_ARGUMENT, "2-Feb-2052", 0);
    check(filser_date(1975, 2, 29, &date) == FILSER_ERROR_BAD_ARGUMENT, "29-Feb-1975", 0);
    check(filser_date(1963, 12, 31, &date) == FILSER_ERROR_BAD_ARGUMENT, "31-Dec-1963", 0);
    check(filser_now(&date, &minute) == FILSER_ERROR_NONE && minute < 1440 && date > 20000, "now", date);
    check(strcmp(filser_call_text(FILSER_CALL_OPEN), "OPEN") == 0, "the text of OPEN", 0);
    check(strcmp(filser_answer_text(FILSER_ANSWER_ADDRESS_CHECK), "ADDRESS CHECK") == 0, "the text of a kind", 0);
    check(strcmp(filser_version(), FILSER_VERSION) == 0, "the version", 0);
}

int main(int count, char **words) {
    if (count < 4) return 2;
    if (strcmp(words[1], "memory") == 0) test_memory(words[2], words[3]);
    if (strcmp(words[1], "signals") == 0) test_signals(words[2], words[3]);
    if (strcmp(words[1], "descriptors") == 0) test_descriptors(words[2], words[3]);
    if (strcmp(words[1], "threads") == 0) test_threads(words[2], words[3]);
    if (strcmp(words[1], "stop") == 0) test_stop(words[2], words[3]);
    if (strcmp(words[1], "group") == 0 && count == 5) test_group(words[2], words[3], atoi(words[4]));
    if (strcmp(words[1], "options") == 0) test_options(words[2], words[3]);
    if (strcmp(words[1], "reported") == 0) test_reported(words[2], words[3]);
    if (strcmp(words[1], "loop") == 0) test_loop(words[2], words[3]);
    if (strcmp(words[1], "interrupt") == 0) test_interrupt(words[2], words[3]);
    if (strcmp(words[1], "values") == 0) test_values();
    printf("%d %d\n", checks, failures);
    return 0;
}
