/* The client for `filser wire`: see filser.h. The parts of this file are bytes, orders, the exchange, the process, and
   UUOs. */
#define _GNU_SOURCE /* for pipe2 */

#include "filser.h"

#include <errno.h>
#include <fcntl.h>
#include <poll.h>
#include <signal.h>
#include <stdbool.h>
#include <stdio.h>
#include <stdlib.h>
#include <string.h>
#include <sys/file.h>
#include <sys/types.h>
#include <sys/wait.h>
#include <time.h>
#include <unistd.h>

#define RECORD_BYTES 16
#define WORD_LIMIT ((uint64_t)1 << 36)
#define CORE_LIMIT ((uint32_t)1 << 18)
#define JOBS 256
#define PIECE_BYTES 65536
#define ACCUMULATORS 16
#define PAGE_WORDS 512
#define TOUCH_WORDS 64
#define LEAST_CORE 01000
#define MOST_CORE 0400000
#define START_ADDRESS 0120 /* .JBSA */
#define FIRST_FREE 0121    /* .JBFF */
#define CHANNELS 16

enum order_kind { LOGIN = 1, DEPOSIT = 2, EXAMINE = 3, CALL = 4, ROOM = 5 };

/* A list of bytes that grows. */
struct bytes {
    unsigned char *data;
    size_t length, room;
};

/* A copy of the core that the service has for a job, and the machine's memory. */
struct core {
    size_t size;
    uint64_t *words;
    size_t grain;  /* the words of a piece: 1 in debug mode, where a missed word is looked for */
    bool *touched; /* for each piece whether the machine may have other words than the copy */
    bool is_fresh; /* no UUO was sent since the LOGIN, so all words are compared */
    struct filser_memory memory;
    bool has_memory;
};

/* What is left of an order after it is written: what its answer may be, and changes in the copy of a core. */
struct order {
    unsigned kind, code, job;
    uint32_t number, detail;
    size_t place, count; /* of its words in the bytes that were sent */
    struct core *core;   /* of a LOGIN: the copy if it is done, for which there has to be memory before it is sent */
};

/* The parts of a UUO, and a call of one. */
struct uuo {
    unsigned operation, channel;
    uint32_t address, pc;
};

struct call {
    enum filser_call_code code;
    unsigned channel;
    uint32_t number;
    size_t place; /* of its order, and so of its answer */
};

/* An exchange that was begun: how far the orders are written and the answers read. */
struct exchange {
    bool is_running, is_uuo;
    size_t written, place, answers, words;
    int64_t deadline;
    struct uuo uuo; /* what it does if it is of a UUO; there are no calls if that isn't the service's */
    unsigned job;
    struct call calls[CHANNELS];
    size_t call_count;
};

struct filser {
    pid_t child;
    int to, from, wake[2], timeout;
    bool has_ended, has_failed; /* the exchange; the disk */
    struct bytes sending, held;
    struct order *orders;
    size_t order_count, order_room;
    struct filser_answer *answers;
    struct filser_change *changes;
    struct core *cores[JOBS];
    bool is_out[JOBS]; /* by filser_logout */
    uint32_t missed;
    struct exchange exchange;
    char printed[256];
};

/* Bytes. */

static bool reserve(struct bytes *bytes, size_t more) {
    if (bytes->room - bytes->length >= more) return true;
    size_t room = bytes->length + more > 2 * bytes->room ? bytes->length + more : 2 * bytes->room;
    unsigned char *data = realloc(bytes->data, room);
    if (data == NULL) return false;
    bytes->data = data;
    bytes->room = room;
    return true;
}

/* Appends a number, its highest byte first. There is room for it. */
static void append_number(struct bytes *bytes, uint64_t number, int count) {
    for (int place = count - 1; place >= 0; place--)
        bytes->data[bytes->length++] = (unsigned char)(number >> (8 * place));
}

static uint64_t number_at(const unsigned char *data, int count) {
    uint64_t number = 0;
    for (int place = 0; place < count; place++) number = number << 8 | data[place];
    return number;
}

/* Copies of cores. */

static void free_core(struct core *core) {
    if (core == NULL) return;
    free(core->words);
    free(core->touched);
    free(core);
}

static size_t pieces_of(const struct core *core) { return core->size / core->grain + 1; }

/* Returns the copy of a core as a LOGIN leaves it; NULL if there is no memory. */
static struct core *new_core(size_t size, const struct filser_memory *memory) {
    struct core *core = calloc(1, sizeof *core);
    if (core == NULL) return NULL;
    core->size = size;
    core->has_memory = memory != NULL;
    if (memory != NULL) core->memory = *memory;
    core->grain = core->memory.compare == FILSER_COMPARE_DEBUG ? 1 : TOUCH_WORDS;
    core->is_fresh = true;
    core->words = calloc(size, sizeof *core->words);
    core->touched = calloc(pieces_of(core), sizeof *core->touched);
    if (core->words == NULL || core->touched == NULL) {
        free_core(core);
        return NULL;
    }
    core->words[FIRST_FREE] = 0140;
    return core;
}

/* Notes that the machine may have other words than the copy from one address to before another. */
static void touch(struct core *core, size_t first, size_t past) {
    if (past > core->size) past = core->size;
    for (size_t piece = first / core->grain; first < past && piece <= (past - 1) / core->grain; piece++)
        core->touched[piece] = true;
}

/* Notes that the copy has the machine's words. */
static void forget_touched(struct core *core) {
    memset(core->touched, false, pieces_of(core) * sizeof *core->touched);
    core->is_fresh = false;
}

/* Orders. */

static void forget_orders(struct filser *service) {
    for (size_t place = 0; place < service->order_count; place++) free_core(service->orders[place].core);
    service->sending.length = 0;
    service->order_count = 0;
}

static bool reserve_order(struct filser *service) {
    if (service->order_count < service->order_room) return true;
    size_t room = service->order_room == 0 ? 64 : 2 * service->order_room;
    struct order *orders = realloc(service->orders, room * sizeof *orders);
    if (orders == NULL) return false;
    service->orders = orders;
    service->order_room = room;
    return true;
}

/* Collects an order: the first four bytes of its record, its number and detail, and its words. */
static enum filser_error add_order(struct filser *service, const unsigned char parts[4], uint32_t number,
                                   uint32_t detail, const uint64_t *words, size_t count) {
    struct bytes *sending = &service->sending;
    for (size_t place = 0; place < count; place++)
        if (words[place] >= WORD_LIMIT) return FILSER_ERROR_BAD_WORD;
    if (!reserve(sending, RECORD_BYTES + 8 * count) || !reserve_order(service)) return FILSER_ERROR_NO_MEMORY;
    for (int place = 0; place < 4; place++) append_number(sending, parts[place], 1);
    append_number(sending, number, 4);
    append_number(sending, detail, 4);
    append_number(sending, count, 4);
    struct order order = {parts[0], parts[1], parts[2], number, detail, sending->length, count, NULL};
    service->orders[service->order_count++] = order;
    for (size_t place = 0; place < count; place++) append_number(sending, words[place], 8);
    return FILSER_ERROR_NONE;
}

static bool is_half(uint32_t number) { return number >= 1 && number < CORE_LIMIT; }

static bool is_memory(const struct filser_memory *memory) {
    bool has_words = memory->accumulators != NULL && memory->words != NULL;
    return has_words || (memory->words == NULL && memory->read != NULL && memory->write != NULL);
}

/* Returns whether an order may be collected for a job. */
static enum filser_error check_job(const struct filser *service, unsigned job) {
    if (service->exchange.is_running) return FILSER_ERROR_UNFINISHED;
    if (job >= JOBS) return FILSER_ERROR_BAD_ARGUMENT;
    return service->is_out[job] ? FILSER_ERROR_NOT_LOGGED_IN : FILSER_ERROR_NONE;
}

enum filser_error filser_add_login(struct filser *service, unsigned job, uint32_t project, uint32_t programmer,
                                   uint32_t words, const struct filser_memory *memory) {
    if (service->exchange.is_running) return FILSER_ERROR_UNFINISHED;
    if (job >= JOBS || !is_half(project) || !is_half(programmer)) return FILSER_ERROR_BAD_ARGUMENT;
    if (memory != NULL && !is_memory(memory)) return FILSER_ERROR_BAD_ARGUMENT;
    const unsigned char parts[4] = {LOGIN, 0, (unsigned char)job, 0};
    const uint64_t owner = (uint64_t)project << 18 | programmer;
    bool is_size = words >= LEAST_CORE && words <= MOST_CORE; /* else the service refuses it */
    struct core *core = is_size ? new_core(words, memory) : NULL;
    if (is_size && core == NULL) return FILSER_ERROR_NO_MEMORY;
    enum filser_error error = add_order(service, parts, words, 0, &owner, 1);
    if (error)
        free_core(core);
    else
        service->orders[service->order_count - 1].core = core;
    return error;
}

enum filser_error filser_add_deposit(struct filser *service, unsigned job, uint32_t address, const uint64_t *words,
                                     size_t count) {
    enum filser_error error = check_job(service, job);
    if (error) return error;
    if (address > CORE_LIMIT || count > CORE_LIMIT - address) return FILSER_ERROR_BAD_ARGUMENT;
    const unsigned char parts[4] = {DEPOSIT, 0, (unsigned char)job, 0};
    return add_order(service, parts, address, 0, words, count);
}

enum filser_error filser_add_examine(struct filser *service, unsigned job, uint32_t address, uint32_t count) {
    enum filser_error error = check_job(service, job);
    if (error) return error;
    if (address > CORE_LIMIT || count > CORE_LIMIT - address) return FILSER_ERROR_BAD_ARGUMENT;
    const unsigned char parts[4] = {EXAMINE, 0, (unsigned char)job, 0};
    return add_order(service, parts, address, count, NULL, 0);
}

/* Returns whether a call has these parts: one that it doesn't use is 0. */
static bool is_call(enum filser_call_code code, unsigned channel, uint32_t number) {
    switch (code) {
    case FILSER_CALL_MAKDIR:
    case FILSER_CALL_REMDIR:
    case FILSER_CALL_QUOTA: return channel == 0;
    case FILSER_CALL_RESET: return channel == 0 && number == 0;
    case FILSER_CALL_GETSTS:
    case FILSER_CALL_RELEAS: return channel < 256 && number == 0;
    case FILSER_CALL_OPEN:
    case FILSER_CALL_RENAME:
    case FILSER_CALL_IN:
    case FILSER_CALL_OUT:
    case FILSER_CALL_INBUF:
    case FILSER_CALL_OUTBUF:
    case FILSER_CALL_CLOSE:
    case FILSER_CALL_USETI:
    case FILSER_CALL_USETO:
    case FILSER_CALL_LOOKUP:
    case FILSER_CALL_ENTER: return channel < 256;
    }
    return false;
}

enum filser_error filser_add_call(struct filser *service, unsigned job, enum filser_call_code code, unsigned channel,
                                  uint32_t number, unsigned date, unsigned minute) {
    enum filser_error error = check_job(service, job);
    if (error) return error;
    if (!is_call(code, channel, number) || date >= 32768 || minute >= 1440) return FILSER_ERROR_BAD_ARGUMENT;
    const unsigned char parts[4] = {CALL, (unsigned char)code, (unsigned char)job, (unsigned char)channel};
    return add_order(service, parts, number, (uint32_t)date << 16 | minute, NULL, 0);
}

enum filser_error filser_add_room(struct filser *service) {
    const unsigned char parts[4] = {ROOM, 0, 0, 0};
    if (service->exchange.is_running) return FILSER_ERROR_UNFINISHED;
    return add_order(service, parts, 0, 0, NULL, 0);
}

/* The exchange. */

/* Writes as `write` does, without the signal that ends a process that writes where nobody reads. */
static ssize_t write_quietly(int file, const void *data, size_t length) {
    sigset_t broken, before, pending;
    sigemptyset(&broken);
    sigaddset(&broken, SIGPIPE);
    sigpending(&pending);
    bool was_pending = sigismember(&pending, SIGPIPE) == 1;
    pthread_sigmask(SIG_BLOCK, &broken, &before);
    ssize_t count = write(file, data, length);
    int error = errno;
    sigpending(&pending);
    if (count < 0 && error == EPIPE && !was_pending && sigismember(&pending, SIGPIPE) == 1) {
        int signal_taken;
        sigwait(&broken, &signal_taken);
    }
    pthread_sigmask(SIG_SETMASK, &before, NULL);
    errno = error;
    return count;
}

/* Writes what the pipe takes of the orders, and returns how much is written so far: all if nobody reads any longer,
   because then the answers end. */
static size_t write_orders(struct filser *service, size_t written) {
    ssize_t count = write_quietly(service->to, service->sending.data + written, service->sending.length - written);
    if (count >= 0) return written + (size_t)count;
    return errno == EAGAIN || errno == EWOULDBLOCK || errno == EINTR ? written : service->sending.length;
}

static enum filser_error read_answers(struct filser *service) {
    if (!reserve(&service->held, PIECE_BYTES)) return FILSER_ERROR_LOST;
    ssize_t count = read(service->from, service->held.data + service->held.length, PIECE_BYTES);
    if (count > 0) {
        service->held.length += (size_t)count;
        return FILSER_ERROR_NONE;
    }
    bool comes_later = count < 0 && (errno == EAGAIN || errno == EWOULDBLOCK || errno == EINTR);
    return comes_later ? FILSER_ERROR_NONE : FILSER_ERROR_ENDED;
}

/* Steps over the complete answers that were read after `*place`, and counts them and the words that they return. */
static enum filser_error count_answers(const struct bytes *held, size_t *place, size_t *answers, size_t *words) {
    while (held->length - *place >= RECORD_BYTES) {
        const unsigned char *record = held->data + *place;
        if (record[0] > FILSER_ANSWER_ROOM || record[1] || record[2] || record[3]) return FILSER_ERROR_PROTOCOL;
        size_t count = (size_t)number_at(record + 12, 4);
        if ((held->length - *place - RECORD_BYTES) / 8 < count) return FILSER_ERROR_NONE;
        *place += RECORD_BYTES + 8 * count;
        *answers += 1;
        *words += count;
    }
    return FILSER_ERROR_NONE;
}

static int64_t milliseconds(void) {
    struct timespec now = {0, 0};
    clock_gettime(CLOCK_MONOTONIC, &now);
    return (int64_t)now.tv_sec * 1000 + now.tv_nsec / 1000000;
}

/* Returns how long `poll` may wait until the deadline of an exchange: -1 if the service has no timeout. */
static int time_left(const struct filser *service, int64_t deadline) {
    int64_t left = deadline - milliseconds();
    if (service->timeout == 0) return -1;
    return left > 0 ? (int)left : 0;
}

/* Reads what comes before any order is written: nothing, unless the program has ended or breaks the rules, or this
   process interrupts the exchange. */
static enum filser_error check_silence(struct filser *service) {
    struct pollfd ends[2] = {{service->from, POLLIN, 0}, {service->wake[0], POLLIN, 0}};
    service->held.length = 0;
    if (poll(ends, 2, 0) <= 0) return FILSER_ERROR_NONE;
    if (ends[1].revents != 0) return FILSER_ERROR_INTERRUPTED;
    enum filser_error error = read_answers(service);
    return !error && service->held.length > 0 ? FILSER_ERROR_PROTOCOL : error;
}

/* Writes and reads what can be written and read without waiting. Returns no error if each order is answered. */
static enum filser_error go_on(struct filser *service) {
    struct exchange *exchange = &service->exchange;
    struct pollfd ends[2] = {{service->from, POLLIN, 0}, {service->wake[0], POLLIN, 0}};
    if (exchange->written < service->sending.length) exchange->written = write_orders(service, exchange->written);
    if (poll(ends, 2, 0) < 0) return errno == EINTR ? FILSER_ERROR_UNFINISHED : FILSER_ERROR_ENDED;
    if (ends[1].revents != 0) return FILSER_ERROR_INTERRUPTED;
    if (ends[0].revents != 0) {
        enum filser_error error = read_answers(service);
        if (!error) error = count_answers(&service->held, &exchange->place, &exchange->answers, &exchange->words);
        if (error) return error;
    }
    if (exchange->answers == service->order_count)
        return exchange->place == service->held.length ? FILSER_ERROR_NONE : FILSER_ERROR_PROTOCOL;
    if (exchange->answers > service->order_count) return FILSER_ERROR_PROTOCOL;
    return time_left(service, exchange->deadline) == 0 ? FILSER_ERROR_TIMED_OUT : FILSER_ERROR_UNFINISHED;
}

/* Waits until `go_on` has something to do. */
static void wait_for_exchange(const struct filser *service) {
    struct filser_waits waits = filser_waits_for(service);
    struct pollfd ends[3] = {{waits.readable, POLLIN, 0}, {waits.writable, POLLOUT, 0}, {waits.interrupt, POLLIN, 0}};
    poll(ends, 3, waits.timeout); /* whatever comes of it, go_on finds out */
}

struct filser_waits filser_waits_for(const struct filser *service) {
    bool writes = service->exchange.written < service->sending.length;
    int timeout = time_left(service, service->exchange.deadline);
    return (struct filser_waits){service->from, writes ? service->to : -1, service->wake[0], timeout};
}

/* Allocates memory for answers, of which there is at least one, and returns whether there was any. */
static bool reserve_answers(struct filser *service, size_t answers, size_t words) {
    free(service->answers);
    free(service->changes);
    service->answers = malloc(answers * sizeof *service->answers);
    service->changes = malloc((words == 0 ? 1 : words) * sizeof *service->changes);
    return service->answers != NULL && service->changes != NULL;
}

/* Parses the answers that were read. */
static void parse_answers(struct filser *service) {
    const unsigned char *data = service->held.data;
    struct filser_change *change = service->changes;
    for (size_t place = 0; place < service->order_count; place++) {
        struct filser_answer answer = {(enum filser_answer_kind)data[0], number_at(data + 4, 8), 0, change};
        answer.count = (size_t)number_at(data + 12, 4);
        data += RECORD_BYTES;
        for (size_t word = 0; word < answer.count; word++, data += 8, change++) {
            uint64_t group = number_at(data, 8);
            change->address = (uint32_t)(group / WORD_LIMIT);
            change->word = group % WORD_LIMIT;
        }
        service->answers[place] = answer;
    }
}

/* Returns whether an order may be answered by this kind. */
static bool is_kind_for(const struct order *order, enum filser_answer_kind kind) {
    bool asks_status = order->kind == CALL && order->code == FILSER_CALL_GETSTS;
    switch (kind) {
    case FILSER_ANSWER_WRONG: return false;
    case FILSER_ANSWER_DONE: return order->kind != ROOM && !asks_status;
    case FILSER_ANSWER_VALUE: return asks_status;
    case FILSER_ANSWER_REFUSED: return order->kind == CALL || order->kind == LOGIN; /* a LOGIN by a relay */
    case FILSER_ANSWER_STOPPED:
    case FILSER_ANSWER_NO_CHANNEL:
    case FILSER_ANSWER_DATE_RANGE: return order->kind == CALL;
    case FILSER_ANSWER_ROOM: return order->kind == ROOM;
    case FILSER_ANSWER_ADDRESS_CHECK:
    case FILSER_ANSWER_NO_JOB:
    case FILSER_ANSWER_NO_MEMORY:
    case FILSER_ANSWER_DEVICE:
    case FILSER_ANSWER_FAILED: return order->kind != ROOM;
    }
    return false;
}

static bool has_value(enum filser_answer_kind kind) {
    return kind == FILSER_ANSWER_VALUE || kind == FILSER_ANSWER_REFUSED || kind == FILSER_ANSWER_STOPPED ||
           kind == FILSER_ANSWER_ROOM;
}

/* Returns whether the words of an answer are those of an EXAMINE: all in a row, or up to the end of the core. */
static bool are_examined(const struct order *order, const struct filser_answer *answer, size_t size) {
    size_t there = order->number < size ? size - order->number : 0;
    bool fits = order->detail <= there;
    if (answer->kind != FILSER_ANSWER_DONE && answer->kind != FILSER_ANSWER_ADDRESS_CHECK) return answer->count == 0;
    if ((answer->kind == FILSER_ANSWER_DONE) != fits || answer->count != (fits ? order->detail : there)) return false;
    for (size_t place = 0; place < answer->count; place++)
        if (answer->changes[place].address != order->number + place) return false;
    return true;
}

/* Returns whether an answer may have these words: only an EXAMINE and a call return any, and only of the core. */
static bool are_changes_for(const struct order *order, const struct filser_answer *answer, size_t size) {
    if (order->kind == EXAMINE) return are_examined(order, answer, size);
    if (answer->count > 0 && order->kind != CALL) return false;
    for (size_t place = 0; place < answer->count; place++)
        if (answer->changes[place].address >= size) return false;
    return true;
}

/* Returns whether this can be the answer to an order, by the rules of docs/EMULATORS.md. What can't be must not reach
   the copy or the machine. */
static bool is_answer_to(const struct filser *service, const struct order *order, const struct filser_answer *answer) {
    const struct core *core = service->cores[order->job];
    enum filser_answer_kind kind = answer->kind;
    bool is_empty = (order->kind == DEPOSIT && order->count == 0) || (order->kind == EXAMINE && order->detail == 0);
    if (!is_kind_for(order, kind) || answer->value >= (has_value(kind) ? WORD_LIMIT : 1)) return false;
    if (order->kind == LOGIN && kind == FILSER_ANSWER_DONE && order->core == NULL) return false;
    if (order->kind != LOGIN && kind == FILSER_ANSWER_NO_JOB && core != NULL) return false;
    if (service->has_failed && order->kind != ROOM && !is_empty && kind != FILSER_ANSWER_FAILED) return false;
    return are_changes_for(order, answer, core == NULL ? 0 : core->size);
}

/* Repeats in the copy of a core what an order has done. The machine doesn't have these words yet. */
static void copy_order(struct filser *service, struct order *order, const struct filser_answer *answer) {
    struct core *core = service->cores[order->job];
    if (answer->kind == FILSER_ANSWER_DEVICE || answer->kind == FILSER_ANSWER_FAILED) service->has_failed = true;
    if (order->kind == LOGIN && answer->kind == FILSER_ANSWER_DONE) {
        free_core(core);
        service->is_out[order->job] = false;
        service->cores[order->job] = order->core;
        order->core = NULL;
    }
    if (core == NULL) return;
    if (order->kind == DEPOSIT && (answer->kind == FILSER_ANSWER_DONE || answer->kind == FILSER_ANSWER_ADDRESS_CHECK)) {
        const unsigned char *words = service->sending.data + order->place;
        for (size_t place = 0; place < order->count && order->number + place < core->size; place++)
            core->words[order->number + place] = number_at(words + 8 * place, 8);
        touch(core, order->number, order->number + order->count);
    }
    for (size_t place = 0; order->kind == CALL && place < answer->count; place++) {
        uint32_t address = answer->changes[place].address;
        core->words[address] = answer->changes[place].word;
        touch(core, address, (size_t)address + 1);
    }
}

/* Checks the answers, and repeats in the copies what the orders have done. */
static enum filser_error take_answers(struct filser *service) {
    for (size_t place = 0; place < service->order_count; place++) {
        if (!is_answer_to(service, &service->orders[place], &service->answers[place])) return FILSER_ERROR_PROTOCOL;
        copy_order(service, &service->orders[place], &service->answers[place]);
    }
    return FILSER_ERROR_NONE;
}

/* Begins the exchange of the orders. */
static enum filser_error begin(struct filser *service) {
    struct exchange *exchange = &service->exchange;
    if (service->has_ended) return FILSER_ERROR_ENDED;
    exchange->is_running = true;
    exchange->written = exchange->place = exchange->answers = exchange->words = 0;
    exchange->deadline = milliseconds() + service->timeout;
    service->held.length = 0;
    if (service->order_count == 0) return FILSER_ERROR_NONE;
    enum filser_error error = check_silence(service);
    if (!error) exchange->written = write_orders(service, 0);
    return error;
}

/* Ends an exchange, which keeps its orders and answers. Any error ends the service: later answers couldn't be told
   apart. */
static enum filser_error end(struct filser *service, enum filser_error error) {
    service->exchange.is_running = false;
    if (error) service->has_ended = true;
    return error;
}

/* Goes on with an exchange, and ends it if it is complete or has failed. */
static enum filser_error advance(struct filser *service) {
    enum filser_error error = service->order_count == 0 ? FILSER_ERROR_NONE : go_on(service);
    if (error == FILSER_ERROR_UNFINISHED) return error;
    if (!error && service->order_count > 0) {
        if (!reserve_answers(service, service->order_count, service->exchange.words))
            return end(service, FILSER_ERROR_LOST);
        parse_answers(service);
        error = take_answers(service);
    }
    return end(service, error);
}

enum filser_error filser_begin(struct filser *service) {
    if (service->exchange.is_running) return FILSER_ERROR_UNFINISHED;
    service->exchange.is_uuo = false;
    enum filser_error error = begin(service);
    if (!error) return error;
    forget_orders(service);
    return end(service, error);
}

enum filser_error filser_advance(struct filser *service, const struct filser_answer **answers, size_t *count) {
    *count = 0;
    if (!service->exchange.is_running || service->exchange.is_uuo) return FILSER_ERROR_BAD_ARGUMENT;
    enum filser_error error = advance(service);
    if (error == FILSER_ERROR_UNFINISHED) return error;
    *count = error ? 0 : service->order_count;
    *answers = service->answers;
    forget_orders(service);
    return error;
}

enum filser_error filser_send(struct filser *service, const struct filser_answer **answers, size_t *count) {
    *count = 0;
    enum filser_error error = filser_begin(service);
    while (!error && (error = filser_advance(service, answers, count)) == FILSER_ERROR_UNFINISHED) {
        wait_for_exchange(service);
        error = FILSER_ERROR_NONE;
    }
    return error;
}

int filser_has_ended(const struct filser *service) { return service->has_ended; }

void filser_interrupt(struct filser *service) {
    int before = errno;
    while (write(service->wake[1], "", 1) < 0 && errno == EINTR) continue;
    errno = before;
}

/* Sends one order, which was added or wasn't, and returns its answer. */
static enum filser_error send_one(struct filser *service, enum filser_error error, struct filser_answer *answer) {
    const struct filser_answer *answers;
    size_t count;
    if (!error) error = filser_send(service, &answers, &count);
    if (!error && answer != NULL) *answer = answers[0];
    return error;
}

static enum filser_error check_sent(const struct filser *service) {
    if (service->exchange.is_running) return FILSER_ERROR_UNFINISHED;
    return service->order_count > 0 ? FILSER_ERROR_NOT_SENT : FILSER_ERROR_NONE;
}

enum filser_error filser_login(struct filser *service, unsigned job, uint32_t project, uint32_t programmer,
                               uint32_t words, const struct filser_memory *memory, struct filser_answer *answer) {
    enum filser_error error = check_sent(service);
    if (!error) error = filser_add_login(service, job, project, programmer, words, memory);
    return send_one(service, error, answer);
}

enum filser_error filser_deposit(struct filser *service, unsigned job, uint32_t address, const uint64_t *words,
                                 size_t count, struct filser_answer *answer) {
    enum filser_error error = check_sent(service);
    if (!error) error = filser_add_deposit(service, job, address, words, count);
    return send_one(service, error, answer);
}

enum filser_error filser_examine(struct filser *service, unsigned job, uint32_t address, uint32_t count,
                                 struct filser_answer *answer) {
    enum filser_error error = check_sent(service);
    if (!error) error = filser_add_examine(service, job, address, count);
    return send_one(service, error, answer);
}

enum filser_error filser_call(struct filser *service, unsigned job, enum filser_call_code code, unsigned channel,
                              uint32_t number, unsigned date, unsigned minute, struct filser_answer *answer) {
    enum filser_error error = check_sent(service);
    if (!error) error = filser_add_call(service, job, code, channel, number, date, minute);
    return send_one(service, error, answer);
}

enum filser_error filser_room(struct filser *service, uint64_t *blocks) {
    struct filser_answer answer = {FILSER_ANSWER_WRONG, 0, 0, NULL};
    enum filser_error error = check_sent(service);
    if (!error) error = filser_add_room(service);
    error = send_one(service, error, &answer);
    *blocks = answer.value;
    return error;
}

/* The process. */

/* Makes a pipe whose ends no program inherits, not even one that another thread starts meanwhile. */
static int pipe_for_us(int ends[2]) {
#ifdef __APPLE__ /* it has no pipe2, so there another thread may start a program between these calls */
    if (pipe(ends) != 0) return -1;
    return fcntl(ends[0], F_SETFD, FD_CLOEXEC) == 0 && fcntl(ends[1], F_SETFD, FD_CLOEXEC) == 0 ? 0 : -1;
#else
    return pipe2(ends, O_CLOEXEC);
#endif
}

/* Returns the same end of a pipe under a number that isn't a standard stream's. */
static int move_up(int file) {
    if (file > 2) return file;
    int moved = fcntl(file, F_DUPFD_CLOEXEC, 3);
    close(file);
    return moved;
}

static bool open_pipe(int ends[2]) {
    if (pipe_for_us(ends) != 0) return false;
    ends[0] = move_up(ends[0]);
    ends[1] = move_up(ends[1]);
    return ends[0] >= 0 && ends[1] >= 0;
}

static void close_pipe(const int ends[2]) {
    if (ends[0] >= 0) close(ends[0]);
    if (ends[1] >= 0) close(ends[1]);
}

static bool set_nonblocking(int file) {
    int flags = fcntl(file, F_GETFL);
    return flags >= 0 && fcntl(file, F_SETFL, flags | O_NONBLOCK) == 0;
}

/* The pipes of a program: to it, from it, and one whose writing end closes when the program runs. */
struct pipes {
    int to[2], from[2], failure[2];
};

/* Becomes the program, in the child; writes the error if that fails. Standard error comes first, since it may go where
   this process's output goes. */
static void become_program(const struct filser_options *options, const struct pipes *pipes) {
    const char *form = options->form == 2 ? "2" : "1";
    if (!options->shares_group) setsid();
    bool has_streams = options->error_output == 0 || dup2(options->error_output, 2) == 2;
    if (has_streams && dup2(pipes->to[0], 0) == 0 && dup2(pipes->from[1], 1) == 1)
        execlp(options->program, options->program, "wire", "--form", form, "--", options->image, (char *)NULL);
    int error = errno;
    while (write(pipes->failure[1], &error, sizeof error) < 0 && errno == EINTR) continue;
    _exit(127);
}

/* Runs the program between two pipes, and returns where to read the error if it can't be run; -1 if there is no
   process. */
static int run_program(struct filser *service, const struct filser_options *options) {
    struct pipes pipes = {{-1, -1}, {-1, -1}, {-1, -1}};
    if (open_pipe(pipes.to) && open_pipe(pipes.from) && open_pipe(pipes.failure) && set_nonblocking(pipes.to[1]) &&
        set_nonblocking(pipes.from[0]) && set_nonblocking(pipes.failure[0]))
        service->child = fork();
    if (service->child == 0) become_program(options, &pipes);
    if (service->child < 0) {
        close_pipe(pipes.to);
        close_pipe(pipes.from);
        close_pipe(pipes.failure);
        return -1;
    }
    close(pipes.to[0]);
    close(pipes.from[1]);
    close(pipes.failure[1]);
    service->to = pipes.to[1];
    service->from = pipes.from[0];
    return pipes.failure[0];
}

/* Returns whether another process has locked the image, as a service does. */
static bool is_in_use(const char *image) {
    int file = open(image, O_RDONLY | O_CLOEXEC | O_NONBLOCK);
    if (file < 0) return false;
    bool is_locked = flock(file, LOCK_SH | LOCK_NB) != 0 && errno == EWOULDBLOCK;
    close(file);
    return is_locked;
}

/* Stores the line that the program has printed instead of an answer. */
static void keep_printed(struct filser *service) {
    struct pollfd end = {service->from, POLLIN, 0};
    int64_t deadline = milliseconds() + service->timeout;
    close(service->to);
    service->to = -1;
    while (service->held.length < sizeof service->printed && read_answers(service) == FILSER_ERROR_NONE)
        if (poll(&end, 1, time_left(service, deadline)) == 0) break;
    size_t length = service->held.length < sizeof service->printed ? service->held.length : sizeof service->printed - 1;
    if (length > 0) memcpy(service->printed, service->held.data, length);
    service->printed[strcspn(service->printed, "\n")] = '\0';
}

/* Copies the options, of which an earlier version may have had fewer, and returns whether they are good. */
static bool take_options(const struct filser_options *given, struct filser_options *options) {
    memset(options, 0, sizeof *options);
    if (given->size < sizeof given->size || given->size > sizeof *options) return false;
    memcpy(options, given, given->size);
    return options->program != NULL && options->image != NULL && options->form >= 0 && options->form <= 2 &&
           options->timeout >= 0 && options->error_output >= 0;
}

/* Returns why the program hasn't answered. `failure` has the error if it couldn't be run. */
static enum filser_error why_not_started(struct filser *service, const char *image, int failure) {
    int error;
    if (service->child < 0) return FILSER_ERROR_NOT_STARTED;
    keep_printed(service);
    if (read(failure, &error, sizeof error) == sizeof error) {
        snprintf(service->printed, sizeof service->printed, "%s", strerror(error));
        return FILSER_ERROR_NOT_FOUND;
    }
    if (service->printed[0] != '?') return FILSER_ERROR_NOT_STARTED;
    return is_in_use(image) ? FILSER_ERROR_IN_USE : FILSER_ERROR_IMAGE_REFUSED;
}

enum filser_error filser_start(const struct filser_options *given, struct filser **service) {
    struct filser_options options;
    uint64_t blocks;
    *service = NULL;
    if (!take_options(given, &options)) return FILSER_ERROR_BAD_ARGUMENT;
    struct filser *started = calloc(1, sizeof *started);
    if (started == NULL) return FILSER_ERROR_NO_MEMORY;
    *service = started;
    started->child = started->to = started->from = -1;
    started->timeout = options.timeout;
    started->wake[0] = started->wake[1] = -1;
    bool is_ready = open_pipe(started->wake) && set_nonblocking(started->wake[0]) && set_nonblocking(started->wake[1]);
    int failure = is_ready ? run_program(started, &options) : -1;
    started->has_ended = failure < 0;
    enum filser_error error = filser_room(started, &blocks);
    if (error == FILSER_ERROR_ENDED || error == FILSER_ERROR_PROTOCOL)
        error = why_not_started(started, options.image, failure);
    if (failure >= 0) close(failure);
    return error;
}

/* Waits until the program has ended or the timeout is over; then the program is killed. */
static void wait_or_kill(pid_t child, int timeout) {
    const struct timespec pause = {0, 2000000};
    int64_t deadline = milliseconds() + timeout;
    siginfo_t ended;
    ended.si_pid = 0;
    while (waitid(P_PID, (id_t)child, &ended, WEXITED | WNOHANG | WNOWAIT) == 0 && ended.si_pid == 0) {
        if (milliseconds() >= deadline) {
            kill(child, SIGKILL);
            return;
        }
        nanosleep(&pause, NULL);
    }
}

/* Waits for the program, and returns its exit status. */
static int wait_for(pid_t child, int timeout) {
    int status;
    if (child < 0) return 127;
    if (timeout > 0) wait_or_kill(child, timeout);
    while (waitpid(child, &status, 0) < 0)
        if (errno != EINTR) return 127;
    return WIFEXITED(status) ? WEXITSTATUS(status) : -WTERMSIG(status);
}

/* A program that has answers to write waits until they are read, so both pipes are closed before it is waited for. */
int filser_stop(struct filser *service) {
    if (service == NULL) return 0;
    if (service->to >= 0) close(service->to);
    if (service->from >= 0) close(service->from);
    int status = wait_for(service->child, service->timeout);
    close_pipe(service->wake);
    forget_orders(service);
    for (int job = 0; job < JOBS; job++) free_core(service->cores[job]);
    free(service->sending.data);
    free(service->held.data);
    free(service->orders);
    free(service->answers);
    free(service->changes);
    free(service);
    return status;
}

const char *filser_printed(const struct filser *service) { return service == NULL ? "" : service->printed; }

const char *filser_version(void) { return FILSER_VERSION; }

const char *filser_error_text(enum filser_error error) {
    switch (error) {
    case FILSER_ERROR_NONE: return "no error";
    case FILSER_ERROR_BAD_ARGUMENT: return "an argument is outside its range, and nothing was sent";
    case FILSER_ERROR_BAD_WORD: return "a word has more than 36 bits, and nothing was sent";
    case FILSER_ERROR_NOT_LOGGED_IN: return "the job isn't logged in, and nothing was sent";
    case FILSER_ERROR_NOT_SENT: return "orders were collected and are not sent yet";
    case FILSER_ERROR_NO_MACHINE: return "the job logged in without a machine's memory, and nothing was sent";
    case FILSER_ERROR_MISSED: return "a word was changed and not reported, and nothing was sent";
    case FILSER_ERROR_UNFINISHED: return "the exchange isn't complete yet";
    case FILSER_ERROR_NO_MEMORY: return "this process has no memory, and nothing was sent";
    case FILSER_ERROR_LOST: return "this process has no memory for the answers";
    case FILSER_ERROR_NOT_FOUND: return "there is no such program, or it can't be run";
    case FILSER_ERROR_IN_USE: return "another process has the image";
    case FILSER_ERROR_IMAGE_REFUSED: return "the program refused the image";
    case FILSER_ERROR_NOT_STARTED: return "the program ended before its first answer";
    case FILSER_ERROR_ENDED: return "the program ended, its streams failed, or an earlier exchange did";
    case FILSER_ERROR_PROTOCOL: return "the program wrote something that can't be the answer";
    case FILSER_ERROR_TIMED_OUT: return "the answers didn't come in time";
    case FILSER_ERROR_INTERRUPTED: return "the exchange was interrupted";
    }
    return "no such error";
}

const char *filser_answer_text(enum filser_answer_kind kind) {
    static const char *const texts[] = {"WRONG", "DONE", "VALUE", "REFUSED", "STOPPED", "NO CHANNEL", "ADDRESS CHECK",
                                        "NO JOB", "NO MEMORY", "DEVICE", "FAILED", "DATE RANGE", "ROOM"};
    return (unsigned)kind < sizeof texts / sizeof *texts ? texts[kind] : "no such answer";
}

const char *filser_call_text(enum filser_call_code code) {
    static const struct { enum filser_call_code code; const char *text; } texts[] = {
        {FILSER_CALL_MAKDIR, "MAKDIR"}, {FILSER_CALL_REMDIR, "REMDIR"}, {FILSER_CALL_QUOTA, "QUOTA"},
        {FILSER_CALL_RESET, "RESET"},   {FILSER_CALL_OPEN, "OPEN"},     {FILSER_CALL_RENAME, "RENAME"},
        {FILSER_CALL_IN, "IN"},         {FILSER_CALL_OUT, "OUT"},       {FILSER_CALL_GETSTS, "GETSTS"},
        {FILSER_CALL_INBUF, "INBUF"},   {FILSER_CALL_OUTBUF, "OUTBUF"}, {FILSER_CALL_CLOSE, "CLOSE"},
        {FILSER_CALL_RELEAS, "RELEAS"}, {FILSER_CALL_USETI, "USETI"},   {FILSER_CALL_USETO, "USETO"},
        {FILSER_CALL_LOOKUP, "LOOKUP"}, {FILSER_CALL_ENTER, "ENTER"},
    };
    for (size_t place = 0; place < sizeof texts / sizeof *texts; place++)
        if (texts[place].code == code) return texts[place].text;
    return "no such call";
}

/* UUOs. */

/* The operation codes of UUOs that have no call of their own. */
enum { INIT = 041, CALLI = 047, STATO = 061, STATZ = 063, INPUT = 066, OUTPUT = 067 };
enum { CALLI_RESET = 0, CALLI_EXIT = 012 };

static size_t list_calls(struct call *calls, const struct call *wanted, size_t count) {
    memcpy(calls, wanted, count * sizeof *calls);
    return count;
}

/* Lists the calls of a CALLI, and returns how many there are. */
static size_t calli_calls(const struct uuo *uuo, struct call calls[CHANNELS]) {
    if (uuo->address == CALLI_RESET) return list_calls(calls, &(struct call){FILSER_CALL_RESET, 0, 0, 0}, 1);
    if (uuo->address != CALLI_EXIT || uuo->channel != 0) return 0;
    for (unsigned channel = 0; channel < CHANNELS; channel++)
        calls[channel] = (struct call){FILSER_CALL_RELEAS, channel, 0, 0};
    return CHANNELS;
}

/* Lists the calls that do a UUO, and returns how many there are: none if the service doesn't do it. */
static size_t uuo_calls(const struct uuo *uuo, struct call calls[CHANNELS]) {
    struct call one = {(enum filser_call_code)uuo->operation, uuo->channel, uuo->address, 0};
    switch (uuo->operation) {
    case CALLI: return calli_calls(uuo, calls);
    case INIT:
    case FILSER_CALL_OPEN: /* a monitor releases an open channel first */
        calls[0] = (struct call){FILSER_CALL_RELEAS, uuo->channel, 0, 0};
        one.code = FILSER_CALL_OPEN;
        one.number = uuo->operation == INIT ? uuo->pc : uuo->address;
        return 1 + list_calls(calls + 1, &one, 1);
    case INPUT: one.code = FILSER_CALL_IN; break;
    case OUTPUT: one.code = FILSER_CALL_OUT; break;
    case STATO:
    case STATZ:
    case FILSER_CALL_GETSTS:
        one.code = FILSER_CALL_GETSTS;
        one.number = 0;
        break;
    case FILSER_CALL_RELEAS: one.number = 0; break;
    default:
        if (uuo->operation < FILSER_CALL_OPEN || !is_call(one.code, one.channel, one.number)) return 0;
    }
    return list_calls(calls, &one, 1);
}

/* The machine's memory. A range of it lies in the accumulators or in one page. */

/* Returns words of the machine, which may be put into the buffer. */
static const uint64_t *words_of(const struct core *core, uint32_t first, size_t count, uint64_t buffer[PAGE_WORDS]) {
    const struct filser_memory *memory = &core->memory;
    if (memory->words != NULL) return first < ACCUMULATORS ? memory->accumulators + first : memory->words + first;
    memory->read(memory->context, first, count, buffer);
    return buffer;
}

static uint64_t word_of(const struct core *core, uint32_t address) {
    uint64_t buffer[PAGE_WORDS];
    return *words_of(core, address, 1, buffer);
}

static void put_words(const struct core *core, uint32_t first, size_t count, const uint64_t *words) {
    const struct filser_memory *memory = &core->memory;
    if (memory->words == NULL)
        memory->write(memory->context, first, count, words);
    else
        memcpy((first < ACCUMULATORS ? memory->accumulators : memory->words) + first, words, count * sizeof *words);
}

/* Collects deposits of the runs of words that differ from the copy. */
static enum filser_error add_runs(struct filser *service, unsigned job, const uint64_t *found, uint32_t first,
                                  size_t count) {
    const uint64_t *copy = service->cores[job]->words + first;
    enum filser_error error = FILSER_ERROR_NONE;
    if (memcmp(found, copy, count * sizeof *found) == 0) return error;
    for (size_t start = 0, end; start < count && !error; start = end) {
        end = start;
        while (end < count && found[end] != copy[end]) end++;
        if (end > start) error = filser_add_deposit(service, job, first + (uint32_t)start, found + start, end - start);
        while (end < count && found[end] == copy[end]) end++;
    }
    return error;
}

/* Returns where the words end that lie in one page, and were touched, or weren't, as the first. */
static uint32_t end_of_touched(const struct core *core, uint32_t first) {
    size_t end = first;
    while (end < core->size && core->touched[end / core->grain] == core->touched[first / core->grain]) {
        end = (end / core->grain + 1) * core->grain;
        if (end % PAGE_WORDS == 0) break;
    }
    return (uint32_t)(end < core->size ? end : core->size);
}

static uint32_t end_of_page(const struct core *core, uint32_t first) {
    size_t end = (first / PAGE_WORDS + 1) * (size_t)PAGE_WORDS;
    return (uint32_t)(end < core->size ? end : core->size);
}

/* Returns the first address, from one on, that is compared; the size of the core if there are no more. */
static uint32_t next_compared(const struct core *core, uint32_t first, bool compares_all) {
    size_t piece = first / core->grain;
    if (compares_all) return first;
    const bool *found = memchr(core->touched + piece, true, pieces_of(core) - piece);
    if (found == NULL) return (uint32_t)core->size;
    size_t address = (size_t)(found - core->touched) * core->grain;
    return address > first ? (uint32_t)address : first;
}

/* Returns FILSER_ERROR_MISSED if words that weren't touched differ from the copy. */
static enum filser_error find_missed(struct filser *service, const struct core *core, const uint64_t *found,
                                     uint32_t first, size_t count) {
    for (size_t place = 0; place < count; place++) {
        if (found[place] == core->words[first + place]) continue;
        service->missed = first + (uint32_t)place;
        return FILSER_ERROR_MISSED;
    }
    return FILSER_ERROR_NONE;
}

uint32_t filser_missed(const struct filser *service) { return service->missed; }

static enum filser_error check_instruction(const struct filser *service, const struct filser_instruction *instruction) {
    if (service->exchange.is_running) return FILSER_ERROR_UNFINISHED;
    if (service->order_count > 0) return FILSER_ERROR_NOT_SENT;
    if (instruction->word >= WORD_LIMIT) return FILSER_ERROR_BAD_WORD;
    if (instruction->job >= JOBS || instruction->address >= CORE_LIMIT || instruction->pc >= CORE_LIMIT)
        return FILSER_ERROR_BAD_ARGUMENT;
    return instruction->date >= 32768 || instruction->minute >= 1440 ? FILSER_ERROR_BAD_ARGUMENT : FILSER_ERROR_NONE;
}

void filser_touched(struct filser *service, unsigned job, uint32_t first, uint32_t count) {
    struct core *core = job < JOBS ? service->cores[job] : NULL;
    if (core != NULL) touch(core, first, (size_t)first + count);
}

/* Collects deposits of the words of the machine that differ from the service's core.

   This is right whatever a call reads, and doesn't depend on it: the copy has what the core of the service has, since
   only deposits and the words that answers return change that core, so after these deposits it is the machine's memory.
   An unchanged page costs one comparison. */
static enum filser_error add_changes(struct filser *service, unsigned job) {
    const struct core *core = service->cores[job];
    uint64_t buffer[PAGE_WORDS];
    if (core == NULL) return FILSER_ERROR_NOT_LOGGED_IN;
    if (!core->has_memory) return FILSER_ERROR_NO_MACHINE;
    bool is_debugged = core->memory.compare == FILSER_COMPARE_DEBUG && !core->is_fresh;
    bool compares_all = core->memory.compare != FILSER_COMPARE_TOUCHED || core->is_fresh;
    enum filser_error error = add_runs(service, job, words_of(core, 0, ACCUMULATORS, buffer), 0, ACCUMULATORS);
    uint32_t start = next_compared(core, ACCUMULATORS, compares_all);
    while (start < core->size && !error) {
        uint32_t end = compares_all && !is_debugged ? end_of_page(core, start) : end_of_touched(core, start);
        const uint64_t *found = words_of(core, start, end - start, buffer);
        error = is_debugged && !core->touched[start / core->grain]
                    ? find_missed(service, core, found, start, end - start)
                    : add_runs(service, job, found, start, end - start);
        start = next_compared(core, end, compares_all);
    }
    return error;
}

/* Collects the calls of a UUO. OPEN reads three words; the first one of an INIT is its effective address, so that takes
   the place of the instruction in the service's copy, and is corrected before the next UUO. */
static enum filser_error add_calls(struct filser *service, const struct filser_instruction *instruction) {
    struct exchange *exchange = &service->exchange;
    const uint64_t status = instruction->address;
    enum filser_error error = FILSER_ERROR_NONE;
    for (size_t place = 0; place < exchange->call_count && !error; place++) {
        struct call *call = &exchange->calls[place];
        if (exchange->uuo.operation == INIT && call->code == FILSER_CALL_OPEN)
            error = filser_add_deposit(service, instruction->job, instruction->pc, &status, 1);
        call->place = service->order_count;
        if (!error)
            error = filser_add_call(service, instruction->job, call->code, call->channel, call->number,
                                    instruction->date, instruction->minute);
    }
    return error;
}

/* Puts the words that an answer returns into the machine's memory, as runs of addresses in a row. */
static void put_changes(const struct core *core, const struct filser_answer *answer) {
    uint64_t run[PAGE_WORDS];
    size_t count = 0;
    for (size_t place = 0; place < answer->count; place++) {
        uint32_t address = answer->changes[place].address;
        run[count++] = answer->changes[place].word;
        bool goes_on = place + 1 < answer->count && answer->changes[place + 1].address == address + 1;
        if (goes_on && count < PAGE_WORDS && address + 1 != ACCUMULATORS) continue;
        put_words(core, address + 1 - (uint32_t)count, count, run);
        count = 0;
    }
}

/* Puts the words of the answers into the machine's memory, which then is as the copy, and returns the answer to the
   UUO: that of its first call that isn't done, or of its last. A channel that isn't open counts as closed. */
static struct filser_answer put_answers(struct filser *service, struct core *core) {
    struct filser_answer result = {FILSER_ANSWER_DONE, 0, 0, NULL};
    for (size_t place = 0; place < service->exchange.call_count; place++) {
        const struct call *call = &service->exchange.calls[place];
        struct filser_answer answer = service->answers[call->place];
        bool closes = call->code == FILSER_CALL_CLOSE || call->code == FILSER_CALL_RELEAS;
        put_changes(core, &answer);
        if (closes && answer.kind == FILSER_ANSWER_NO_CHANNEL) answer.kind = FILSER_ANSWER_DONE;
        if (result.kind == FILSER_ANSWER_DONE) result = answer;
    }
    forget_touched(core);
    return result;
}

/* Puts a word into the machine's memory that the copy doesn't have. */
static void put_word(struct core *core, uint32_t address, uint64_t word) {
    put_words(core, address, 1, &word);
    touch(core, address, (size_t)address + 1);
}

/* Puts what a monitor puts into the machine's memory besides what a call does. A GETSTS into a word that doesn't exist
   is an address check. After an INIT the copy doesn't have its instruction. */
static void settle(struct core *core, const struct uuo *uuo, struct filser_answer *answer) {
    if (uuo->operation == INIT) touch(core, uuo->pc, (size_t)uuo->pc + 1);
    if (uuo->operation == FILSER_CALL_GETSTS && uuo->address >= core->size) {
        answer->kind = FILSER_ANSWER_ADDRESS_CHECK;
        answer->value = 0;
    } else if (uuo->operation == FILSER_CALL_GETSTS && answer->kind == FILSER_ANSWER_VALUE) {
        put_word(core, uuo->address, answer->value);
    }
    uint64_t start = word_of(core, START_ADDRESS) >> 18;
    if (uuo->operation == CALLI && uuo->address == CALLI_RESET && answer->kind == FILSER_ANSWER_DONE && start != 0)
        put_word(core, FIRST_FREE, word_of(core, FIRST_FREE) >> 18 << 18 | start);
}

/* Returns how far the machine continues after a UUO with this answer. */
static int advance_of(const struct uuo *uuo, const struct filser_answer *answer) {
    bool done = answer->kind == FILSER_ANSWER_DONE, has_status = answer->kind == FILSER_ANSWER_VALUE;
    switch (uuo->operation) {
    case INIT: return done ? 4 : 3;
    case FILSER_CALL_OPEN:
    case FILSER_CALL_LOOKUP:
    case FILSER_CALL_ENTER:
    case FILSER_CALL_RENAME: return done ? 2 : 1;
    case FILSER_CALL_IN:
    case FILSER_CALL_OUT: return done ? 1 : 2;
    case STATZ: return has_status && (answer->value & uuo->address) == 0 ? 2 : 1;
    case STATO: return has_status && (answer->value & uuo->address) != 0 ? 2 : 1;
    default: return 1;
    }
}

/* Returns whether all deposits were done, or nothing was since the disk had failed: a call that ran without them has
   done something else than the machine wanted. */
static bool are_deposits_done(const struct filser *service) {
    for (size_t place = 0; place < service->order_count; place++)
        if (service->orders[place].kind == DEPOSIT && service->answers[place].kind != FILSER_ANSWER_DONE &&
            service->answers[place].kind != FILSER_ANSWER_FAILED)
            return false;
    return true;
}

/* Returns whether a UUO has an error return that shows why a call was refused. */
static bool has_error_return(unsigned operation) {
    return operation == INIT || operation == FILSER_CALL_OPEN || operation == FILSER_CALL_LOOKUP ||
           operation == FILSER_CALL_ENTER || operation == FILSER_CALL_RENAME;
}

/* Returns what a UUO did. */
static struct filser_outcome outcome_of(const struct uuo *uuo, const struct filser_answer *answer) {
    bool is_refused = answer->kind == FILSER_ANSWER_REFUSED;
    bool goes_on = answer->kind == FILSER_ANSWER_DONE || answer->kind == FILSER_ANSWER_VALUE ||
                   answer->kind == FILSER_ANSWER_STOPPED || (is_refused && has_error_return(uuo->operation));
    enum filser_next next = goes_on ? FILSER_NEXT_ADVANCE : FILSER_NEXT_STOP;
    return (struct filser_outcome){next, advance_of(uuo, answer), answer->kind, answer->value};
}

int filser_is_uuo(uint64_t word, uint32_t address) {
    struct call calls[CHANNELS];
    struct uuo uuo = {(unsigned)(word >> 27), (unsigned)(word >> 23 & 017), address, 0};
    return word < WORD_LIMIT && address < CORE_LIMIT && uuo_calls(&uuo, calls) > 0;
}

enum filser_error filser_begin_uuo(struct filser *service, const struct filser_instruction *instruction) {
    struct exchange *exchange = &service->exchange;
    enum filser_error error = check_instruction(service, instruction);
    if (error) return error;
    exchange->is_uuo = true;
    exchange->job = instruction->job;
    exchange->uuo = (struct uuo){(unsigned)(instruction->word >> 27), (unsigned)(instruction->word >> 23 & 017),
                                 instruction->address, instruction->pc};
    exchange->call_count = uuo_calls(&exchange->uuo, exchange->calls);
    exchange->is_running = exchange->call_count == 0; /* then there is nothing to send, and it is complete at once */
    if (exchange->is_running) return FILSER_ERROR_NONE;
    error = add_changes(service, instruction->job);
    if (!error) error = add_calls(service, instruction);
    if (!error) {
        error = begin(service);
        if (error) end(service, error);
    }
    if (error) forget_orders(service);
    return error;
}

enum filser_error filser_advance_uuo(struct filser *service, struct filser_outcome *outcome) {
    *outcome = (struct filser_outcome){FILSER_NEXT_NOT_MINE, 0, FILSER_ANSWER_WRONG, 0};
    if (!service->exchange.is_running || !service->exchange.is_uuo) return FILSER_ERROR_BAD_ARGUMENT;
    enum filser_error error = advance(service);
    if (error == FILSER_ERROR_UNFINISHED) return error;
    if (!error && !are_deposits_done(service)) error = end(service, FILSER_ERROR_PROTOCOL);
    if (!error && service->exchange.call_count > 0) {
        struct core *core = service->cores[service->exchange.job];
        struct filser_answer answer = put_answers(service, core);
        settle(core, &service->exchange.uuo, &answer);
        *outcome = outcome_of(&service->exchange.uuo, &answer);
    }
    forget_orders(service);
    return error;
}

enum filser_error filser_uuo(struct filser *service, const struct filser_instruction *instruction,
                             struct filser_outcome *outcome) {
    *outcome = (struct filser_outcome){FILSER_NEXT_NOT_MINE, 0, FILSER_ANSWER_WRONG, 0};
    enum filser_error error = filser_begin_uuo(service, instruction);
    while (!error && (error = filser_advance_uuo(service, outcome)) == FILSER_ERROR_UNFINISHED) {
        wait_for_exchange(service);
        error = FILSER_ERROR_NONE;
    }
    return error;
}

enum filser_error filser_logout(struct filser *service, unsigned job, unsigned date, unsigned minute,
                                struct filser_answer *answer) {
    const struct filser_answer *answers;
    struct filser_answer result = {FILSER_ANSWER_DONE, 0, 0, NULL};
    size_t count;
    enum filser_error error = check_sent(service);
    if (!error && (job >= JOBS || service->cores[job] == NULL)) error = FILSER_ERROR_NOT_LOGGED_IN;
    for (unsigned channel = 0; channel < CHANNELS && !error; channel++)
        error = filser_add_call(service, job, FILSER_CALL_RELEAS, channel, 0, date, minute);
    if (!error) error = filser_send(service, &answers, &count);
    if (error) return error;
    for (size_t place = 0; place < count && result.kind == FILSER_ANSWER_DONE; place++)
        if (answers[place].kind != FILSER_ANSWER_NO_CHANNEL) result = answers[place];
    if (answer != NULL) *answer = result;
    if (result.kind != FILSER_ANSWER_DONE) return FILSER_ERROR_NONE;
    free_core(service->cores[job]);
    service->cores[job] = NULL;
    service->is_out[job] = true;
    return FILSER_ERROR_NONE;
}

/* Words and numbers. */

enum filser_error filser_sixbit(const char *text, uint64_t *word) {
    size_t length = strlen(text);
    uint64_t made = 0;
    if (length > 6) return FILSER_ERROR_BAD_ARGUMENT;
    for (size_t place = 0; place < 6; place++) {
        char character = ' ';
        if (place < length) character = text[place];
        if (character < ' ' || character > '_') return FILSER_ERROR_BAD_ARGUMENT;
        made = made << 6 | (uint64_t)(character - ' ');
    }
    *word = made;
    return FILSER_ERROR_NONE;
}

enum filser_error filser_iowd(uint32_t count, uint32_t first, uint64_t *word) {
    if (count == 0 || count >= CORE_LIMIT || first == 0 || first >= CORE_LIMIT) return FILSER_ERROR_BAD_ARGUMENT;
    *word = (uint64_t)(CORE_LIMIT - count) << 18 | (first - 1);
    return FILSER_ERROR_NONE;
}

static int days_of(int year, int month) {
    static const int days[] = {31, 28, 31, 30, 31, 30, 31, 31, 30, 31, 30, 31};
    bool is_leap = year % 4 == 0 && (year % 100 != 0 || year % 400 == 0);
    return month == 2 && is_leap ? 29 : days[month - 1];
}

enum filser_error filser_date(int year, int month, int day, unsigned *date) {
    if (year < 1964 || year > 2052 || month < 1 || month > 12 || day < 1 || day > days_of(year, month))
        return FILSER_ERROR_BAD_ARGUMENT;
    int number = ((year - 1964) * 12 + month - 1) * 31 + day - 1;
    if (number >= 32768) return FILSER_ERROR_BAD_ARGUMENT;
    *date = (unsigned)number;
    return FILSER_ERROR_NONE;
}

enum filser_error filser_now(unsigned *date, unsigned *minute) {
    time_t now = time(NULL);
    struct tm parts;
    if (localtime_r(&now, &parts) == NULL) return FILSER_ERROR_BAD_ARGUMENT;
    *minute = (unsigned)(parts.tm_hour * 60 + parts.tm_min);
    return filser_date(parts.tm_year + 1900, parts.tm_mon + 1, parts.tm_mday, date);
}
