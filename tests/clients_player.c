/* Plays lines by the client in C, as clients_player.py does by the client in Python; the head of that file describes
   the lines.

   usage: clients_player PROGRAM IMAGE FORM TIMEOUT [functions]

   With functions the machine's memory is read and written by functions; otherwise it is an array. */
#include "filser.h"

#include <inttypes.h>
#include <stdbool.h>
#include <stdio.h>
#include <stdlib.h>
#include <string.h>

#define MOST_WORDS ((size_t)1 << 18)
#define MOST_LINES 65536

struct line {
    char text[160], name[16];
    unsigned job;
    uint64_t numbers[4];
    int count;
};

struct core {
    uint64_t *words;
    size_t size;
};

static struct filser *service;
static struct core cores[256];
static uint64_t accumulators[16], memory[MOST_WORDS], was[MOST_WORDS];
static size_t memory_size;
static struct filser_memory given = {.accumulators = accumulators, .words = memory, .compare = FILSER_COMPARE_TOUCHED};
static struct filser_instruction instruction;
static uint32_t first_changed, last_changed;
static struct line batch[MOST_LINES];

static const struct { const char *name; enum filser_call_code code; int parts; } CALLS[] = {
    {"MAKDIR", FILSER_CALL_MAKDIR, 1}, {"REMDIR", FILSER_CALL_REMDIR, 1}, {"QUOTA", FILSER_CALL_QUOTA, 1},
    {"RESET", FILSER_CALL_RESET, 0},   {"OPEN", FILSER_CALL_OPEN, 2},     {"RENAME", FILSER_CALL_RENAME, 2},
    {"IN", FILSER_CALL_IN, 2},         {"OUT", FILSER_CALL_OUT, 2},       {"GETSTS", FILSER_CALL_GETSTS, 2},
    {"INBUF", FILSER_CALL_INBUF, 2},   {"OUTBUF", FILSER_CALL_OUTBUF, 2}, {"CLOSE", FILSER_CALL_CLOSE, 2},
    {"RELEAS", FILSER_CALL_RELEAS, 2}, {"USETI", FILSER_CALL_USETI, 2},   {"USETO", FILSER_CALL_USETO, 2},
    {"LOOKUP", FILSER_CALL_LOOKUP, 2}, {"ENTER", FILSER_CALL_ENTER, 2},
};

static const char *const ERRORS[] = {"NONE", "BAD_ARGUMENT", "BAD_WORD", "NOT_LOGGED_IN", "NOT_SENT", "NO_MACHINE",
                                     "MISSED", "UNFINISHED", "NO_MEMORY", "LOST", "NOT_FOUND", "IN_USE",
                                     "IMAGE_REFUSED", "NOT_STARTED", "ENDED", "PROTOCOL", "TIMED_OUT", "INTERRUPTED"};

static void print_answer(enum filser_answer_kind kind, uint64_t value) {
    static const char *const texts[] = {"WRONG", "DONE", "", "", "", "NOCHANNEL", "ADDRESS", "NOJOB", "NOMEMORY",
                                        "DEVICE", "FAILED", "DATE", ""};
    switch (kind) {
    case FILSER_ANSWER_VALUE: printf("VALUE %012" PRIo64, value); break;
    case FILSER_ANSWER_REFUSED: printf("REFUSED %" PRIo64, value); break;
    case FILSER_ANSWER_STOPPED: printf("STOPPED %06" PRIo64, value); break;
    case FILSER_ANSWER_ROOM: printf("ROOM %" PRIu64, value); break;
    default: printf("%s", texts[kind]);
    }
}

static enum filser_error print_error(enum filser_error error) {
    if (error) printf("ERROR %s\n", ERRORS[error]);
    return error;
}

/* Parses a line of a call script; UUO, POKE and HINT have their numbers in the same way. */
static void parse(struct line *line) {
    char *rest = line->text;
    line->count = 0;
    line->job = (unsigned)strtoul(rest, &rest, 8);
    if (sscanf(rest, " %15s", line->name) != 1) line->name[0] = '\0';
    rest = strstr(rest, line->name) + strlen(line->name);
    while (line->count < 4) {
        char *next;
        while (*rest == ',' || *rest == ' ') rest++;
        line->numbers[line->count] = strtoull(rest, &next, 8);
        if (next == rest) break;
        line->count++;
        rest = next;
    }
    for (int place = line->count; place < 4; place++) line->numbers[place] = 0;
}

/* Collects the order of a line. */
static enum filser_error add(const struct line *line) {
    const uint64_t *numbers = line->numbers;
    if (strcmp(line->name, "ROOM") == 0) return filser_add_room(service);
    if (strcmp(line->name, "LOGIN") == 0)
        return filser_add_login(service, line->job, (uint32_t)numbers[0], (uint32_t)numbers[1], (uint32_t)numbers[2],
                                &given);
    if (strcmp(line->name, "DEP") == 0)
        return filser_add_deposit(service, line->job, (uint32_t)numbers[0], &numbers[1], 1);
    if (strcmp(line->name, "EXA") == 0) return filser_add_examine(service, line->job, (uint32_t)numbers[0], 1);
    for (size_t place = 0; place < sizeof CALLS / sizeof *CALLS; place++)
        if (strcmp(line->name, CALLS[place].name) == 0) {
            unsigned channel = CALLS[place].parts < 2 ? 0 : (unsigned)numbers[0];
            return filser_add_call(service, line->job, CALLS[place].code, channel,
                                   (uint32_t)numbers[CALLS[place].parts < 2 ? 0 : 1], instruction.date,
                                   instruction.minute);
        }
    return FILSER_ERROR_BAD_ARGUMENT;
}

/* Prints the answer to the order of a line, and repeats its changes in the copy of a core. */
static void print_reply(const struct line *line, const struct filser_answer *answer) {
    struct core *core = &cores[line->job];
    if (answer->kind == FILSER_ANSWER_DONE && strcmp(line->name, "LOGIN") == 0) {
        memory_size = core->size = line->numbers[2];
        memset(memory, 0, sizeof memory);
        free(core->words);
        core->words = calloc(core->size, sizeof *core->words);
        if (core->words == NULL) exit(4);
        core->words[0121] = 0140;
    }
    bool is_done = answer->kind == FILSER_ANSWER_DONE;
    if (is_done && strcmp(line->name, "DEP") == 0) core->words[line->numbers[0]] = line->numbers[1];
    if (is_done && strcmp(line->name, "EXA") == 0)
        print_answer(FILSER_ANSWER_VALUE, answer->changes[0].word);
    else
        print_answer(answer->kind, answer->value);
}

/* Prints which words of a core have changed, and which the answer returned wrongly. */
static enum filser_error print_changes(unsigned job, const struct filser_change *told, size_t count) {
    struct filser_answer answer;
    struct core *core = &cores[job];
    memcpy(was, core->words, core->size * sizeof *was);
    enum filser_error error = filser_examine(service, job, 0, (uint32_t)core->size, &answer);
    for (size_t place = 0; place < answer.count && !error; place++) {
        core->words[place] = answer.changes[place].word;
        if (core->words[place] != was[place]) printf(" %zo=%012" PRIo64, place, core->words[place]);
    }
    for (size_t place = 0; place < count && !error; place++) {
        if (core->words[told[place].address] != told[place].word) printf(" MISTOLD %" PRIo32, told[place].address);
        was[told[place].address] = told[place].word;
    }
    for (size_t place = 0; place < core->size && !error; place++)
        if (core->words[place] != was[place]) printf(" UNTOLD %zo", place);
    return error;
}

static int is_call(const char *name) {
    return strcmp(name, "LOGIN") != 0 && strcmp(name, "DEP") != 0 && strcmp(name, "EXA") != 0;
}

/* Plays one line of a call script. */
static void play_order(const struct line *line) {
    const struct filser_answer *answers;
    size_t count;
    enum filser_error error = add(line);
    if (!error) error = filser_send(service, &answers, &count);
    if (print_error(error)) return;
    print_reply(line, answers);
    if (is_call(line->name) && cores[line->job].words != NULL) {
        size_t told = answers->count;
        struct filser_change *changes = malloc((told + 1) * sizeof *changes);
        if (changes == NULL) exit(4);
        memcpy(changes, answers->changes, told * sizeof *changes);
        error = print_changes(line->job, changes, told);
        free(changes);
    }
    printf("\n");
    print_error(error);
}

/* Plays lines whose orders are sent at once. */
static void play_batch(size_t lines) {
    const struct filser_answer *answers;
    size_t count;
    enum filser_error error = FILSER_ERROR_NONE;
    for (size_t place = 0; place < lines; place++) {
        if (fgets(batch[place].text, sizeof batch[place].text, stdin) == NULL) exit(4);
        parse(&batch[place]);
        if (!error) error = add(&batch[place]);
    }
    if (!error) error = filser_send(service, &answers, &count);
    if (print_error(error)) return;
    for (size_t place = 0; place < lines; place++) {
        print_reply(&batch[place], &answers[place]);
        printf("\n");
    }
}

/* Functions that read and write the machine's memory. */
static void read_memory(void *context, uint32_t first, size_t count, uint64_t *words) {
    (void)context;
    memcpy(words, first < 16 ? accumulators + first : memory + first, count * sizeof *words);
}

static void write_memory(void *context, uint32_t first, size_t count, const uint64_t *words) {
    (void)context;
    memcpy(first < 16 ? accumulators + first : memory + first, words, count * sizeof *words);
}

/* Notes the words of a HINT, or all. */
static void touch_words(unsigned job, size_t size) {
    if (last_changed == 0)
        filser_touched(service, job, 0, (uint32_t)size);
    else if (last_changed >= first_changed)
        filser_touched(service, job, first_changed, last_changed - first_changed + 1);
    first_changed = last_changed = 0;
}

/* Plays a UUO of the machine. */
static void play_uuo(const struct line *line) {
    struct filser_outcome outcome;
    struct filser_answer answer;
    size_t size = memory_size;
    uint64_t registers[16];
    memcpy(was, memory, size * sizeof *was);
    memcpy(registers, accumulators, sizeof registers);
    instruction.job = (unsigned)line->numbers[0];
    instruction.word = line->numbers[1];
    instruction.address = (uint32_t)line->numbers[2];
    instruction.pc = (uint32_t)line->numbers[3];
    touch_words(instruction.job, size);
    if (print_error(filser_uuo(service, &instruction, &outcome))) return;
    bool is_mine = outcome.next != FILSER_NEXT_NOT_MINE;
    if (filser_is_uuo(instruction.word, instruction.address) != is_mine) printf("NOT AS ASKED ");
    printf("%s%d ", outcome.next == FILSER_NEXT_STOP ? "STOP " : "", outcome.advance);
    print_answer(outcome.kind, outcome.value);
    for (size_t place = 0; place < 16; place++)
        if (accumulators[place] != registers[place]) printf(" %zo=%012" PRIo64, place, accumulators[place]);
    for (size_t place = 16; place < size; place++)
        if (memory[place] != was[place]) printf(" %zo=%012" PRIo64, place, memory[place]);
    enum filser_error error = filser_examine(service, instruction.job, 0, (uint32_t)size, &answer);
    for (size_t place = 0; place < size && !error; place++) {
        uint64_t word = place < 16 ? accumulators[place] : memory[place];
        cores[instruction.job].words[place] = answer.changes[place].word;
        if (answer.changes[place].word != word) printf(" BEHIND %zo", place);
    }
    printf("\n");
}

static void play_room(void) {
    uint64_t blocks;
    if (print_error(filser_room(service, &blocks))) return;
    print_answer(FILSER_ANSWER_ROOM, blocks);
    printf("\n");
}

static void play(struct line *line) {
    const uint64_t *numbers = line->numbers;
    unsigned long count;
    parse(line);
    if (sscanf(line->text, "AT %u %u", &instruction.date, &instruction.minute) == 2) return;
    if (strcmp(line->name, "POKE") == 0) {
        *(numbers[0] < 16 ? &accumulators[numbers[0]] : &memory[numbers[0]]) = numbers[1];
    } else if (strcmp(line->name, "HINT") == 0) {
        first_changed = (uint32_t)numbers[0];
        last_changed = (uint32_t)numbers[1];
    } else if (strcmp(line->name, "STOP") == 0) {
        printf("STATUS %d\n", filser_stop(service));
        service = NULL;
    } else if (service == NULL) {
        print_error(FILSER_ERROR_ENDED);
    } else if (sscanf(line->text, "BATCH %lu", &count) == 1 && count <= MOST_LINES) {
        play_batch(count);
    } else if (strcmp(line->name, "ROOM") == 0) {
        play_room();
    } else if (strcmp(line->name, "UUO") == 0) {
        play_uuo(line);
    } else {
        play_order(line);
    }
}

int main(int count, char **words) {
    static struct line line;
    struct filser_options options = {.size = sizeof options};
    if (count != 5 && count != 6) return 2;
    options.program = words[1];
    options.image = words[2];
    options.form = atoi(words[3]);
    options.timeout = atoi(words[4]);
    if (count == 6) {
        given.words = NULL;
        given.read = read_memory;
        given.write = write_memory;
    }
    setvbuf(stdout, NULL, _IOLBF, BUFSIZ);
    enum filser_error error = filser_start(&options, &service);
    if (error) {
        char printed[256];
        snprintf(printed, sizeof printed, "%s", filser_printed(service));
        printf("ERROR %s %d %s\n", ERRORS[error], filser_stop(service), printed);
        return 0;
    }
    while (fgets(line.text, sizeof line.text, stdin) != NULL) play(&line);
    int status = filser_stop(service);
    for (int job = 0; job < 256; job++) free(cores[job].words);
    return status;
}
