/* UUOs of a machine by the client in C, as an emulator does them; uuo.py does the same in Python.

   cc -I clients/c -o uuo examples/uuo.c clients/c/filser.c && ./uuo PROGRAM IMAGE

   The machine has the words of a program that writes a file in dump mode and reads it back. Numbers are octal. The image has
   layout 2, since layout 1 has no dates of today. */
#include "filser.h"

#include <inttypes.h>
#include <stdio.h>

enum { SIZE = 010000 };

static uint64_t accumulators[16], memory[SIZE];

static const struct { const char *name; uint64_t operation; uint32_t address; } UUOS[] = {
    {"OPEN", 050, 0200}, {"ENTER", 077, 0210}, {"OUT", 057, 0220}, {"CLOSE", 070, 0}, {"LOOKUP", 076, 0210},
    {"IN", 056, 0222},   {"RELEAS", 071, 0},   {"IN", 056, 0222},  {"TTCALL", 051, 0},
};

/* Fills the words of the program. */
static void load(void) {
    memory[0200] = 017; /* dump mode, the disk, no buffers */
    filser_sixbit("DSK", &memory[0201]);
    filser_sixbit("FOO", &memory[0210]);
    filser_sixbit("DAT", &memory[0211]);
    filser_iowd(3, 01000, &memory[0220]);
    filser_iowd(3, 02000, &memory[0222]);
    memory[01000] = 1;
    memory[01001] = 2;
    memory[01002] = 0777777777777;
}

/* Makes the directory [10,20]. */
static enum filser_error make_directory(struct filser *service) {
    const uint64_t words[2] = {(uint64_t)010 << 18 | 020, 0};
    enum filser_error error = filser_deposit(service, 1, 0300, words, 2, NULL);
    return error ? error : filser_call(service, 1, FILSER_CALL_MAKDIR, 0, 0300, 0, 0, NULL);
}

/* Does a UUO of the program, and prints where the machine goes on. */
static enum filser_error do_uuo(struct filser *service, const char *name, uint64_t operation, uint32_t address) {
    struct filser_instruction instruction = {.job = 1, .address = address};
    struct filser_outcome outcome;
    instruction.word = operation << 27 | 1 << 23 | address;
    filser_now(&instruction.date, &instruction.minute);
    enum filser_error error = filser_uuo(service, &instruction, &outcome);
    if (error) return error;
    if (outcome.next == FILSER_NEXT_NOT_MINE)
        printf("%s: not the service's\n", name);
    else if (outcome.next == FILSER_NEXT_STOP)
        printf("%s: the program stops, %s\n", name, filser_answer_text(outcome.kind));
    else
        printf("%s: go on %d\n", name, outcome.advance);
    return error;
}

static enum filser_error run(struct filser *service) {
    enum filser_error error = FILSER_ERROR_NONE;
    for (size_t place = 0; place < sizeof UUOS / sizeof *UUOS && !error; place++) {
        if (UUOS[place].operation == 076) { /* the program clears what ENTER has put there */
            filser_sixbit("DAT", &memory[0211]);
            memory[0212] = memory[0213] = 0;
            filser_touched(service, 1, 0211, 3);
        }
        error = do_uuo(service, UUOS[place].name, UUOS[place].operation, UUOS[place].address);
    }
    return error;
}

int main(int count, char **words) {
    struct filser *service = NULL;
    struct filser_options options = {.size = sizeof options};
    struct filser_memory machine = {.accumulators = accumulators, .words = memory, .compare = FILSER_COMPARE_TOUCHED};
    if (count != 3) return 2;
    options.program = words[1];
    options.image = words[2];
    load();
    enum filser_error error = filser_start(&options, &service);
    if (!error) error = filser_login(service, 1, 010, 020, SIZE, &machine, NULL);
    if (!error) error = make_directory(service);
    if (!error) error = run(service);
    if (error) fprintf(stderr, "%s: %s\n", filser_error_text(error), filser_printed(service));
    printf("%" PRIo64 " %" PRIo64 " %" PRIo64 "\n", memory[02000], memory[02001], memory[02002]);
    int status = filser_stop(service);
    return error ? 4 : status;
}
