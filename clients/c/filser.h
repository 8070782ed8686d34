/* A client for `filser wire`: the disk of a PDP-10 emulator, served by a process over two pipes. C99 and POSIX; the
   header is C++17 too. docs/EMULATORS.md describes the wire. The client in Python, in clients/python, has the same
   functions.

   A service has an image to itself. Jobs log in, each with its own core; filser_deposit and filser_examine move words,
   filser_call makes a call of the monitor, and filser_uuo does a UUO of a running machine on the machine's own memory.
   Orders that are collected by filser_add_login and similar functions are sent by one write, by filser_send.

   Owners: a service owns the answers and texts that it returns. Answers live until the next function that collects or
   sends orders for this service; texts until filser_stop, or as long as the program if they are of no service. The
   options are copied, and so is a struct filser_memory, but not what it points to: that must live until the job logs in
   again or out, or the service is stopped.

   Threads: there is no global state, so several services may run at once, each in its thread. One thread at a time may
   use a service, with all its jobs; only filser_interrupt may be called from any thread, or from a handler of a signal.

   A program that runs one UUO, OPEN 1,210:

      #include "filser.h"
      #include <stdio.h>

      static uint64_t accumulators[16], core[4096];

      int main(int count, char **words) {
          struct filser *service = NULL;
          struct filser_options options = {.size = sizeof options};
          struct filser_memory memory = {.accumulators = accumulators, .words = core};
          struct filser_instruction open = {.job = 1, .word = 0050040000210, .address = 0210};
          struct filser_outcome outcome;
          if (count != 3) return 2;
          options.program = words[1];
          options.image = words[2];
          core[0121] = 0140;          // .JBFF, as a loader leaves it
          core[0210] = 017;           // dump mode
          core[0211] = 0446353000000; // SIXBIT /DSK/
          core[0212] = 0;             // no buffers

          enum filser_error error = filser_start(&options, &service);
          if (!error) error = filser_login(service, 1, 010, 020, 4096, &memory, NULL);
          if (!error) error = filser_uuo(service, &open, &outcome);
          if (error)
              fprintf(stderr, "%s: %s\n", filser_error_text(error), filser_printed(service));
          else if (outcome.next == FILSER_NEXT_NOT_MINE)
              printf("no UUO of the service\n");
          else if (outcome.next == FILSER_NEXT_STOP)
              printf("the program stops: %s\n", filser_answer_text(outcome.kind));
          else
              printf("%s, go on %d words\n", filser_answer_text(outcome.kind), outcome.advance);
          int status = filser_stop(service);
          return error ? 4 : status;
      }
*/
#ifndef FILSER_H
#define FILSER_H

#include <stddef.h>
#include <stdint.h>

/* The version of this client, and of the wire that it speaks. A program doesn't tell which wire it speaks, so
   filser_start can compare nothing; it finds a program that doesn't answer a ROOM. */
#define FILSER_VERSION "0.1.0"
#define FILSER_WIRE_VERSION 1

#ifdef __cplusplus
extern "C" {
#endif

/* Why there was no answer. A refusal of the service isn't an error of the client, but an answer. */
enum filser_error {
    FILSER_ERROR_NONE = 0,
    FILSER_ERROR_BAD_ARGUMENT,  /* an argument is outside its range, and nothing was sent */
    FILSER_ERROR_BAD_WORD,      /* a word has more than 36 bits, and nothing was sent */
    FILSER_ERROR_NOT_LOGGED_IN, /* the job isn't logged in, and nothing was sent */
    FILSER_ERROR_NOT_SENT,      /* orders were collected and haven't been sent yet */
    FILSER_ERROR_NO_MACHINE,    /* the job logged in without a machine's memory, and nothing was sent */
    FILSER_ERROR_MISSED,        /* a word was changed and not reported, see filser_missed; nothing was sent */
    FILSER_ERROR_UNFINISHED,    /* an exchange that was begun isn't complete yet */
    FILSER_ERROR_NO_MEMORY,     /* this process has no memory, and nothing was sent: the call may be repeated */
    FILSER_ERROR_LOST,          /* there was no memory for the answers to what was sent: stop the service */
    FILSER_ERROR_NOT_FOUND,     /* there is no such program, or it can't be run; filser_printed has the reason */
    FILSER_ERROR_IN_USE,        /* another process has the image */
    FILSER_ERROR_IMAGE_REFUSED, /* the program refused the image; filser_printed has its line */
    FILSER_ERROR_NOT_STARTED,   /* the program ended before its first answer for another reason; see filser_stop */
    FILSER_ERROR_ENDED,         /* the program or an earlier exchange ended, or a stream failed: stop the service */
    FILSER_ERROR_PROTOCOL,      /* the program wrote something that can't be the answer: stop the service */
    FILSER_ERROR_TIMED_OUT,     /* the answers didn't come in time: stop the service */
    FILSER_ERROR_INTERRUPTED    /* filser_interrupt was called: stop the service */
};

/* The kinds of answers. */
enum filser_answer_kind {
    FILSER_ANSWER_WRONG = 0, /* the record wasn't an order: no such answer is returned */
    FILSER_ANSWER_DONE = 1,
    FILSER_ANSWER_VALUE = 2,   /* the value is a status */
    FILSER_ANSWER_REFUSED = 3, /* the value is the error code */
    FILSER_ANSWER_STOPPED = 4, /* the value is the status: end of file, or no room */
    FILSER_ANSWER_NO_CHANNEL = 5,
    FILSER_ANSWER_ADDRESS_CHECK = 6,
    FILSER_ANSWER_NO_JOB = 7,
    FILSER_ANSWER_NO_MEMORY = 8, /* of the service; nothing was done, and the call may be repeated */
    FILSER_ANSWER_DEVICE = 9,    /* the disk failed: start again */
    FILSER_ANSWER_FAILED = 10,   /* it had failed before */
    FILSER_ANSWER_DATE_RANGE = 11,
    FILSER_ANSWER_ROOM = 12 /* the value is the number of blocks that are left */
};

/* The calls: the operation codes of their UUOs, and the service's own for directories. */
enum filser_call_code {
    FILSER_CALL_MAKDIR = 1,
    FILSER_CALL_REMDIR = 2,
    FILSER_CALL_QUOTA = 3,
    FILSER_CALL_RESET = 047,
    FILSER_CALL_OPEN = 050,
    FILSER_CALL_RENAME = 055,
    FILSER_CALL_IN = 056,
    FILSER_CALL_OUT = 057,
    FILSER_CALL_GETSTS = 062,
    FILSER_CALL_INBUF = 064,
    FILSER_CALL_OUTBUF = 065,
    FILSER_CALL_CLOSE = 070,
    FILSER_CALL_RELEAS = 071,
    FILSER_CALL_USETI = 074,
    FILSER_CALL_USETO = 075,
    FILSER_CALL_LOOKUP = 076,
    FILSER_CALL_ENTER = 077
};

/* A word of a job's core at its address. */
struct filser_change {
    uint32_t address;
    uint64_t word;
};

/* An answer. Its changes belong to the service, and live until orders are collected or sent again. */
struct filser_answer {
    enum filser_answer_kind kind;
    uint64_t value;
    size_t count;
    const struct filser_change *changes;
};

/* Which words of a machine are compared, before a UUO, with those that the service has: all, or those that
   filser_touched has named and the accumulators. FILSER_COMPARE_DEBUG compares all, and a word that differs and wasn't
   named is FILSER_ERROR_MISSED. After a LOGIN all are compared once in any case. */
enum filser_compare { FILSER_COMPARE_ALL = 0, FILSER_COMPARE_TOUCHED, FILSER_COMPARE_DEBUG };

/* The memory of the machine that runs a job: arrays of words, or functions for a machine that stores them otherwise.
   What an initializer doesn't name is 0. */
struct filser_memory {
    uint64_t *accumulators; /* 16 words: addresses 0 to 17 (octal) */
    uint64_t *words;        /* as many as the core, from address 0; the first 16 aren't used; or NULL */

    /* If `words` is NULL: functions that copy `count` words of the machine, from address `first`; 0 to 17 (octal) are
       the accumulators. All addresses are in the core. They mustn't call functions of this client. */
    void (*read)(void *context, uint32_t first, size_t count, uint64_t *words);
    void (*write)(void *context, uint32_t first, size_t count, const uint64_t *words);
    void *context;

    enum filser_compare compare;
};

/* A UUO that a machine has reached. */
struct filser_instruction {
    unsigned job;
    uint64_t word;         /* the instruction */
    uint32_t address;      /* its effective address, which the emulator has computed */
    uint32_t pc;           /* what the machine's PC had when it fetched the instruction; under XCT the address of the
                              first XCT, after which the machine goes on. It matters to INIT, which has two more words
                              there */
    unsigned date, minute; /* the moment of the call, as of filser_now */
};

/* Where a machine goes on after a UUO. */
enum filser_next {
    FILSER_NEXT_NOT_MINE = 0, /* it isn't a UUO that the service does, and nothing was sent */
    FILSER_NEXT_ADVANCE,      /* `advance` words after the UUO: 1, 2 if it skips, 3 or 4 after an INIT */
    FILSER_NEXT_STOP          /* the monitor would have stopped the program, for the reason `kind`: an address check, a
                                 channel that isn't open, a refusal or a failure for which the UUO has no error return.
                                 An emulator that goes on nevertheless advances by `advance` */
};

/* What a UUO did. It was done if the kind is FILSER_ANSWER_DONE or FILSER_ANSWER_VALUE. */
struct filser_outcome {
    enum filser_next next;
    int advance;
    enum filser_answer_kind kind;
    uint64_t value;
};

/* How a service is started. The first member is the size of this structure, since later versions may add others; what
   an initializer doesn't name is 0, and means as today. */
struct filser_options {
    size_t size;
    const char *program; /* found as a shell finds it */
    const char *image;   /* any path, also one that begins with a hyphen */
    int form;            /* 1 or 2; 0 is 1 */
    int timeout;         /* how long an exchange may take, in milliseconds; 0 is as long as it takes */
    int shares_group;    /* 0: the program runs in a session of its own, so that what the terminal sends to this
                            process, such as an interrupt, doesn't end it; 1: it stays in this process's group */
    int error_output;    /* the descriptor where the program's standard error goes; 0 is where this process's goes */
};

struct filser;

/* Starts the program, and waits until it serves the image. Even after an error there is a service for filser_printed
   and filser_stop; it is NULL only if there is no memory, or if the options are wrong. */
enum filser_error filser_start(const struct filser_options *options, struct filser **service);

/* Ends the exchange, waits for the program, frees the service, and returns the exit status: 127 if the program couldn't
   be run, or minus the signal that ended it. A program that hasn't ended after the options' timeout is killed, which
   loses nothing that was answered DONE. If answers are unread, the program ends with status 4. NULL has status 0. */
int filser_stop(struct filser *service);

/* Returns the line that a program printed that didn't start, such as "?Not a volume", or why there is no such program;
   otherwise an empty text. It belongs to the service. */
const char *filser_printed(const struct filser *service);

/* Return texts for people, which last as long as the program: of an error, and names such as "ADDRESS CHECK" and "OPEN"
   of answers and calls. */
const char *filser_error_text(enum filser_error error);
const char *filser_answer_text(enum filser_answer_kind kind);
const char *filser_call_text(enum filser_call_code code);

/* Returns FILSER_VERSION as it was when the client was compiled. */
const char *filser_version(void);

/* Returns 1 if the exchange has ended, so that nothing is left but filser_stop. */
int filser_has_ended(const struct filser *service);

/* Ends the exchange that runs, or the next one, with FILSER_ERROR_INTERRUPTED. It may be called from any thread and
   from a handler of a signal, but not while filser_stop runs. */
void filser_interrupt(struct filser *service);

/* Collects orders. After an error no order was added. The memory is needed for UUOs of the job, and may be NULL. */
enum filser_error filser_add_login(struct filser *service, unsigned job, uint32_t project, uint32_t programmer,
                                   uint32_t words, const struct filser_memory *memory);
enum filser_error filser_add_deposit(struct filser *service, unsigned job, uint32_t address, const uint64_t *words,
                                     size_t count);
enum filser_error filser_add_examine(struct filser *service, unsigned job, uint32_t address, uint32_t count);
enum filser_error filser_add_call(struct filser *service, unsigned job, enum filser_call_code code, unsigned channel,
                                  uint32_t number, unsigned date, unsigned minute);
enum filser_error filser_add_room(struct filser *service);

/* Sends what was collected, waits, and returns the answers in the same order. They are read while the orders are
   written, so there may be as many as memory has room for. */
enum filser_error filser_send(struct filser *service, const struct filser_answer **answers, size_t *count);

/* The same as single orders, each sent at once; the answer may be NULL. They are refused while collected orders
   wait. */
enum filser_error filser_login(struct filser *service, unsigned job, uint32_t project, uint32_t programmer,
                               uint32_t words, const struct filser_memory *memory, struct filser_answer *answer);
enum filser_error filser_deposit(struct filser *service, unsigned job, uint32_t address, const uint64_t *words,
                                 size_t count, struct filser_answer *answer);
enum filser_error filser_examine(struct filser *service, unsigned job, uint32_t address, uint32_t count,
                                 struct filser_answer *answer);
enum filser_error filser_call(struct filser *service, unsigned job, enum filser_call_code code, unsigned channel,
                              uint32_t number, unsigned date, unsigned minute, struct filser_answer *answer);
enum filser_error filser_room(struct filser *service, uint64_t *blocks);

/* Releases all channels of a job, as EXIT does, and frees the copy of its core: orders for the job are then refused
   until it logs in again. The answer, which may be NULL, is that of the first RELEAS that wasn't done; then the job
   stays logged in. */
enum filser_error filser_logout(struct filser *service, unsigned job, unsigned date, unsigned minute,
                                struct filser_answer *answer);

/* Returns 1 if filser_uuo does a UUO with this word and effective address. */
int filser_is_uuo(uint64_t word, uint32_t address);

/* Notes that a machine has changed words: any number of times between two UUOs, in any order. What is noted is stored
   until a UUO that is sent carries it, whatever becomes of those before. Words outside the core, and jobs that aren't
   logged in, don't matter. */
void filser_touched(struct filser *service, unsigned job, uint32_t first, uint32_t count);

/* Does a UUO on the memory that the job logged in with. After an error nothing of that memory was changed. Nothing is
   sent if a word that the service hasn't got yet has more than 36 bits. */
enum filser_error filser_uuo(struct filser *service, const struct filser_instruction *instruction,
                             struct filser_outcome *outcome);

/* Returns the address of the first word that FILSER_ERROR_MISSED found. */
uint32_t filser_missed(const struct filser *service);

/* For an event loop: filser_begin writes what was collected, as far as the pipe takes it, and filser_begin_uuo the
   orders of a UUO; neither waits. While filser_advance, or for a UUO filser_advance_uuo, returns
   FILSER_ERROR_UNFINISHED, wait for what filser_waits_for returns, and call it again. Until it returns something else
   other functions are refused with this error. The machine mustn't run on, nor change its memory, while a UUO isn't
   complete. A UUO that isn't the service's is complete at once. */
enum filser_error filser_begin(struct filser *service);
enum filser_error filser_advance(struct filser *service, const struct filser_answer **answers, size_t *count);
enum filser_error filser_begin_uuo(struct filser *service, const struct filser_instruction *instruction);
enum filser_error filser_advance_uuo(struct filser *service, struct filser_outcome *outcome);

/* What an exchange waits for, as for poll. */
struct filser_waits {
    int readable;  /* this descriptor has to be readable */
    int writable;  /* or this one writable; -1 if all is written */
    int interrupt; /* or this one readable, after filser_interrupt */
    int timeout;   /* or these milliseconds have to be over; -1 if there is no timeout */
};
struct filser_waits filser_waits_for(const struct filser *service);

/* Make words and numbers, and refuse with FILSER_ERROR_BAD_ARGUMENT what has none: a text of up to six characters from
   space to underscore in SIXBIT; a word of a command list, `count` words from `first` on; the number of a date from
   1-Jan-1964 to 1-Feb-2052; the date and minute that it is now, in local time. */
enum filser_error filser_sixbit(const char *text, uint64_t *word);
enum filser_error filser_iowd(uint32_t count, uint32_t first, uint64_t *word);
enum filser_error filser_date(int year, int month, int day, unsigned *date);
enum filser_error filser_now(unsigned *date, unsigned *minute);

#ifdef __cplusplus
}
#endif

#endif
