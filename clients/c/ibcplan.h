/* ibcplan.h: the planner ibcplan in a process of your own.

   Every call is a run of the program `ibcplan`, on a thread of its own and on memory alone: its standard input, output
   and error are texts. A script and a report are what docs/FORMATS.md says; so are the statuses.

   Threads: calls on different threads don't disturb one another. A follower is used by one call at a time; which
   thread calls doesn't matter. No call may come from a signal handler, or from the forked child of a process that has
   threads. The program starts threads of its own with more than one worker, and has ended them when a call returns;
   a follower has a thread until it is closed.

   Memory: what a call gives out in an ibcplan_text belongs to the caller, who frees it by ibcplan_free. A call reads
   its arguments until it returns, and keeps none of them. */
#ifndef IBCPLAN_H
#define IBCPLAN_H

#include <stddef.h>
#include <stdint.h>

#ifdef __cplusplus
extern "C" {
#endif

/* The version of these declarations. It changes when a caller has to be compiled anew. */
#define IBCPLAN_ABI 1
uint32_t ibcplan_abi(void);

/* A text of so many bytes; behind them stands a 0 that doesn't count. `at` is NULL of an empty text. */
typedef struct ibcplan_text {
  char *at;
  size_t len;
} ibcplan_text;

void ibcplan_free(ibcplan_text *text);

/* Statuses, those of the program (docs/FORMATS.md, The command line). */
enum {
  IBCPLAN_DONE = 0,    /* take the answer */
  IBCPLAN_REFUSED = 1, /* the text has a fault: with IBCPLAN_JSON the answer has it, and `problem` says more */
  IBCPLAN_MISUSED = 2, /* the call is wrong */
  IBCPLAN_NO = 3,      /* the certificate isn't right: the answer has the first reason */
  IBCPLAN_FAILED = 4,  /* no memory, or no thread: throw the answer away */
  IBCPLAN_PARTLY = 6   /* IBCPLAN_STRICT, and something in the report is refused: take the answer */
};

/* What an answer is to be. */
enum {
  IBCPLAN_JSON = 1,     /* JSON */
  IBCPLAN_STRICT = 2,   /* the status tells whether something is refused */
  IBCPLAN_NO_LABELS = 4 /* without the labels of heights */
};

/* The program, its format and the versions of scripts that it takes, as JSON. */
int ibcplan_version(ibcplan_text *answer);

/* The report of a script, by so many workers, 0 to 64. Of the flags IBCPLAN_JSON and IBCPLAN_STRICT count. */
int ibcplan_plan(const char *script, size_t len, uint32_t flags, uint32_t workers, ibcplan_text *report, ibcplan_text *problem);

/* The verdict on a certificate: IBCPLAN_DONE and `yes`, or IBCPLAN_NO and the first reason. Of the flags IBCPLAN_JSON
   counts. A script that has a line `---` is IBCPLAN_MISUSED. */
int ibcplan_certify(const char *script, size_t len, const char *certificate, size_t certificate_len, uint32_t flags, ibcplan_text *verdict,
                    ibcplan_text *problem);

/* Turns as they come. */
typedef struct ibcplan_follower ibcplan_follower;

/* Begins with a setup, which is a script without turns. With a journal, the path of a file, each turn is on the disk
   before its answer; `journal` may be NULL. `past` has the first line, and the answers to the turns that the file had.
   Of the flags IBCPLAN_JSON and IBCPLAN_NO_LABELS count. A setup that has a line `---` is IBCPLAN_MISUSED. */
int ibcplan_follow(const char *setup, size_t len, uint32_t flags, uint32_t workers, const char *journal, ibcplan_follower **follower,
                   ibcplan_text *past, ibcplan_text *problem);

/* The answer to a turn: its report, or its fault, which changes nothing; both are IBCPLAN_DONE. A turn that has a line
   `---` is IBCPLAN_MISUSED, and changes nothing. With any other status the follower has ended: close it. */
int ibcplan_answer(ibcplan_follower *follower, const char *turn, size_t len, ibcplan_text *answer, ibcplan_text *problem);

/* Ends the follower and frees it. NULL is fine. */
void ibcplan_close(ibcplan_follower *follower);

/* Any other run of the program, by the words of a command line without its first, as {"health", "-"}: those that write
   files, too. */
int ibcplan_run(size_t count, const char *const *words, const char *input, size_t len, ibcplan_text *output, ibcplan_text *problem);

#ifdef __cplusplus
}
#endif
#endif
