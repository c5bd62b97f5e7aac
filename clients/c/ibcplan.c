/* ibcplan.c: the functions of ibcplan.h, over the program `ibcplan`.

   The program's object file is linked in, its `main` under the name ibcplan_program. The program asks the C library for
   input, output and its arguments. The build gives it the functions ibcplan_os_.. below in place of read, write and a
   few more, and rattle_arg and rattle_arg_count in place of the kit's: so descriptors 0, 1 and 2 of a run are texts in
   memory, and every other descriptor is the system's. What is proved of the program rests on what the kit's libraries
   say of these functions; whoever links this file answers for that. */
#define _GNU_SOURCE
#include "ibcplan.h"

#include <errno.h>
#include <pthread.h>
#include <setjmp.h>
#include <stdbool.h>
#include <stdio.h>
#include <stdlib.h>
#include <string.h>
#include <unistd.h>

int ibcplan_program(void);

enum { STACK = 16 << 20 }; /* a run may nest: texts are read 80 deep */

typedef struct {
  ibcplan_text text;
  size_t room;
  bool failed;
} growing;

static bool append(growing *to, const void *from, size_t count) {
  if (to->failed || count > SIZE_MAX / 4 - to->text.len) return false;
  if (to->text.len + count + 1 > to->room) {
    size_t room = 2 * (to->text.len + count) + 256;
    char *at = realloc(to->text.at, room);
    if (at == NULL) {
      to->failed = true;
      return false;
    }
    to->text.at = at;
    to->room = room;
  }
  if (count > 0) memcpy(to->text.at + to->text.len, from, count);
  to->text.len += count;
  to->text.at[to->text.len] = 0;
  return true;
}

/* Gives out what was gathered, and begins anew. */
static void give(growing *from, ibcplan_text *to) {
  if (to != NULL) {
    *to = from->text;
  } else {
    free(from->text.at);
  }
  *from = (growing){0};
}

typedef struct {
  size_t count;
  const char *const *words; /* without the first */
  const char *input;
  size_t left;
  growing output, problem;
  ibcplan_follower *follower;
  int status;
  jmp_buf end;
} run;

static __thread run *current;

/* Of a follower: whose move it is. */
enum move { PROGRAM, CALLER, ENDED };

struct ibcplan_follower {
  run run;
  pthread_t thread;
  pthread_mutex_t lock;
  pthread_cond_t moved;
  enum move move;
  bool closes;
  int status;
  const char *words[9];
  char workers[16];
};

/* On the follower's thread: what was answered is the caller's, who gives the next turn or closes. */
static void await_turn(run *of) {
  ibcplan_follower *follower = of->follower;
  pthread_mutex_lock(&follower->lock);
  if (!follower->closes) {
    follower->move = CALLER;
    pthread_cond_broadcast(&follower->moved);
    while (follower->move == CALLER) pthread_cond_wait(&follower->moved, &follower->lock);
  }
  pthread_mutex_unlock(&follower->lock);
}

ssize_t ibcplan_os_read(int fd, void *to, size_t count) {
  run *of = current;
  if (of == NULL || fd != 0) return read(fd, to, count);
  if (of->left == 0 && of->follower != NULL && count > 0) await_turn(of);
  size_t taken = count < of->left ? count : of->left;
  if (taken > 0) memcpy(to, of->input, taken);
  of->input += taken;
  of->left -= taken;
  return (ssize_t)taken;
}

ssize_t ibcplan_os_write(int fd, const void *from, size_t count) {
  run *of = current;
  if (of == NULL || (fd != 1 && fd != 2)) return write(fd, from, count);
  if (append(fd == 1 ? &of->output : &of->problem, from, count)) return (ssize_t)count;
  errno = ENOMEM;
  return -1;
}

off_t ibcplan_os_lseek(int fd, off_t to, int from) {
  if (current == NULL || fd != 0) return lseek(fd, to, from);
  errno = ESPIPE;
  return -1;
}

int ibcplan_os_isatty(int fd) { return current != NULL && fd >= 0 && fd <= 2 ? 0 : isatty(fd); }

/* The program would have SIGPIPE ignored: signals are the host's. */
void *ibcplan_os_signal(int number, void *action) {
  (void)number, (void)action;
  return NULL;
}

size_t rattle_arg_count(void) { return current == NULL ? 0 : current->count + 1; }

ssize_t rattle_arg(size_t place, unsigned char *to, size_t room) {
  if (place >= rattle_arg_count()) return -1;
  const char *word = place == 0 ? "ibcplan" : current->words[place - 1];
  size_t length = strlen(word);
  if (length > room) {
    memcpy(to, word, room);
    return -2;
  }
  memcpy(to, word, length);
  return (ssize_t)length;
}

/* The program's last step: by then it has dropped what it had, and joined its threads. */
_Noreturn void ibcplan_os_exit(int status) {
  if (current == NULL) _exit(status);
  current->status = status & 255;
  longjmp(current->end, 1);
}

static int status_of(run *of) {
  run *volatile before = current;
  current = of;
  if (setjmp(of->end) == 0) of->status = ibcplan_program();
  current = before;
  return of->output.failed || of->problem.failed ? IBCPLAN_FAILED : of->status;
}

static void clear(ibcplan_text *one, ibcplan_text *other) {
  if (one != NULL) *one = (ibcplan_text){0};
  if (other != NULL) *other = (ibcplan_text){0};
}

/* Starts a thread with room for a run on its stack. */
static bool start(pthread_t *thread, void *(*body)(void *), void *of) {
  pthread_attr_t attributes;
  if (pthread_attr_init(&attributes) != 0) return false;
  bool is_started = pthread_attr_setstacksize(&attributes, STACK) == 0 && pthread_create(thread, &attributes, body, of) == 0;
  pthread_attr_destroy(&attributes);
  return is_started;
}

static void *whole(void *of) {
  ((run *)of)->status = status_of(of);
  return NULL;
}

/* On a thread of its own, since the caller's may have too little stack. */
int ibcplan_run(size_t count, const char *const *words, const char *input, size_t len, ibcplan_text *output, ibcplan_text *problem) {
  run of = {.count = count, .words = words, .input = input, .left = len};
  pthread_t thread;
  clear(output, problem);
  if (!start(&thread, whole, &of)) return IBCPLAN_FAILED;
  pthread_join(thread, NULL);
  give(&of.output, output);
  give(&of.problem, problem);
  return of.status;
}

/* Whether a line of the text is `---`, which ends a document. */
static bool has_mark(const char *text, size_t len) {
  for (size_t at = 0; at < len;) {
    const char *end = memchr(text + at, '\n', len - at);
    size_t line = end == NULL ? len - at : (size_t)(end - text) - at;
    if (line > 0 && end != NULL && text[at + line - 1] == '\r') line--;
    if (line == 3 && memcmp(text + at, "---", 3) == 0) return true;
    if (end == NULL) return false;
    at = (size_t)(end - text) + 1;
  }
  return false;
}

/* A document, the line that ends it, and what comes behind. */
static growing documents(const char *first, size_t len, const char *rest, size_t rest_len) {
  static const char MARK[] = "\n---\n";
  growing whole = {0};
  append(&whole, first, len);
  append(&whole, MARK, sizeof MARK - 1);
  append(&whole, rest, rest_len);
  return whole;
}

uint32_t ibcplan_abi(void) { return IBCPLAN_ABI; }

void ibcplan_free(ibcplan_text *text) {
  if (text == NULL) return;
  free(text->at);
  *text = (ibcplan_text){0};
}

int ibcplan_version(ibcplan_text *answer) {
  const char *words[] = {"--version", "--json"};
  return ibcplan_run(2, words, NULL, 0, answer, NULL);
}

int ibcplan_plan(const char *script, size_t len, uint32_t flags, uint32_t workers, ibcplan_text *report, ibcplan_text *problem) {
  char number[16];
  const char *words[8];
  size_t count = 0;
  words[count++] = workers == 0 ? "plan" : "run";
  if (workers > 0) {
    snprintf(number, sizeof number, "%u", workers);
    words[count++] = "--workers";
    words[count++] = number;
  }
  if (flags & IBCPLAN_JSON) words[count++] = "--json";
  if (flags & IBCPLAN_STRICT) words[count++] = "--strict";
  words[count++] = "-";
  return ibcplan_run(count, words, script, len, report, problem);
}

int ibcplan_certify(const char *script, size_t len, const char *certificate, size_t certificate_len, uint32_t flags, ibcplan_text *verdict,
                    ibcplan_text *problem) {
  const char *words[] = {"certify", "-", "--json"};
  clear(verdict, problem);
  if (has_mark(script, len)) return IBCPLAN_MISUSED;
  growing both = documents(script, len, certificate, certificate_len);
  int status = both.failed ? IBCPLAN_FAILED : ibcplan_run(flags & IBCPLAN_JSON ? 3 : 2, words, both.text.at, both.text.len, verdict, problem);
  free(both.text.at);
  return status;
}

static void *follow_on(void *of) {
  ibcplan_follower *follower = of;
  int status = status_of(&follower->run);
  pthread_mutex_lock(&follower->lock);
  follower->status = status;
  follower->move = ENDED;
  pthread_cond_broadcast(&follower->moved);
  pthread_mutex_unlock(&follower->lock);
  return NULL;
}

/* Waits until the program has answered, or has ended. */
static int await_answer(ibcplan_follower *follower, ibcplan_text *answer, ibcplan_text *problem) {
  pthread_mutex_lock(&follower->lock);
  while (follower->move == PROGRAM) pthread_cond_wait(&follower->moved, &follower->lock);
  int status = follower->move == ENDED ? (follower->status == 0 ? IBCPLAN_FAILED : follower->status) : IBCPLAN_DONE;
  give(&follower->run.output, answer);
  give(&follower->run.problem, problem);
  pthread_mutex_unlock(&follower->lock);
  return status;
}

int ibcplan_follow(const char *setup, size_t len, uint32_t flags, uint32_t workers, const char *journal, ibcplan_follower **to,
                   ibcplan_text *past, ibcplan_text *problem) {
  clear(past, problem);
  *to = NULL;
  if (has_mark(setup, len)) return IBCPLAN_MISUSED;
  ibcplan_follower *follower = calloc(1, sizeof *follower);
  growing document = documents(setup, len, NULL, 0);
  if (follower == NULL || document.failed) {
    free(document.text.at);
    free(follower);
    return IBCPLAN_FAILED;
  }
  size_t count = 0;
  follower->words[count++] = "follow";
  follower->words[count++] = "-";
  if (flags & IBCPLAN_JSON) follower->words[count++] = "--json";
  if (flags & IBCPLAN_NO_LABELS) follower->words[count++] = "--no-labels";
  if (workers > 0) {
    snprintf(follower->workers, sizeof follower->workers, "%u", workers);
    follower->words[count++] = "--workers";
    follower->words[count++] = follower->workers;
  }
  if (journal != NULL) {
    follower->words[count++] = "--journal";
    follower->words[count++] = journal;
  }
  follower->run = (run){.count = count, .words = follower->words, .input = document.text.at, .left = document.text.len, .follower = follower};
  pthread_mutex_init(&follower->lock, NULL);
  pthread_cond_init(&follower->moved, NULL);
  int status = IBCPLAN_FAILED;
  if (start(&follower->thread, follow_on, follower)) {
    status = await_answer(follower, past, problem);
    if (status == IBCPLAN_DONE) {
      *to = follower;
    } else {
      ibcplan_close(follower);
    }
  } else {
    free(follower);
  }
  free(document.text.at);
  return status;
}

int ibcplan_answer(ibcplan_follower *follower, const char *turn, size_t len, ibcplan_text *answer, ibcplan_text *problem) {
  clear(answer, problem);
  if (has_mark(turn, len)) return IBCPLAN_MISUSED;
  growing document = documents(turn, len, NULL, 0);
  if (document.failed) {
    free(document.text.at);
    return IBCPLAN_FAILED;
  }
  pthread_mutex_lock(&follower->lock);
  if (follower->move == CALLER) {
    follower->run.input = document.text.at;
    follower->run.left = document.text.len;
    follower->move = PROGRAM;
    pthread_cond_broadcast(&follower->moved);
  }
  pthread_mutex_unlock(&follower->lock);
  int status = await_answer(follower, answer, problem);
  free(document.text.at);
  return status;
}

void ibcplan_close(ibcplan_follower *follower) {
  if (follower == NULL) return;
  pthread_mutex_lock(&follower->lock);
  follower->closes = true;
  if (follower->move == CALLER) follower->move = PROGRAM;
  pthread_cond_broadcast(&follower->moved);
  pthread_mutex_unlock(&follower->lock);
  pthread_join(follower->thread, NULL);
  free(follower->run.output.text.at);
  free(follower->run.problem.text.at);
  pthread_mutex_destroy(&follower->lock);
  pthread_cond_destroy(&follower->moved);
  free(follower);
}
