// Keeps a program at the door of its `main`, and makes its calls of the system fail where it is asked to.
//
// Loaded with the program by LD_PRELOAD (served.py does so), it waits for requests on the socket whose number stands
// in SERVED. Without SERVED the program runs as ever.
//
// A request is its length, four bytes, and items, whose fields are texts with a zero after each. An item is a file to
// be written (`put`, its name, its length, then its bytes) or a run of the program (`run`, the file for its output or
// nothing, its bounds of processor time and of time, what is to fail and which call of it, the number of its words,
// and the words). The answer is its length, and for each run how it ended as `wait` tells it, its microseconds of
// processor time, how many calls of the failing kind it made, the lengths of its output and of its faults, and these.
//
// A run by one thread in which nothing is to fail is carried out where the request is read: what it writes is kept
// in memory, its memory is a room that is cleared for the next run, and the program's own data are put back as they
// stood before `main`. Every other run is a child of the program as it stood before `main`, whose output and faults
// are files. So neither costs any loading. Where a run ends the whole process, another one goes on behind it.
//
// In place of failing, threads may be slowed where they wait for one another or wake one another: one of them always,
// the others now and then, as a number says. So turns are handed on in schedules that are rare else.
#define _GNU_SOURCE
#include <dlfcn.h>
#include <errno.h>
#include <fcntl.h>
#include <link.h>
#include <pthread.h>
#include <setjmp.h>
#include <signal.h>
#include <stdarg.h>
#include <stdatomic.h>
#include <stdint.h>
#include <stdio.h>
#include <stdlib.h>
#include <string.h>
#include <sys/mman.h>
#include <sys/resource.h>
#include <sys/stat.h>
#include <sys/syscall.h>
#include <sys/time.h>
#include <sys/wait.h>
#include <time.h>
#include <unistd.h>

// What fails: the call of that number, or with a capital letter that one and all after it. SLOW threads don't fail: the
// number is that of a schedule.
enum kind { NOTHING = '-', MEMORY = 'm', THREADS = 't', READS = 'r', WRITES = 'w', SLOW = 's' };

struct answer {
  int32_t status, microseconds, calls;
  uint32_t output, told;
};

// A run as it is asked for.
struct run {
  char *file, *processor, *passed, *kind, **words;
  int number, count;
};

// What is asked and what is answered, which outlives the process that a run ends.
#define MOST_ASKED (64u << 20)
#define MOST_ANSWERED (512u << 20)
struct desk {
  char is_running, asked[MOST_ASKED];
  uint32_t length, place, answered;
  char answers[MOST_ANSWERED];
};

typedef int main_of(int, char **, char **);
typedef int starter(main_of *, int, char **, void (*)(void), void (*)(void), void (*)(void), void *);

static char failing = NOTHING;
static char is_lasting;
static int number;
static _Atomic int32_t own_calls;
static _Atomic int32_t *calls = &own_calls;

static _Atomic uint32_t threads;
static _Thread_local uint32_t own_number, own_state;

static struct desk *desk;
static int asker;

// Whether a run is carried out here, the way out of it, and what it has written.
static char is_here;
static jmp_buf door;
static uint32_t output, told;
static char faults[1 << 16];

extern void *__libc_malloc(size_t);
extern void *__libc_realloc(void *, size_t);
extern void __libc_free(void *);

// How a run here is left where it wants more than there is here; else by its status.
#define ELSEWHERE 256

static void leave(int how) {
  is_here = 0;
  longjmp(door, how + 1);
}

static int fails(enum kind kind) {
  if (failing != (char)kind)
    return 0;
  int call = atomic_fetch_add(calls, 1) + 1;
  return call == number || (is_lasting && call > number);
}

// A call of the system that is done without being counted.
static long call(long which, long a, long b, long c, long d, long e, long f) {
  static long (*real)(long, ...);
  if (!real)
    real = (long (*)(long, ...))dlsym(RTLD_NEXT, "syscall");
  return real(which, a, b, c, d, e, f);
}

static void end(int status) {
  for (;;)
    call(SYS_exit_group, status, 0, 0, 0, 0, 0);
}

// Sleeps in the thread that is always slow, and in another one at each eighth call or so.
static void slow_down(void) {
  if (failing != SLOW)
    return;
  if (!own_number) {
    own_number = atomic_fetch_add(&threads, 1) + 1;
    own_state = number * 2654435761u + own_number * 40503u;
  }
  own_state = own_state * 1664525u + 1013904223u;
  int is_always = own_number == 1 + (uint32_t)number % 9;
  struct timespec nap = {.tv_nsec = is_always ? 20000 : own_state >> 16};
  if (is_always || own_state >> 29 == 0)
    nanosleep(&nap, NULL);
}

long syscall(long which, ...) {
  va_list more;
  long with[6];
  va_start(more, which);
  for (int at = 0; at < 6; at++)
    with[at] = va_arg(more, long);
  va_end(more);
  slow_down();
  return call(which, with[0], with[1], with[2], with[3], with[4], with[5]);
}

int sched_yield(void) {
  slow_down();
  return call(SYS_sched_yield, 0, 0, 0, 0, 0, 0);
}

// The memory of runs here: pieces of a power of two bytes behind their heads, which are handed out again when they
// were given back, and none of which is taken when the next run begins.
struct piece {
  size_t kind;
  struct piece *next;
};
#define ROOM ((size_t)1 << 32)
#define LASTING ((size_t)32 << 20)
static char *room, *rest;
static struct piece *back[64];

static void make_room(void) {
  room = rest = mmap(NULL, ROOM, PROT_READ | PROT_WRITE, MAP_PRIVATE | MAP_ANONYMOUS | MAP_NORESERVE, -1, 0);
  if (room == MAP_FAILED)
    end(1);
  // Children have no part in it.
  madvise(room, ROOM, MADV_DONTFORK);
}

static void *take_piece(size_t size) {
  size_t kind = size < 32 ? 5 : 64 - __builtin_clzl(size - 1);
  struct piece *piece = back[kind];
  if (piece) {
    back[kind] = piece->next;
    return piece + 1;
  }
  piece = (struct piece *)rest;
  if ((size_t)(room + ROOM - rest) < sizeof *piece + ((size_t)1 << kind))
    leave(ELSEWHERE);
  rest += sizeof *piece + ((size_t)1 << kind);
  piece->kind = kind;
  return piece + 1;
}

static int is_in_room(void *at) { return room && (char *)at >= room && (char *)at < room + ROOM; }

static void give_back(void *at) {
  struct piece *piece = (struct piece *)at - 1;
  piece->next = back[piece->kind];
  back[piece->kind] = piece;
}

static void *move_piece(void *old, size_t size) {
  size_t has = (size_t)1 << ((struct piece *)old - 1)->kind;
  if (size <= has)
    return old;
  void *grown = take_piece(size);
  memcpy(grown, old, has);
  give_back(old);
  return grown;
}

static void clear_room(void) {
  if (rest > room + LASTING)
    madvise(room + LASTING, rest - room - LASTING, MADV_DONTNEED);
  rest = room;
  memset(back, 0, sizeof back);
}

void *malloc(size_t size) {
  if (is_here)
    return take_piece(size);
  if (fails(MEMORY)) {
    errno = ENOMEM;
    return NULL;
  }
  return __libc_malloc(size);
}

void *realloc(void *old, size_t size) {
  if (is_here && old)
    return move_piece(old, size);
  if (is_here)
    return take_piece(size);
  if (fails(MEMORY)) {
    errno = ENOMEM;
    return NULL;
  }
  return __libc_realloc(old, size);
}

void free(void *old) {
  if (is_in_room(old))
    give_back(old);
  else
    __libc_free(old);
}

int pthread_create(pthread_t *thread, const pthread_attr_t *attributes, void *(*start)(void *), void *argument) {
  static int (*real)(pthread_t *, const pthread_attr_t *, void *(*)(void *), void *);
  if (is_here)
    leave(ELSEWHERE);
  if (fails(THREADS))
    return EAGAIN;
  if (!real)
    real = (int (*)(pthread_t *, const pthread_attr_t *, void *(*)(void *), void *))dlsym(RTLD_NEXT, "pthread_create");
  return real(thread, attributes, start, argument);
}

ssize_t read(int from, void *to, size_t size) {
  if (fails(READS)) {
    errno = EIO;
    return -1;
  }
  return call(SYS_read, from, (long)to, size, 0, 0, 0);
}

// Where the answer of the run that is under way has its output.
static char *written(void) { return desk->answers + desk->answered + sizeof(struct answer); }

static ssize_t keep(int to, const void *from, size_t size) {
  uint32_t *has = to == 1 ? &output : &told;
  char *all = to == 1 ? written() : faults;
  size_t most = to == 1 ? (size_t)(desk->answers + MOST_ANSWERED - all) - sizeof faults : sizeof faults;
  if (size > most - *has)
    leave(ELSEWHERE);
  memcpy(all + *has, from, size);
  *has += size;
  return size;
}

ssize_t write(int to, const void *from, size_t size) {
  if (is_here && (to == 1 || to == 2))
    return keep(to, from, size);
  if (fails(WRITES)) {
    errno = ENOSPC;
    return -1;
  }
  return call(SYS_write, to, (long)from, size, 0, 0, 0);
}

ssize_t __write(int to, const void *from, size_t size) { return write(to, from, size); }

void _exit(int status) {
  if (is_here)
    leave(status & 255);
  end(status);
  __builtin_unreachable();
}

static void take(void *to, size_t size) {
  for (size_t done = 0; done < size;) {
    ssize_t got = call(SYS_read, asker, (long)((char *)to + done), size - done, 0, 0, 0);
    if (got <= 0)
      end(0);
    done += got;
  }
}

static void send_all(const void *from, size_t size) {
  for (size_t done = 0; done < size;) {
    ssize_t put = call(SYS_write, asker, (long)((const char *)from + done), size - done, 0, 0, 0);
    if (put <= 0)
      end(0);
    done += put;
  }
}

// The next text of a request.
static char *next(char **place) {
  char *text = *place;
  *place += strlen(text) + 1;
  return text;
}

static void write_file(const char *name, const char *content, size_t size) {
  int opened = open(name, O_WRONLY | O_CREAT | O_TRUNC | O_CLOEXEC, 0600);
  if (opened < 0)
    end(1);
  for (size_t done = 0; done < size;)
    done += call(SYS_write, opened, (long)(content + done), size - done, 0, 0, 0);
  close(opened);
}

static void put_file(char **place) {
  char *name = next(place);
  size_t size = atol(next(place));
  write_file(name, *place, size);
  *place += size;
}

// Reads a file to the end of the answers, and gives its length.
static uint32_t get_file(const char *name) {
  int opened = open(name, O_RDONLY | O_CLOEXEC);
  char *to = desk->answers + desk->answered;
  uint32_t size = 0;
  for (ssize_t got = 1; opened >= 0 && got > 0; size += got) {
    size_t most = desk->answers + MOST_ANSWERED - to - size;
    got = call(SYS_read, opened, (long)(to + size), most, 0, 0, 0);
    if (got < 0 || most == 0)
      end(1);
  }
  if (opened >= 0)
    close(opened);
  desk->answered += size;
  return size;
}

static void lead_to(const char *file, int stream) {
  int opened = open(file, O_WRONLY | O_CREAT | O_TRUNC, 0600);
  if (opened < 0 || dup2(opened, stream) < 0)
    end(255);
  close(opened);
}

static void bound(int timer, const char *seconds) {
  struct itimerval limit = {.it_value.tv_sec = atoi(seconds)};
  setitimer(timer, &limit, NULL);
}

static struct run run_at(char **place) {
  static char *words[1 << 12];
  struct run run = {.file = next(place), .processor = next(place), .passed = next(place), .kind = next(place)};
  run.number = atoi(next(place));
  int count = atoi(next(place));
  if (count > (int)(sizeof words / sizeof *words) - 3)
    end(1);
  words[0] = "prop";
  for (int at = 1; at <= count; at++)
    words[at] = next(place);
  // Behind the words stands an environment, as a program finds it, which is empty.
  words[count + 1] = words[count + 2] = NULL;
  run.words = words;
  run.count = count + 1;
  return run;
}

static int32_t microseconds(struct timeval time) { return time.tv_sec * 1000000 + time.tv_usec; }

static uint32_t microseconds_used(void) {
  struct timespec used;
  // The clock of the process goes in ticks where a timer is set.
  clock_gettime(CLOCK_THREAD_CPUTIME_ID, &used);
  return (uint32_t)used.tv_sec * 1000000u + used.tv_nsec / 1000;
}

// The program's data that its runs change, and what they were before `main`.
static char *data, data_before[1 << 16];
static size_t data_size;

// Finds them, as the last part of the program that can be written, behind what of it is read only once it is loaded.
static int find_data(struct dl_phdr_info *info, size_t, void *) {
  uintptr_t begin = 0, behind = 0;
  for (int at = 0; at < info->dlpi_phnum; at++) {
    const ElfW(Phdr) *part = &info->dlpi_phdr[at];
    uintptr_t part_end = part->p_vaddr + part->p_memsz;
    if (part->p_type == PT_LOAD && part->p_flags & PF_W)
      begin = part->p_vaddr, behind = part_end;
    else if (part->p_type == PT_GNU_RELRO && part_end > begin)
      begin = part_end;
  }
  data = (char *)info->dlpi_addr + begin;
  data_size = behind > begin ? behind - begin : 0;
  if (data_size > sizeof data_before)
    end(1);
  memcpy(data_before, data, data_size);
  return 1;
}

static struct {
  starter *real;
  main_of *main;
  void (*init)(void), (*fini)(void);
  void *stack;
} program;

static int main_here(int count, char **words, char **environment) {
  leave(program.main(count, words, environment) & 255);
  return 0;
}

// Carries out a run here, and gives its status, or ELSEWHERE.
static int run_here(struct run run) {
  output = told = 0;
  bound(ITIMER_PROF, run.processor);
  bound(ITIMER_REAL, run.passed);
  int left = setjmp(door);
  if (left == 0) {
    environ = run.words + run.count + 1;
    is_here = desk->is_running = 1;
    program.real(main_here, run.count, run.words, program.init, program.fini, NULL, program.stack);
  }
  desk->is_running = 0;
  clear_room();
  memcpy(data, data_before, data_size);
  // Files that it left open are closed.
  call(SYS_close_range, asker + 1, ~0u, 0, 0, 0, 0);
  return left - 1;
}

static void begin(struct run run, const char *file) {
  lead_to(file, 1);
  lead_to("told.own", 2);
  environ = run.words + run.count + 1;
  bound(ITIMER_PROF, run.processor);
  bound(ITIMER_REAL, run.passed);
  failing = run.kind[0] | 0x20;
  is_lasting = run.kind[0] >= 'A' && run.kind[0] <= 'Z';
  if (run.kind[0] == NOTHING)
    failing = NOTHING;
  number = run.number;
}

// Carries out a run in a child, and answers it; returns 1 in the child.
static int run_elsewhere(struct run run) {
  const char *file = run.file[0] ? run.file : "out.own";
  struct rusage used;
  struct answer answer;
  bound(ITIMER_PROF, "0");
  bound(ITIMER_REAL, "0");
  atomic_store(calls, 0);
  pid_t child = fork();
  if (child == 0) {
    close(asker);
    room = NULL;
    begin(run, file);
    return 1;
  }
  wait4(child, &answer.status, 0, &used);
  answer.microseconds = microseconds(used.ru_utime) + microseconds(used.ru_stime);
  answer.calls = atomic_load(calls);
  char *head = desk->answers + desk->answered;
  desk->answered += sizeof answer;
  // Nothing is read back from a device, whose path is whole.
  answer.output = file[0] == '/' ? 0 : get_file(file);
  answer.told = get_file("told.own");
  memcpy(head, &answer, sizeof answer);
  return 0;
}

static void answer_here(int status, int32_t used) {
  struct answer answer = {.status = status, .microseconds = used, .output = output, .told = told};
  memcpy(desk->answers + desk->answered, &answer, sizeof answer);
  memcpy(written() + output, faults, told);
  desk->answered += sizeof answer + output + told;
}

// Carries out the next run of a request, and answers it; returns 1 in a child that is to run, with its words.
static int answer_run(char **place, struct run *run) {
  *run = run_at(place);
  if (run->kind[0] == NOTHING && run->file[0] != '/') {
    uint32_t before = microseconds_used();
    int status = run_here(*run);
    if (status != ELSEWHERE) {
      if (run->file[0])
        write_file(run->file, written(), output);
      answer_here(status << 8, microseconds_used() - before);
      return 0;
    }
  }
  return run_elsewhere(*run);
}

static void answer_all(void) {
  bound(ITIMER_PROF, "0");
  bound(ITIMER_REAL, "0");
  // The answers stand behind their length.
  send_all(&desk->answered, sizeof desk->answered + desk->answered);
  desk->answered = desk->length = desk->place = 0;
}

// Serves until the socket is closed; returns in each child, with what it is to run.
static struct run serve(void) {
  make_room();
  for (;;) {
    if (desk->place == desk->length) {
      take(&desk->length, sizeof desk->length);
      take(desk->asked, desk->length);
    }
    while (desk->place < desk->length) {
      char *place = desk->asked + desk->place;
      struct run run;
      if (strcmp(next(&place), "put") == 0)
        put_file(&place);
      else if (answer_run(&place, &run))
        return run;
      desk->place = place - desk->asked;
    }
    answer_all();
  }
}

// Keeps a process that serves, until the socket is closed; returns in children, with what they are to run.
static struct run keep_serving(void) {
  for (;;) {
    struct rusage used;
    int status;
    pid_t server = fork();
    if (server == 0)
      return serve();
    wait4(server, &status, 0, &used);
    if (!desk->is_running)
      end(0);
    // The run that was under way has ended the process that served, and what it had written with it.
    desk->is_running = output = told = 0;
    char *place = desk->asked + desk->place;
    next(&place);
    run_at(&place);
    desk->place = place - desk->asked;
    answer_here(status, microseconds(used.ru_utime) + microseconds(used.ru_stime));
    if (desk->place == desk->length)
      answer_all();
  }
}

static void *shared(size_t size) {
  return mmap(NULL, size, PROT_READ | PROT_WRITE, MAP_SHARED | MAP_ANONYMOUS | MAP_NORESERVE, -1, 0);
}

int __libc_start_main(main_of *main, int count, char **words, void (*init)(void), void (*fini)(void),
                      void (*ended)(void), void *stack) {
  starter *real = (starter *)dlsym(RTLD_NEXT, "__libc_start_main");
  const char *socket = getenv("SERVED");
  if (socket) {
    // Files that a run leaves open have greater numbers.
    asker = dup2(atoi(socket), 3);
    call(SYS_close_range, asker + 1, ~0u, 0, 0, 0, 0);
    calls = shared(sizeof *calls);
    desk = shared(sizeof *desk);
    if (desk == MAP_FAILED)
      end(1);
    dl_iterate_phdr(find_data, NULL);
    program = (typeof(program)){real, main, init, fini, stack};
    struct run run = keep_serving();
    words = run.words;
    count = run.count;
  }
  return real(main, count, words, init, fini, ended, stack);
}
