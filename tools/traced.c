/* Runs a program on one input after the other, and says which of its blocks each run reached that no run had reached before.
 *
 *     traced PROGRAM BLOCKS WAIT [WORD ..]
 *
 * PROGRAM is a copy that may be written to. BLOCKS has a line for each block: its place in memory, as the file has it, and its place in
 * the file, in hexadecimal. At each of them the copy is given a breakpoint (int3, byte cc). A run that comes to one stops there: the
 * block's own byte is put back, in the process and, once the run has ended, in the copy, and so a block stops one run and no further one
 * (Nagy and Hicks, "Full-Speed Fuzzing", 2019). A run of more than WAIT seconds of the clock is ended.
 *
 * Each line of standard input asks for a run: a number N, and numbers of blocks, from 0 on, that are given their breakpoint again before.
 * The program reads the file N.input of the folder that it is called in, on standard input, and writes N.output and N.errors; WORDs are its
 * arguments, of which `@` stands for the name of that file. A line answers: how the run ended, as wait(2) has it, the microseconds of the
 * processor, the most memory in KiB, and the numbers of the blocks. */
#define _GNU_SOURCE
#include <errno.h>
#include <fcntl.h>
#include <signal.h>
#include <stdint.h>
#include <stdio.h>
#include <stdlib.h>
#include <string.h>
#include <sys/personality.h>
#include <sys/ptrace.h>
#include <sys/resource.h>
#include <sys/user.h>
#include <sys/wait.h>
#include <unistd.h>
#include <elf.h>

struct block {
  uint64_t address, offset;
  unsigned char byte;
  int armed;
};

static struct block *blocks;
static size_t count;
static const char *program;
static volatile pid_t running;

static void fail(const char *what) {
  fprintf(stderr, "traced: %s: %s\n", what, strerror(errno));
  exit(2);
}

static void end_run(int signal) {
  (void)signal;
  if (running > 0) kill(running, SIGKILL);
}

/* Blocks come by rising addresses. */
static void read_blocks(const char *name) {
  FILE *file = fopen(name, "r");
  size_t room = 0;
  unsigned long address, offset;
  if (!file) fail(name);
  while (fscanf(file, "%lx %lx", &address, &offset) == 2) {
    if (count == room) {
      room = room ? 2 * room : 4096;
      blocks = realloc(blocks, room * sizeof *blocks);
      if (!blocks) fail("blocks");
    }
    blocks[count++] = (struct block){address, offset, 0, 0};
  }
  fclose(file);
}

static int open_copy(void) {
  int copy = open(program, O_RDWR);
  if (copy < 0) fail(program);
  return copy;
}

static void put(int copy, struct block *it, int armed) {
  unsigned char byte = armed ? 0xcc : it->byte;
  if (pwrite(copy, &byte, 1, it->offset) != 1) fail(program);
  it->armed = armed;
}

static uint64_t entry_in_file(void) {
  Elf64_Ehdr head;
  int copy = open_copy();
  if (pread(copy, &head, sizeof head, 0) != sizeof head) fail(program);
  for (size_t at = 0; at < count; at++) {
    if (pread(copy, &blocks[at].byte, 1, blocks[at].offset) != 1) fail(program);
    put(copy, &blocks[at], 1);
  }
  close(copy);
  return head.e_entry;
}

static uint64_t entry_in_memory(pid_t process) {
  char name[64];
  uint64_t pair[2];
  snprintf(name, sizeof name, "/proc/%d/auxv", process);
  int file = open(name, O_RDONLY);
  if (file < 0) fail(name);
  while (read(file, pair, sizeof pair) == sizeof pair && pair[0] != AT_ENTRY) {
  }
  close(file);
  return pair[1];
}

static struct block *block_at(uint64_t address) {
  size_t low = 0, high = count;
  while (low < high) {
    size_t middle = (low + high) / 2;
    if (blocks[middle].address < address) low = middle + 1;
    else high = middle;
  }
  return low < count && blocks[low].address == address ? &blocks[low] : NULL;
}

/* Puts the block's own byte back, has the process go on from it, and says which block it is; 0 where the trap is none of ours. */
static struct block *stopped_at(pid_t process, uint64_t base) {
  struct user_regs_struct registers;
  if (ptrace(PTRACE_GETREGS, process, 0, &registers) < 0) fail("registers");
  struct block *it = block_at(registers.rip - 1 - base);
  if (!it || !it->armed) return NULL;
  uint64_t word_at = (registers.rip - 1) & ~7ul, shift = 8 * ((registers.rip - 1) & 7);
  errno = 0;
  uint64_t word = ptrace(PTRACE_PEEKTEXT, process, word_at, 0);
  if (errno) fail("memory");
  word = (word & ~(0xfful << shift)) | ((uint64_t)it->byte << shift);
  registers.rip--;
  if (ptrace(PTRACE_POKETEXT, process, word_at, word) < 0) fail("memory");
  if (ptrace(PTRACE_SETREGS, process, 0, &registers) < 0) fail("registers");
  it->armed = 0;
  return it;
}

static const char *file_name(unsigned long number, const char *end) {
  static char name[64];
  snprintf(name, sizeof name, "%lu.%s", number, end);
  return name;
}

static int open_file(unsigned long number, const char *end, int flags) {
  const char *name = file_name(number, end);
  int file = open(name, flags, 0600);
  if (file < 0) _exit(127);
  return file;
}

static void begin(char **words, unsigned long number) {
  struct rlimit none = {0, 0};
  setrlimit(RLIMIT_CORE, &none);
  personality(ADDR_NO_RANDOMIZE);
  int in = open_file(number, "input", O_RDONLY), out = open_file(number, "output", O_WRONLY | O_CREAT | O_TRUNC);
  int err = open_file(number, "errors", O_WRONLY | O_CREAT | O_TRUNC);
  dup2(in, 0), dup2(out, 1), dup2(err, 2);
  for (int at = 3; at < 16; at++) close(at);
  for (char **it = words; *it; it++) {
    if (!strcmp(*it, "@")) *it = strdup(file_name(number, "input"));
  }
  ptrace(PTRACE_TRACEME, 0, 0, 0);
  execv(program, words);
  _exit(127);
}

static void run(char **words, unsigned long number, unsigned wait_most, uint64_t entry, size_t *reached) {
  struct rusage used;
  int status;
  size_t found = 0;
  pid_t process = fork();
  if (process < 0) fail("fork");
  if (!process) begin(words, number);
  running = process;
  alarm(wait_most);
  if (wait4(process, &status, 0, &used) != process || !WIFSTOPPED(status)) fail("a run does not begin");
  ptrace(PTRACE_SETOPTIONS, process, 0, PTRACE_O_EXITKILL);
  uint64_t base = entry_in_memory(process) - entry;
  long passed = 0;
  while (ptrace(PTRACE_CONT, process, 0, passed), wait4(process, &status, 0, &used) == process && WIFSTOPPED(status)) {
    struct block *it = WSTOPSIG(status) == SIGTRAP ? stopped_at(process, base) : NULL;
    passed = it ? 0 : WSTOPSIG(status);
    if (it) reached[found++] = it - blocks;
  }
  alarm(0);
  running = 0;
  if (found) {
    int copy = open_copy();
    for (size_t at = 0; at < found; at++) put(copy, &blocks[reached[at]], 0);
    close(copy);
  }
  long spent = 1000000 * (used.ru_utime.tv_sec + used.ru_stime.tv_sec) + used.ru_utime.tv_usec + used.ru_stime.tv_usec;
  printf("%d %ld %ld", status, spent, used.ru_maxrss);
  for (size_t at = 0; at < found; at++) printf(" %zu", reached[at]);
  printf("\n");
  fflush(stdout);
}

/* Puts breakpoints at the blocks whose numbers the line has. */
static void arm(char *line) {
  int copy = -1;
  char *end;
  for (unsigned long at = strtoul(line, &end, 10); end != line; at = strtoul(line, &end, 10)) {
    if (at >= count) fail("a block");
    if (copy < 0) copy = open_copy();
    put(copy, &blocks[at], 1);
    line = end;
  }
  if (copy >= 0) close(copy);
}

int main(int words, char **word) {
  char *line = NULL, *rest;
  size_t room = 0;
  if (words < 4) fail("words");
  program = word[1];
  read_blocks(word[2]);
  unsigned wait_most = atoi(word[3]);
  uint64_t entry = entry_in_file();
  size_t *reached = malloc((count + 1) * sizeof *reached);
  if (!reached) fail("blocks");
  signal(SIGALRM, end_run);
  word[3] = word[1];
  while (getline(&line, &room, stdin) > 0) {
    unsigned long number = strtoul(line, &rest, 10);
    arm(rest);
    run(word + 3, number, wait_most, entry, reached);
  }
  return 0;
}
