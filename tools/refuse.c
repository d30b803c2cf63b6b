/* Refuses allocations. A request of 2^62 + N bytes, which nobody can have, says that the Nth allocation of this thread from then on is refused (none if N is
   0); a request of QUESTION bytes is refused if that allocation has been refused since. Growing a block counts as an allocation. In a run of the program
   REFUSE_AT is the number of the allocation that is refused, of the whole process, and with REFUSE_ON all after it are refused too; how many there were is
   counted in the file that REFUSE_TOLD names, which is mapped, since a program may end without a word to its libraries. */
typedef unsigned long size;
extern void *__libc_malloc(size);
extern void *__libc_realloc(void *, size);
extern char *getenv(const char *);
extern int open(const char *, int, ...);
extern int ftruncate(int, long);
extern void *mmap(void *, size, int, int, int, long);
#define QUESTION 61499001UL
static __thread size left, hit;
static size at, on, unseen;
static size *made = &unseen;

static size number(const char *text) {
  size value = 0;
  while (text && *text >= '0' && *text <= '9') value = value * 10 + (size)(*text++ - '0');
  return value;
}

__attribute__((constructor)) static void begin(void) {
  at = number(getenv("REFUSE_AT"));
  on = number(getenv("REFUSE_ON"));
  const char *told = getenv("REFUSE_TOLD");
  int file = told ? open(told, 2 | 0100 | 01000, 0600) : -1;
  if (file < 0 || ftruncate(file, sizeof unseen)) return;
  void *place = mmap(0, sizeof unseen, 3, 1, file, 0);
  if (place != (void *)-1) made = place;
}

static int refused(size bytes) {
  size count = __atomic_add_fetch(made, 1, __ATOMIC_SEQ_CST);
  if (at && (count == at || (on && count > at))) return 1;
  if (bytes >> 62) { left = bytes & 0xffffffffUL; hit = 0; return 1; }
  if (bytes == QUESTION) return (int)hit;
  if (left && --left == 0) { hit = 1; return 1; }
  return 0;
}

void *malloc(size bytes) { return refused(bytes) ? 0 : __libc_malloc(bytes); }
void *realloc(void *block, size bytes) { return refused(bytes) ? 0 : __libc_realloc(block, bytes); }
