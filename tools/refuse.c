/* Preloaded into a program, this refuses one of its allocations, counted from 1.

   REFUSE=N REFUSED=FILE: allocation N is refused. The file is made then, so that the caller sees whether the program came so far.

   REFUSE_EACH=N: the program runs N times at most, from its start each time: its first allocation is refused, then the second, until a run asks
   for no more. It ends at the first run that doesn't end well. What came of it stands on standard output: `refused 12`, or
   `allocation 3: status 134`; what the program itself writes is dropped. */
#define _GNU_SOURCE
#include <dlfcn.h>
#include <fcntl.h>
#include <stdio.h>
#include <stdlib.h>
#include <sys/mman.h>
#include <sys/wait.h>
#include <unistd.h>

enum { MOST_SECONDS = 60 };

static long count;
static long wanted = -1;
/* whether a run came so far, as the process sees it that starts the runs */
static volatile int *was_refused;

static void mark_refused(void) {
    const char *mark = getenv("REFUSED");
    if (was_refused) {
        *was_refused = 1;
    }
    if (mark) {
        int file = open(mark, O_CREAT | O_WRONLY, 0600);
        if (file >= 0) {
            close(file);
        }
    }
}

static int refused(void) {
    if (wanted < 0) {
        const char *number = getenv("REFUSE");
        wanted = number ? atol(number) : 0;
    }
    if (++count != wanted) {
        return 0;
    }
    mark_refused();
    return 1;
}

void *malloc(size_t size) {
    static void *(*real)(size_t);
    if (!real) {
        real = dlsym(RTLD_NEXT, "malloc");
    }
    return refused() ? NULL : real(size);
}

void *realloc(void *old, size_t size) {
    static void *(*real)(void *, size_t);
    if (!real) {
        real = dlsym(RTLD_NEXT, "realloc");
    }
    return refused() ? NULL : real(old, size);
}

/* In the run: refuses this allocation, and has the program begin. */
static void begin(long number) {
    int nowhere = open("/dev/null", O_WRONLY);
    dup2(nowhere, STDOUT_FILENO);
    dup2(nowhere, STDERR_FILENO);
    close(nowhere);
    alarm(MOST_SECONDS);
    count = 0;
    wanted = number;
}

/* How a run ended, as a shell says it. */
static int ended(pid_t run) {
    int status;
    if (run < 0 || waitpid(run, &status, 0) != run) {
        return -1;
    }
    return WIFSIGNALED(status) ? 128 + WTERMSIG(status) : WEXITSTATUS(status);
}

/* Before the program begins: it goes on in the runs alone. */
__attribute__((constructor)) static void refuse_each(void) {
    const char *most = getenv("REFUSE_EACH");
    if (!most) {
        return;
    }
    was_refused = mmap(NULL, sizeof *was_refused, PROT_READ | PROT_WRITE, MAP_SHARED | MAP_ANONYMOUS, -1, 0);
    if (was_refused == MAP_FAILED) {
        dprintf(STDOUT_FILENO, "no memory to begin with\n");
        _exit(1);
    }
    for (long number = 1; number <= atol(most); number++) {
        *was_refused = 0;
        pid_t run = fork();
        if (run == 0) {
            begin(number);
            return;
        }
        int status = ended(run);
        if (status != 0) {
            dprintf(STDOUT_FILENO, "allocation %ld: status %d\n", number, status);
            _exit(1);
        }
        if (!*was_refused) {
            dprintf(STDOUT_FILENO, "refused %ld\n", number - 1);
            _exit(0);
        }
    }
    dprintf(STDOUT_FILENO, "no end of allocations\n");
    _exit(1);
}
