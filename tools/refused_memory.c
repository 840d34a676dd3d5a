/* Refuses memory, each request in a process of its own. Preloaded, it forks at each request: the child is refused this one request
   and goes on, the parent waits for the child's status and is given what it asked for. The statuses are written to the file
   that REFUSED names: how many requests there were, and for each status of a child how often it came and at which request first;
   -1 is a child that was killed. */
#define _GNU_SOURCE
#include <stdio.h>
#include <stdlib.h>
#include <sys/types.h>
#include <sys/wait.h>
#include <unistd.h>

enum { FILES = 32, SECONDS = 120 };

extern void *__libc_malloc(size_t size);
extern void *__libc_realloc(void *block, size_t size);

static long requests, often[257], first[257];
static int is_child, is_own;

/* The places in open files are shared with a child, which may read on. */
static void places(off_t *at, int restore)
{
    for (int fd = 3; fd < FILES; fd++) {
        if (!restore)
            at[fd] = lseek(fd, 0, SEEK_CUR);
        else if (at[fd] >= 0)
            lseek(fd, at[fd], SEEK_SET);
    }
}

static int is_refused(void)
{
    off_t at[FILES];
    int status, number;
    pid_t child;
    if (is_child || is_own)
        return 0;
    is_own = 1;
    requests++;
    places(at, 0);
    child = fork();
    if (child == 0) {
        is_child = 1;
        is_own = 0;
        alarm(SECONDS);
        return 1;
    }
    waitpid(child, &status, 0);
    places(at, 1);
    number = child > 0 && WIFEXITED(status) ? WEXITSTATUS(status) : 256;
    if (often[number]++ == 0)
        first[number] = requests;
    is_own = 0;
    return 0;
}

void *malloc(size_t size)
{
    return is_refused() ? NULL : __libc_malloc(size);
}

void *realloc(void *block, size_t size)
{
    return is_refused() ? NULL : __libc_realloc(block, size);
}

__attribute__((destructor)) static void told(void)
{
    const char *name = getenv("REFUSED");
    FILE *file;
    if (is_child || name == NULL)
        return;
    is_own = 1;
    file = fopen(name, "w");
    if (file == NULL)
        return;
    fprintf(file, "requests %ld\n", requests);
    for (int number = 0; number <= 256; number++)
        if (often[number] > 0)
            fprintf(file, "%d %ld %ld\n", number < 256 ? number : -1, often[number], first[number]);
    fclose(file);
}
