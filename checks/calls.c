/* Calls a program once for each content of a file, and tells what each call left: many thousand calls in a minute.

       calls FILE PROGRAM WORD...

   Standard input has the contents, each as its length (32 bits) and its bytes. For each of them FILE gets the content, the program is called on the words, and
   standard output gets the exit status (128 and the signal's number where one ended it), the lengths of the program's standard output and standard error, and
   these two. Numbers have the machine's order of bytes. */
#define _GNU_SOURCE
#include <fcntl.h>
#include <spawn.h>
#include <stdint.h>
#include <stdio.h>
#include <stdlib.h>
#include <sys/mman.h>
#include <sys/wait.h>
#include <unistd.h>

enum { MOST = 1 << 24 };

static char content[MOST];

static void must(int holds, const char *what)
{
    if (!holds) {
        perror(what);
        exit(1);
    }
}

static int stream(const char *name)
{
    int file = memfd_create(name, MFD_CLOEXEC);
    must(file >= 0, "memfd_create");
    return file;
}

static void empty(int file)
{
    must(ftruncate(file, 0) == 0 && lseek(file, 0, SEEK_SET) == 0, "ftruncate");
}

static void put(const void *bytes, size_t size)
{
    must(fwrite(bytes, 1, size, stdout) == size, "fwrite");
}

/* How many bytes a stream of the program has; they stand in `content` then. */
static uint32_t taken(int file)
{
    ssize_t size = pread(file, content, MOST, 0);
    must(size >= 0 && size < MOST, "pread");
    return (uint32_t)size;
}

static void call(char **words, posix_spawn_file_actions_t *streams, int out, int err)
{
    extern char **environ;
    pid_t child;
    int ended;
    uint32_t told[3];
    empty(out);
    empty(err);
    must(posix_spawn(&child, words[0], streams, NULL, words, environ) == 0, words[0]);
    must(waitpid(child, &ended, 0) == child, "waitpid");
    told[0] = WIFEXITED(ended) ? (uint32_t)WEXITSTATUS(ended) : 128u + (uint32_t)WTERMSIG(ended);
    told[2] = taken(err);
    told[1] = taken(out);
    put(told, sizeof told);
    put(content, told[1]);
    taken(err);
    put(content, told[2]);
}

int main(int count, char **words)
{
    posix_spawn_file_actions_t streams;
    int out = stream("out"), err = stream("err");
    uint32_t size;
    must(count > 2, "calls FILE PROGRAM WORD...");
    must(posix_spawn_file_actions_init(&streams) == 0 && posix_spawn_file_actions_adddup2(&streams, out, 1) == 0 &&
             posix_spawn_file_actions_adddup2(&streams, err, 2) == 0,
         "posix_spawn");
    while (fread(&size, 1, sizeof size, stdin) == sizeof size) {
        /* It is cut behind the write: some file systems write to the disk at once what takes the place of a file that was cut to nothing. */
        int file = open(words[1], O_WRONLY | O_CREAT | O_CLOEXEC, 0600);
        must(size < MOST && fread(content, 1, size, stdin) == size, "fread");
        must(file >= 0 && write(file, content, size) == (ssize_t)size && ftruncate(file, size) == 0 && close(file) == 0, words[1]);
        call(words + 2, &streams, out, err);
    }
    return fflush(stdout) == 0 ? 0 : 1;
}
