/* Has the program begin with 512 KiB of its stack in use. The stack grows on demand, and a program whose stack can't grow is ended by a signal, whatever it does
   (setrlimit(2), RLIMIT_AS): so a limit of memory that is tried with this is one of what the program asks for. To be loaded before the C library. */
#include <stddef.h>

#define PAGE 4096
#define ROOM (128 * PAGE)

__attribute__((constructor)) static void reserve(void)
{
    volatile char room[ROOM] __attribute__((unused));
    for (size_t at = ROOM; at >= PAGE; at -= PAGE)
        room[at - 1] = 0;
}
