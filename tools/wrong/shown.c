/* Which wrong body of the program is asked for: its number stands in WRONG_BODY. In the file that WRONG_BODIES_MET
   names, the byte of each number is 1 whose function was called: so one that is never called is known from one that
   changes nothing. */
#include <fcntl.h>
#include <stdbool.h>
#include <stdint.h>
#include <stdlib.h>
#include <sys/mman.h>
#include <unistd.h>

enum { MOST = 4096 };
static uint32_t asked_for;
static volatile uint8_t *met;

__attribute__((constructor)) static void begin(void) {
    const char *number = getenv("WRONG_BODY"), *name = getenv("WRONG_BODIES_MET");
    asked_for = number ? (uint32_t)atoi(number) : 0;
    int file = name ? open(name, O_RDWR) : -1;
    if (file < 0) return;
    void *found = mmap(0, MOST, PROT_READ | PROT_WRITE, MAP_SHARED, file, 0);
    if (found != MAP_FAILED) met = found;
    close(file);
}

bool wrong_chosen(uint32_t number) {
    if (met && number < MOST) met[number] = 1;
    return number == asked_for;
}
