// Opens the file that its first argument names again and again, until it is refused, each time to read one byte further on;
// reads a byte at each number, from the last one down; closes every other number and opens the file once more. It puts how
// many numbers it had, the error that it met, the bytes that it read, and the number that it got last.
#include "calls.h"

enum { MOST = 128 };

static int main(long count, char **words) {
    long numbers[MOST], opened = 0, result = 0;
    if (count != 2) return 1;
    while (opened < MOST && (result = open(words[1], O_RDONLY)) >= 0) {
        need(call(LSEEK, result, opened, 0, 0));
        numbers[opened++] = result;
    }
    put_number(opened);
    put_text(" numbers, then error ");
    put_number(result < 0 ? -result : 0);
    put_text("\n");
    for (long i = opened; i-- > 0;) {
        u8 byte;
        if (need(call(READ, numbers[i], (long)&byte, 1, 0)) == 1) put(1, &byte, 1);
    }
    put_text("\n");
    for (long i = 1; i < opened; i += 2) need(call(CLOSE, numbers[i], 0, 0, 0));
    put_text("then number ");
    put_number(need(open(words[1], O_RDONLY)));
    put_text("\n");
    return 0;
}
