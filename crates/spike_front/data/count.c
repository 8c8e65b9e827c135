// Counts the lines, the words and the bytes of its input, as `wc` does.
#include "calls.h"

static u8 bytes[4096];

static int main(long count, char **words) {
    u64 lines = 0, parts = 0, all = 0;
    int inside = 0;
    long read;
    while ((read = need(call(READ, 0, (long)bytes, sizeof bytes, 0))) > 0) {
        for (long i = 0; i < read; i++) {
            int blank = bytes[i] == ' ' || (bytes[i] >= '\t' && bytes[i] <= '\r');
            lines += bytes[i] == '\n';
            parts += !blank && !inside;
            inside = !blank;
        }
        all += read;
    }
    put_number(lines);
    put_text(" ");
    put_number(parts);
    put_text(" ");
    put_number(all);
    put_text("\n");
    return 0;
}
