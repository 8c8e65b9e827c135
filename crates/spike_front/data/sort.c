// Sorts the lines of the file that its first argument names by their bytes, into the file that its second names, which it
// makes. Its status is 0, 1 where there are not two names or too much to sort, or the number of the error of a call that
// was refused.
#include "calls.h"

enum { MOST_BYTES = 1 << 20, MOST_LINES = 1 << 16 };

static u8 text[MOST_BYTES + 1];
static u8 *lines[MOST_LINES], *spare[MOST_LINES];

// Whether the first line comes before the second; each ends with a newline.
static int precedes(const u8 *first, const u8 *second) {
    while (*first == *second && *first != '\n') first++, second++;
    return *first != *second && (*first == '\n' || (*second != '\n' && *first < *second));
}

static void merge_sort(u8 **from, u8 **with, u64 count) {
    if (count < 2) return;
    u64 half = count / 2, left = 0, right = half;
    merge_sort(from, with, half);
    merge_sort(from + half, with + half, count - half);
    for (u64 i = 0; i < count; i++)
        with[i] = right == count || (left < half && !precedes(from[right], from[left])) ? from[left++] : from[right++];
    for (u64 i = 0; i < count; i++) from[i] = with[i];
}

static u64 read_all(long number) {
    u64 size = 0;
    long read;
    while ((read = need(call(READ, number, (long)(text + size), MOST_BYTES - size, 0))) > 0) size += read;
    return size;
}

static int main(long count, char **words) {
    if (count != 3) return 1;
    long old = need(open(words[1], O_RDONLY));
    u64 size = read_all(old), number = 0;
    if (size == MOST_BYTES) return 1;
    if (size > 0 && text[size - 1] != '\n') text[size++] = '\n';
    for (u64 at = 0; at < size; number++) {
        if (number == MOST_LINES) return 1;
        lines[number] = text + at;
        while (text[at++] != '\n') {}
    }
    merge_sort(lines, spare, number);
    long new = need(open(words[2], O_WRONLY | O_CREAT | O_EXCL));
    for (u64 i = 0; i < number; i++) {
        u64 length = 0;
        while (lines[i][length++] != '\n') {}
        put(new, lines[i], length);
    }
    need(call(CLOSE, old, 0, 0, 0));
    need(call(CLOSE, new, 0, 0, 0));
    return 0;
}
