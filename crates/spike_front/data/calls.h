// The system calls and the entry of the sample programs, without a C library.
typedef unsigned long u64;
typedef unsigned char u8;

enum { OPENAT = 56, CLOSE = 57, LSEEK = 62, READ = 63, WRITE = 64, EXIT = 93 };
enum { O_RDONLY = 0, O_WRONLY = 1, O_CREAT = 0x40, O_EXCL = 0x80 };
enum { AT_FDCWD = -100 };

// Makes a system call: its result, or the negated number of its error.
static long call(long number, long a, long b, long c, long d) {
    register long a0 __asm__("a0") = a;
    register long a1 __asm__("a1") = b;
    register long a2 __asm__("a2") = c;
    register long a3 __asm__("a3") = d;
    register long a7 __asm__("a7") = number;
    __asm__ volatile("ecall" : "+r"(a0) : "r"(a1), "r"(a2), "r"(a3), "r"(a7) : "memory");
    return a0;
}

static void leave(long status) {
    call(EXIT, status, 0, 0, 0);
    __builtin_unreachable();
}

// The program ends with the number of the error where the result is one.
static long need(long result) {
    if (result < 0) leave(-result);
    return result;
}

__attribute__((unused)) static long open(const char *path, long flags) {
    return call(OPENAT, AT_FDCWD, (long)path, flags, 0644);
}

static void put(long number, const u8 *bytes, u64 count) {
    while (count > 0) {
        u64 done = need(call(WRITE, number, (long)bytes, count, 0));
        bytes += done;
        count -= done;
    }
}

__attribute__((unused)) static void put_text(const char *text) {
    u64 count = 0;
    while (text[count]) count++;
    put(1, (const u8 *)text, count);
}

__attribute__((unused)) static void put_number(u64 number) {
    u8 digits[20];
    int at = 20;
    do {
        digits[--at] = '0' + number % 10;
        number /= 10;
    } while (number > 0);
    put(1, digits + at, 20 - at);
}

static int main(long count, char **words);

// A program finds the number of its arguments where sp points, and their pointers behind it.
__attribute__((used)) static void enter(long *vars) { leave(main(vars[0], (char **)(vars + 1))); }

__asm__(".globl _start\n_start:\n  mv a0, sp\n  j enter\n");
