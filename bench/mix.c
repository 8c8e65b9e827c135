// What a compiled program does: a sieve, a sort, matrices, a checksum, recursion, a list. It goes round until its turns are spent.
// The words of mix.words are made of it by clang 14, linked to one section in the order text, constants, data, from 0x10000 on:
//   clang --target=riscv64 -march=rv64im -mabi=lp64 -mcmodel=medany -O2 -ffreestanding -fno-builtin -fno-jump-tables -nostdlib
//     -static
typedef unsigned long u64;
typedef unsigned int u32;
typedef unsigned char u8;

struct node {
    struct node *next;
    u64 value;
};

static u8 sieve[4096];
static u32 numbers[512];
static u64 left[12][12], right[12][12], product[12][12];
static struct node nodes[256];
static u64 seed = 1;

static u64 random_number(void) {
    seed = seed * 6364136223846793005ul + 1442695040888963407ul;
    return seed >> 33;
}

static u64 primes(void) {
    u64 count = 0;
    for (u64 n = 0; n < sizeof sieve; n++) sieve[n] = 1;
    for (u64 n = 2; n < sizeof sieve; n++) {
        if (!sieve[n]) continue;
        count++;
        for (u64 m = n * n; m < sizeof sieve; m += n) sieve[m] = 0;
    }
    return count;
}

static void sort(u32 *first, u32 *last) {
    while (last - first > 1) {
        u32 middle = first[(last - first) / 2];
        u32 *low = first, *high = last - 1;
        while (low <= high) {
            while (*low < middle) low++;
            while (*high > middle) high--;
            if (low <= high) {
                u32 held = *low;
                *low++ = *high;
                *high-- = held;
            }
        }
        sort(first, high + 1);
        first = low;
    }
}

static u64 multiplied(void) {
    for (int i = 0; i < 12; i++)
        for (int j = 0; j < 12; j++) {
            left[i][j] = random_number() % 1000;
            right[i][j] = random_number() % 1000;
        }
    for (int i = 0; i < 12; i++)
        for (int j = 0; j < 12; j++) {
            u64 sum = 0;
            for (int k = 0; k < 12; k++) sum += left[i][k] * right[k][j];
            product[i][j] = sum;
        }
    return product[3][7];
}

static u32 checksum(const u8 *bytes, u64 count) {
    u32 sum = ~0u;
    for (u64 i = 0; i < count; i++) {
        sum ^= bytes[i];
        for (int bit = 0; bit < 8; bit++) sum = sum >> 1 ^ (sum & 1 ? 0xedb88320u : 0);
    }
    return ~sum;
}

static u64 fibonacci(u64 n) {
    return n < 2 ? n : fibonacci(n - 1) + fibonacci(n - 2);
}

static u64 listed(void) {
    u64 sum = 0;
    struct node *list = 0;
    for (int i = 0; i < 256; i++) {
        struct node *node = &nodes[(u64)i * 97 % 256];
        node->value = i;
        node->next = list;
        list = node;
    }
    for (struct node *node = list; node; node = node->next) sum += node->value / 3 + node->value % 7;
    return sum;
}

u64 turn(void) {
    u64 sum = primes();
    for (int i = 0; i < 512; i++) numbers[i] = (u32)random_number();
    sort(numbers, numbers + 512);
    sum += numbers[100] + multiplied() + checksum((const u8 *)numbers, 512) + fibonacci(12) + listed();
    return sum;
}

static u8 stack[4096] __attribute__((aligned(16)));

__attribute__((section(".text.start"), naked, used)) void _start(void) {
    __asm__ volatile(
        "lla sp, %0\n"
        "lui t0, 1\n"
        "add sp, sp, t0\n"
        "li s1, 400\n"
        "1: call turn\n"
        "addi s1, s1, -1\n"
        "bnez s1, 1b\n"
        "li a0, 0\n"
        "li a7, 93\n"
        "ecall\n" : : "i"(stack));
}
