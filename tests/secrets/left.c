/* Looks for secrets in what a call leaves behind: in blocks that were freed, on the stack, and in the registers. The argument is the folder of
 * tests/support/key_material.py, whose file `pieces` has pieces of each secret. Each line of output is a place and a secret that was found
 * there after a step, and the last line has the number of steps.
 *
 * It is linked with --wrap=malloc, --wrap=realloc and --wrap=free: a block that the library frees is kept as it is. The calls run on a stack
 * of their own. */
#include <cpuid.h>
#include <ucontext.h>

#include "flow.h"

void *__real_malloc(size_t size);
void __real_free(void *at);
void *__wrap_malloc(size_t size);
void *__wrap_realloc(void *at, size_t size);
void __wrap_free(void *at);

/* ---- secrets ---- */

#define PIECE 8
#define SLOTS 65536
#define SECRETS 1024

struct slot {
    uint64_t piece;
    int secret;
};

static struct slot slots[SLOTS];
static char names[SECRETS][64];
static int secrets;
/* Where each was found, in this step. */
static unsigned found[SECRETS];
enum { FREED = 1, STACK = 2, REGISTERS = 4 };
static const char *const places[] = {"freed", "stack", "registers"};

static size_t slot_of(uint64_t piece)
{
    return (size_t)(piece * 0x9e3779b97f4a7c15u >> 48);
}

static int number_of(const char *name)
{
    int at;

    for (at = secrets - 1; at >= 0 && strcmp(names[at], name) != 0; at--)
        ;
    if (at >= 0)
        return at;
    if (secrets == SECRETS)
        exit(2);
    strcpy(names[secrets], name);
    return secrets++;
}

static void learn(uint64_t piece, const char *name)
{
    size_t at = slot_of(piece);

    for (; slots[at].piece != 0; at = (at + 1) % SLOTS)
        ;
    slots[at].piece = piece;
    slots[at].secret = number_of(name);
}

static void read_pieces(const char *folder)
{
    char path[1024], name[64];
    unsigned char bytes[PIECE];
    uint64_t piece;
    FILE *from;
    int at;

    snprintf(path, sizeof path, "%s/pieces", folder);
    from = fopen(path, "r");
    if (from == NULL)
        exit(2);
    while (fscanf(from, "%2hhx", &bytes[0]) == 1) {
        for (at = 1; at < PIECE; at++)
            if (fscanf(from, "%2hhx", &bytes[at]) != 1)
                exit(2);
        if (fscanf(from, "%63s", name) != 1)
            exit(2);
        memcpy(&piece, bytes, PIECE);
        learn(piece, name);
    }
    fclose(from);
}

static void search(const void *in, size_t size, unsigned place)
{
    const uint8_t *bytes = in;
    uint64_t piece;
    size_t at, slot;

    for (at = 0; at + PIECE <= size; at++) {
        memcpy(&piece, bytes + at, PIECE);
        for (slot = slot_of(piece); piece != 0 && slots[slot].piece != 0; slot = (slot + 1) % SLOTS)
            if (slots[slot].piece == piece)
                found[slots[slot].secret] |= place;
    }
}

/* ---- the heap ---- */

struct block {
    size_t size;
    uint8_t *at;
};

#define BLOCKS 65536
static struct block held[BLOCKS], freed[BLOCKS];
static size_t holds, frees;

void *__wrap_malloc(size_t size)
{
    void *at = __real_malloc(size);

    if (at != NULL) {
        if (holds == BLOCKS)
            exit(2);
        held[holds].size = size;
        held[holds++].at = at;
    }
    return at;
}

void __wrap_free(void *at)
{
    size_t i;

    for (i = 0; i < holds && held[i].at != at; i++)
        ;
    if (at == NULL)
        return;
    if (i == holds || frees == BLOCKS)
        exit(3);
    freed[frees++] = held[i];
    held[i] = held[--holds];
}

void *__wrap_realloc(void *at, size_t size)
{
    uint8_t *new = __wrap_malloc(size);
    size_t i;

    for (i = 0; i < holds && held[i].at != at; i++)
        ;
    if (new != NULL && i < holds) {
        memcpy(new, at, held[i].size < size ? held[i].size : size);
        __wrap_free(at);
    }
    return new;
}

static void search_freed(void)
{
    size_t at;

    for (at = 0; at < frees; at++) {
        search(freed[at].at, freed[at].size, FREED);
        __real_free(freed[at].at);
    }
    frees = 0;
}

/* ---- the stack and the registers ---- */

#define STACK_SIZE (512 * 1024)
static uint8_t stack[STACK_SIZE] __attribute__((aligned(64)));
static uint8_t registers[32 * 64 + 8 * 9] __attribute__((aligned(64)));
static ucontext_t outside, inside;
static const struct step *made;
static fevstunik_answer answer;
static int has_avx512;

static int tells_avx512(void)
{
    unsigned a, b, c, d;

    return __get_cpuid_count(7, 0, &a, &b, &c, &d) && (b >> 16 & 1) && __builtin_cpu_supports("avx512f");
}

#define SAVED(n) "vmovdqu64 %%zmm" #n ", 64*" #n "(%0)\n"
#define SAVED_HALF(n) "movdqu %%xmm" #n ", 64*" #n "(%0)\n"
#define EACH(S) S(0) S(1) S(2) S(3) S(4) S(5) S(6) S(7) S(8) S(9) S(10) S(11) S(12) S(13) S(14) S(15)
#define LATER(S) S(16) S(17) S(18) S(19) S(20) S(21) S(22) S(23) S(24) S(25) S(26) S(27) S(28) S(29) S(30) S(31)

/* The registers that a call needn't keep, but for those that its result is in. */
static inline __attribute__((always_inline)) void save_registers(void)
{
    __asm__ volatile("movq %%rcx, 2048(%0)\nmovq %%rsi, 2056(%0)\nmovq %%rdi, 2064(%0)\nmovq %%r8, 2072(%0)\n"
                     "movq %%r9, 2080(%0)\nmovq %%r10, 2088(%0)\nmovq %%r11, 2096(%0)\nmovq %%rdx, 2104(%0)\n"
                     :
                     : "a"(registers)
                     : "memory");
    if (has_avx512)
        __asm__ volatile(EACH(SAVED) LATER(SAVED) : : "a"(registers) : "memory");
    else
        __asm__ volatile(EACH(SAVED_HALF) : : "a"(registers) : "memory");
}

static void make(void)
{
    answer = made->make();
    save_registers();
}

static void make_on_stack(const struct step *step)
{
    memset(stack, 0xa5, sizeof stack);
    memset(registers, 0, sizeof registers);
    made = step;
    if (getcontext(&inside) != 0)
        exit(2);
    inside.uc_stack.ss_sp = stack;
    inside.uc_stack.ss_size = sizeof stack;
    inside.uc_link = &outside;
    makecontext(&inside, make, 0);
    if (swapcontext(&outside, &inside) != 0)
        exit(2);
}

/* How many bytes of the stack were written to. */
static size_t depth(void)
{
    size_t at;

    for (at = 0; at < sizeof stack && stack[at] == 0xa5; at++)
        ;
    return sizeof stack - at;
}

/* ---- the run ---- */

static void tell(const struct step *step)
{
    int secret;
    size_t place;

    for (secret = 0; secret < secrets; secret++)
        for (place = 0; place < 3; place++)
            if (found[secret] >> place & 1)
                printf("left %s %s|%d|%s\n", places[place], step->name, type(), names[secret]);
    memset(found, 0, sizeof found);
    printf("deep %zu %s|%d\n", depth(), step->name, type());
}

int main(int count, char **words)
{
    size_t at, made_steps = 0;

    if (count != 2)
        return 2;
    read_files(words[1]);
    read_pieces(words[1]);
    has_avx512 = tells_avx512();
    for (of = 0; of < 2; of++)
        for (at = 0; at < STEPS; at++) {
            make_on_stack(&steps[at]);
            is_code(&steps[at], answer);
            search(stack, sizeof stack, STACK);
            search_freed();
            search(registers, sizeof registers, REGISTERS);
            tell(&steps[at]);
            made_steps++;
        }
    printf("%zu steps, %d secrets, %zu blocks held\n", made_steps, secrets, holds);
    return 0;
}
