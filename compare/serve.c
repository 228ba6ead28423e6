/* Answers the comparison drivers for the proved static library, which is compiled for x86-64 Linux (src/served.rs says how
   questions and answers are laid out). It uses no C library and no header but the proved library's own, so that the
   compiler and linker that come with the proof tools build it by themselves: `serve.sh build LIBRARY PROGRAM`. */

typedef __SIZE_TYPE__ size_t;
typedef __UINT8_TYPE__ uint8_t;
typedef __INT32_TYPE__ int32_t;
typedef __UINT32_TYPE__ uint32_t;
typedef __UINT64_TYPE__ uint64_t;
#define SOMNIARET_TYPES_DECLARED
#include "../include/somniaret.h"

/* A library that has not all of the calls is linked all the same: one that it lacks is null. */
#pragma weak somniaret_verdict
#pragma weak somniaret_rewrite
#pragma weak somniaret_count
#pragma weak somniaret_conflicts
#pragma weak somniaret_pair
#pragma weak somniaret_walk
#pragma weak somniaret_sweep
#pragma weak somniaret_sweep_table

enum { VERDICT = 1, REWRITE, COUNT, CONFLICTS, PAIR, WALK, SWEEP, SWEEP_TABLE, STACK };

enum { MOST_BYTES = 1 << 20 };

/* A part of the memory that comes with a question: the form, or what is lent. From `NOWHERE` on it is a null pointer. */
struct part {
    uint64_t start;
    uint64_t length;
};

#define NOWHERE (~(uint64_t)0)

static struct {
    uint64_t call;
    uint64_t numbers[4];
    struct part form;
    struct part table;
    struct part out;
    uint64_t memory_length;
} question;

/* The memory stands right after the numbers, so that an answer is written at once. */
static struct answer {
    uint64_t answered; /* 0 where the library has no such call */
    union {
        uint64_t all[8];
        struct somniaret_form_answer form;
        struct somniaret_count_answer count;
        struct somniaret_list_answer list;
        struct somniaret_walk_answer walk;
        struct somniaret_sweep_answer sweep;
    } numbers;
    uint8_t memory[MOST_BYTES];
} answer;

/* What a compiler may call without being asked. Words are copied and set where they can be, at any address. */

typedef uint64_t __attribute__((aligned(1), may_alias)) loose_word;

static void copy_bytes(uint8_t *to, const uint8_t *from, size_t many)
{
    for (; many >= sizeof(loose_word); to += sizeof(loose_word), from += sizeof(loose_word), many -= sizeof(loose_word))
        *(volatile loose_word *)to = *(const loose_word *)from;
    for (; many > 0; many--)
        *(volatile uint8_t *)to++ = *from++;
}

void *memcpy(void *to, const void *from, size_t many)
{
    copy_bytes(to, from, many);
    return to;
}

void *memmove(void *to, const void *from, size_t many)
{
    if ((size_t)to <= (size_t)from)
        copy_bytes(to, from, many);
    else
        for (; many > 0; many--)
            ((volatile uint8_t *)to)[many - 1] = ((const uint8_t *)from)[many - 1];
    return to;
}

void *memset(void *to, int value, size_t many)
{
    uint8_t *at = to;
    uint64_t word = (uint8_t)value * (NOWHERE / 255);
    for (; many >= sizeof(loose_word); at += sizeof(loose_word), many -= sizeof(loose_word))
        *(volatile loose_word *)at = word;
    for (; many > 0; many--)
        *(volatile uint8_t *)at++ = (uint8_t)value;
    return to;
}

int memcmp(const void *one, const void *other, size_t many)
{
    for (size_t at = 0; at < many; at++) {
        int difference = ((const volatile uint8_t *)one)[at] - ((const volatile uint8_t *)other)[at];
        if (difference != 0)
            return difference;
    }
    return 0;
}

/* The three calls of Linux that are needed. */

enum { READ = 0, WRITE = 1, EXIT = 60 };

static long system_call(long call, long first, void *second, size_t third)
{
    long result;
    __asm__ volatile("syscall"
                     : "=a"(result)
                     : "a"(call), "D"(first), "S"(second), "d"(third)
                     : "rcx", "r11", "memory");
    return result;
}

enum { NO_MORE_QUESTIONS = 0, BROKEN_PIPE = 2, NO_QUESTION = 3 };

static void leave(long status)
{
    for (;;)
        system_call(EXIT, status, 0, 0);
}

/* Reads exactly so many bytes; between two questions the input may end. */
static void read_all(void *to, size_t many, int may_end)
{
    size_t done = 0;
    while (done < many) {
        long more = system_call(READ, 0, (uint8_t *)to + done, many - done);
        if (more == 0 && done == 0 && may_end)
            leave(NO_MORE_QUESTIONS);
        if (more <= 0)
            leave(BROKEN_PIPE);
        done += (size_t)more;
    }
}

static void write_all(void *from, size_t many)
{
    size_t done = 0;
    while (done < many) {
        long more = system_call(WRITE, 1, (uint8_t *)from + done, many - done);
        if (more <= 0)
            leave(BROKEN_PIPE);
        done += (size_t)more;
    }
}

/* Where a part is, within the memory. */
static uint8_t *at(const struct part *part)
{
    if (part->start == NOWHERE && part->length == 0)
        return 0;
    if (part->start > question.memory_length || part->length > question.memory_length - part->start)
        leave(NO_QUESTION);
    return answer.memory + part->start;
}

/* All calls are made on this stack, which is painted beforehand, so that it shows how much of it they used. */

enum { STACK_WORDS = 1 << 17 };

uint64_t own_stack[STACK_WORDS] __attribute__((aligned(16)));

#define PAINT 0x5a17a11c0de5f00dULL

void paint(void)
{
    for (size_t at = 0; at < STACK_WORDS; at++)
        own_stack[at] = PAINT;
}

/* The most bytes of stack that a call took so far, below this frame. */
static uint64_t used_stack(const void *frame)
{
    size_t at = 0;
    while (at < STACK_WORDS && own_stack[at] == PAINT)
        at++;
    return (uint64_t)((const uint8_t *)frame - (const uint8_t *)(own_stack + at));
}

/* Asks the library and says whether it has the call. All numbers of the answer are zero beforehand. */
static int ask(void)
{
    const uint64_t *given = question.numbers;
    const uint8_t *form = at(&question.form);
    size_t len = question.form.length;
    struct somniaret_entry *table = (void *)at(&question.table);
    size_t entries = question.table.length / sizeof *table;
    uint8_t *out = at(&question.out);
    size_t out_len = question.out.length;

    switch (question.call) {
    case VERDICT:
        if (!somniaret_verdict)
            return 0;
        answer.numbers.form = somniaret_verdict(form, len);
        return 1;
    case REWRITE:
        if (!somniaret_rewrite)
            return 0;
        answer.numbers.form = somniaret_rewrite(form, len, out, out_len);
        return 1;
    case COUNT:
        if (!somniaret_count)
            return 0;
        answer.numbers.count =
            somniaret_count((int32_t)given[0], (int32_t)given[1], (uint8_t)given[2], (int32_t)given[3]);
        return 1;
    case CONFLICTS:
        if (!somniaret_conflicts)
            return 0;
        answer.numbers.list = somniaret_conflicts(form, len, out, out_len);
        return 1;
    case PAIR:
        if (!somniaret_pair)
            return 0;
        answer.numbers.all[0] =
            somniaret_pair((uint8_t)given[0], (int32_t)given[1], (uint8_t)given[2], (int32_t)given[3]);
        return 1;
    case WALK:
        if (!somniaret_walk)
            return 0;
        answer.numbers.walk = somniaret_walk(form, len, (uint32_t)given[0], out, out_len);
        return 1;
    case SWEEP:
        if (!somniaret_sweep)
            return 0;
        answer.numbers.sweep = somniaret_sweep(form, len, out, out_len);
        return 1;
    case SWEEP_TABLE:
        if (!somniaret_sweep_table)
            return 0;
        answer.numbers.sweep = somniaret_sweep_table(form, len, table, entries, out, out_len);
        return 1;
    case STACK:
        answer.numbers.all[0] = used_stack(__builtin_frame_address(0));
        return 1;
    default:
        leave(NO_QUESTION);
        return 0;
    }
}

void serve(void)
{
    for (;;) {
        read_all(&question, sizeof question, 1);
        if (question.memory_length > MOST_BYTES)
            leave(NO_QUESTION);
        read_all(answer.memory, question.memory_length, 0);
        memset(&answer.numbers, 0, sizeof answer.numbers);
        answer.answered = (uint64_t)ask();
        write_all(&answer, __builtin_offsetof(struct answer, memory) + question.memory_length);
    }
}

__asm__(".globl _start\n"
        "_start:\n"
        "    xorl %ebp, %ebp\n"
        "    andq $-16, %rsp\n"
        "    call paint\n"
        "    leaq own_stack+1048576(%rip), %rsp\n"
        "    call serve\n"
        "    ud2\n");
