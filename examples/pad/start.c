/* The start of a program for a Cortex-M7 without a system, and what the board does for it. put and leave are those of an emulator or a
   debugger, by semihosting: of a real board they are its own. */
#include "board.h"

extern uint32_t stack_start, stack_end, data_start, data_end, data_kept, bss_start, bss_end;
extern uint8_t flash_start, flash_end;
int main(void);
void reset(void);

static const uint32_t PAINT = 0xC3A55A3C;

/* ---- semihosting ---- */

enum { WRITE_TEXT = 4, EXIT = 0x20, ENDED = 0x20026 };

static void ask_host(uint32_t what, const void *with)
{
    register uint32_t r0 __asm__("r0") = what;
    register const void *r1 __asm__("r1") = with;
    __asm__ volatile("bkpt 0xab" : "+r"(r0) : "r"(r1) : "memory");
}

void put(const char *text)
{
    ask_host(WRITE_TEXT, text);
}

static void leave(uint32_t status)
{
    const uint32_t words[2] = {ENDED, status};
    ask_host(EXIT, words);
    for (;;)
        ;
}

/* ---- the start ---- */

static void fault(void)
{
    put("pad: a fault\n");
    leave(2);
}

/* The stack's top and what runs first; then what runs at a fault. */
__attribute__((section(".vectors"), used)) static const void *const vectors[16] = {&stack_start, reset, fault, fault, fault, fault, fault};

/* The stack that is not in use yet, painted: how deep the paint is gone is how deep the stack was. */
static void paint(void)
{
    uint32_t *top;
    __asm__ volatile("mov %0, sp" : "=r"(top));
    for (volatile uint32_t *word = &stack_end; word < top; word++)
        *word = PAINT;
}

struct bytes used(void)
{
    const uint32_t *word = &stack_end;
    while (word < &stack_start && *word == PAINT)
        word++;
    return (struct bytes){(uint32_t)(&flash_end - &flash_start), 4 * (uint32_t)((&data_end - &data_start) + (&bss_end - &bss_start)),
                          4 * (uint32_t)(&stack_start - word)};
}

void reset(void)
{
    /* the floating-point unit on, before any float; it rounds to nearest and keeps subnormal numbers, as the library assumes */
    *(volatile uint32_t *)0xE000ED88 |= 0xF << 20;
    __asm__ volatile("dsb\n\tisb" ::: "memory");
    for (uint32_t *to = &data_start, *from = &data_kept; to < &data_end;)
        *to++ = *from++;
    for (uint32_t *word = &bss_start; word < &bss_end;)
        *word++ = 0;
    paint();
    leave((uint32_t)main());
}
