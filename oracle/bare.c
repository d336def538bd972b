/* The start of a test for a Cortex-M7 without a system: a C library that reads, writes and ends by semihosting. Its memory is that of
 * examples/pad/pad.ld, where the heap lies above the stack. */
#include <errno.h>
#include <stddef.h>
#include <stdint.h>
#include <stdlib.h>

extern uint32_t stack_start, data_start, data_end, data_kept, bss_start, bss_end;
extern char end[];
void initialise_monitor_handles(void);
int main(void);
void reset(void);

enum { HEAP = 1 << 20 };

void *_sbrk(ptrdiff_t more)
{
    static char *top = end;
    char *before = top;
    if (top + more > end + HEAP) {
        errno = ENOMEM;
        return (void *)-1;
    }
    top += more;
    return before;
}

void _init(void)
{
}

void _fini(void)
{
}

static void fault(void)
{
    _Exit(2);
}

__attribute__((section(".vectors"), used)) static const void *const vectors[16] = {&stack_start, reset, fault, fault, fault, fault, fault};

void reset(void)
{
    *(volatile uint32_t *)0xE000ED88 |= 0xF << 20;
    __asm__ volatile("dsb\n\tisb" ::: "memory");
    for (uint32_t *to = &data_start, *from = &data_kept; to < &data_end;)
        *to++ = *from++;
    for (uint32_t *word = &bss_start; word < &bss_end;)
        *word++ = 0;
    initialise_monitor_handles();
    exit(main());
}
