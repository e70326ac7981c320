/* The start of a program on a Cortex-M: the vector table, the memory that C wants, main. Copy it into a firmware project; a
 * real chip has its own interrupts behind the first sixteen entries. */
#include <stdint.h>
#include <stdlib.h>

extern int main(void);
extern uint32_t data_start[], data_end[], data_kept[], bss_start[], bss_end[], stack_top[];

/* Where newlib writes by way of a debugger or an emulator (--specs=rdimon.specs), it wants to be told first. */
extern void initialise_monitor_handles(void) __attribute__((weak));

static void reset(void)
{
#ifdef __ARM_FP
    *(volatile uint32_t *)0xE000ED88 |= 0xFu << 20; /* CPACR: the floating point registers, off after a reset */
    __asm__ volatile("dsb\n\tisb");
#endif
    const uint32_t *kept = data_kept;
    for (uint32_t *p = data_start; p < data_end; p++) *p = *kept++;
    for (uint32_t *p = bss_start; p < bss_end; p++) *p = 0;
    if (initialise_monitor_handles) initialise_monitor_handles();
    exit(main());
}

/* A fault or an interrupt that nobody expects ends the program; on a drive, switch the motor off here. */
static void fault(void) { _Exit(2); }

/* The stack's top, the reset, then NMI to SysTick; the entries that the architecture keeps are 0. */
__attribute__((section(".vectors"), used)) static void (*const vectors[16])(void) = {
    (void (*)(void))stack_top, reset, fault, fault, fault, fault, fault, 0, 0, 0, 0, fault, fault, 0, fault, fault,
};
