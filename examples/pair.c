/*
 * Two VCPUs and the firmware. VCPU 0 starts VCPU 1 with a task, and waits. VCPU 1 adds the numbers of a table,
 * sends an interrupt to VCPU 0 and stops itself. VCPU 0 says what the sum is, waits for a timer, and shuts the
 * guest down. A call that fails and a trap end the guest as failed.
 *
 * pair.s has the start, trees/payload.dtb the two VCPUs and the addresses.
 */
#include <stdint.h>

/* The UART, a 16550 whose registers are one byte apart. */
#define UART 0x10000000UL
enum {
    UART_DATA = 0,              /* write: a byte to send */
    UART_LSR = 5,
    LSR_THR_EMPTY = 0x20,
};

/* The finisher: a store ends the guest. */
#define FINISHER 0x100000UL
enum {
    FINISH_FAIL = 0x3333,       /* with a code in the upper 16 bits */
};

/* Bits of sie and sip. */
#define SOFTWARE (1UL << 1)
#define TIMER (1UL << 5)

/* Calls to firmware: extensions and functions of SBI 1.0. */
enum {
    SBI_TIME = 0x54494d45,
    SET_TIMER = 0,
    SBI_IPI = 0x735049,
    SEND_IPI = 0,
    SBI_HSM = 0x48534d,
    HART_START = 0,
    HART_STOP = 1,
    HART_GET_STATUS = 2,
    SBI_SRST = 0x53525354,
    SYSTEM_RESET = 0,
};

enum {
    STOPPED = 1,                /* of HART_GET_STATUS */
    SHUTDOWN = 0,               /* of SYSTEM_RESET */
    NO_REASON = 0,
    SECOND = 1,                 /* the VCPU that is started */
    WAIT = 150,                 /* how long the timer is to take */
};

/* What VCPU 0 gives to VCPU 1. */
struct task {
    const uint32_t *numbers;
    uint64_t count;
    uint64_t sum;               /* the answer */
};

static const uint32_t numbers[] = { 2, 3, 5, 7, 11, 13, 17, 19, 23, 29 };

extern char start[];            /* in pair.s */

/* The store is the guest's last step. */
static _Noreturn void fail(uint32_t code)
{
    *(volatile uint32_t *)FINISHER = FINISH_FAIL | code << 16;
    for (;;) {
    }
}

/* A call: a7 and a6 say which one, a0 to a2 are its arguments. Error and value come back in a0 and a1, and no
   other register changes. Returns the value. */
static uint64_t call(uint64_t extension, uint64_t function, uint64_t arg0, uint64_t arg1, uint64_t arg2)
{
    register uint64_t a0 __asm__("a0") = arg0;
    register uint64_t a1 __asm__("a1") = arg1;
    register uint64_t a2 __asm__("a2") = arg2;
    register uint64_t a6 __asm__("a6") = function;
    register uint64_t a7 __asm__("a7") = extension;

    __asm__ volatile("ecall" : "+r"(a0), "+r"(a1) : "r"(a2), "r"(a6), "r"(a7) : "memory");
    if (a0 != 0) {
        fail(-a0);
    }
    return a1;
}

static void send(uint8_t byte)
{
    while (!(*(volatile uint8_t *)(UART + UART_LSR) & LSR_THR_EMPTY)) {
        /* here it is empty at once, on a board it isn't */
    }
    *(volatile uint8_t *)(UART + UART_DATA) = byte;
}

static void send_text(const char *text)
{
    while (*text != 0) {
        send(*text++);
    }
}

static void send_number(uint64_t number)
{
    if (number >= 10) {
        send_number(number / 10);
    }
    send('0' + number % 10);
}

static uint64_t now(void)
{
    uint64_t time;

    __asm__ volatile("csrr %0, time" : "=r"(time));
    return time;
}

/* Until one of these interrupts is pending. They are enabled in sie, so that they end a WFI, and not in sstatus,
   so that none is taken. */
static void wait_for(uint64_t interrupts)
{
    uint64_t pending;

    __asm__ volatile("csrw sie, %0" : : "r"(interrupts));
    for (;;) {
        __asm__ volatile("csrr %0, sip" : "=r"(pending) : : "memory");
        if (pending & interrupts) {
            return;
        }
        __asm__ volatile("wfi" : : : "memory");
    }
}

/* VCPU 1, called by the start with the task. */
_Noreturn void second(struct task *task)
{
    uint64_t sum = 0;

    for (uint64_t i = 0; i < task->count; i++) {
        sum += task->numbers[i];
    }
    task->sum = sum;

    /* The sum comes before the interrupt. Bit 0 of the mask, counted from VCPU 0 on, is VCPU 0. */
    __sync_synchronize();
    call(SBI_IPI, SEND_IPI, 1, 0, 0);

    call(SBI_HSM, HART_STOP, 0, 0, 0);      /* doesn't come back */
    fail(1);
}

/* VCPU 0, called by the start. */
_Noreturn void first(void)
{
    struct task task = { numbers, sizeof numbers / sizeof numbers[0], 0 };

    if (call(SBI_HSM, HART_GET_STATUS, SECOND, 0, 0) == STOPPED) {
        send_text("1 is stopped\n");
    }

    /* VCPU 1 begins where VCPU 0 did, with its number in a0 and the task in a1. */
    call(SBI_HSM, HART_START, SECOND, (uint64_t)start, (uint64_t)&task);
    send_text("1 starts\n");

    /* The software interrupt is pending until it is cleared. */
    wait_for(SOFTWARE);
    __asm__ volatile("csrc sip, %0" : : "r"(SOFTWARE));
    __sync_synchronize();
    send_text("sum ");
    send_number(task.sum);

    /* VCPU 1 may still be between its two last calls. */
    while (call(SBI_HSM, HART_GET_STATUS, SECOND, 0, 0) != STOPPED) {
    }
    send_text("\n1 is stopped\n");

    uint64_t then = now();

    /* The timer's interrupt is pending from that time on, until another time is set. The last one never comes. */
    call(SBI_TIME, SET_TIMER, then + WAIT, 0, 0);
    wait_for(TIMER);
    call(SBI_TIME, SET_TIMER, UINT64_MAX, 0, 0);
    send_text("from ");
    send_number(then);
    send_text(" to ");
    send_number(now());
    send_text("\n");

    call(SBI_SRST, SYSTEM_RESET, SHUTDOWN, NO_REASON, 0);   /* doesn't come back */
    fail(2);
}
