/*
 * An echo: what comes in at the UART goes out again, its letters in upper case. The program does nothing
 * else than wait; each input is an interrupt, which the UART raises and the PLIC brings to the VCPU. The
 * byte 0x04, end of transmission, ends the guest as passed, and a trap that isn't such an interrupt ends it
 * as failed.
 *
 * echo.s has the start and the trap entry, trees/echo.dts the addresses and the source's number.
 */
#include <stdint.h>

/* The UART, a 16550 whose registers are one byte apart. */
#define UART 0x10000000UL
enum {
    UART_DATA = 0,              /* read: the oldest byte received; write: a byte to send */
    UART_IER = 1,
    UART_FCR = 2,
    UART_LSR = 5,
    IER_RECEIVED = 0x01,        /* interrupt where a byte was received */
    FCR_FIFO = 0x01,
    FCR_TRIGGER_8 = 0x80,
    LSR_DATA_READY = 0x01,
    LSR_THR_EMPTY = 0x20,
};

/* The PLIC: the registers of source 10, which is the UART's, and of context 0, which is VCPU 0's. */
#define PLIC 0xc000000UL
enum {
    UART_SOURCE = 10,
    PLIC_PRIORITY = 4 * UART_SOURCE,
    PLIC_ENABLES = 0x2000,      /* of the sources 0 to 31, bit k for source k */
    PLIC_THRESHOLD = 0x200000,
    PLIC_CLAIM = 0x200004,      /* read: claim; write: complete */
};

/* The finisher: a store ends the guest. */
#define FINISHER 0x100000UL
enum {
    FINISH_PASS = 0x5555,
    FINISH_FAIL = 0x3333,       /* with a code in the upper 16 bits */
};

#define SSTATUS_SIE (1UL << 1)  /* interrupts are taken in mode S */
#define SIE_SEIE (1UL << 9)     /* and external ones are among them */
#define CAUSE_EXTERNAL (1UL << 63 | 9)

#define END_OF_TRANSMISSION 0x04

/*
 * Registers of devices. Each access is to be made as it stands, once, in this order and with this width,
 * since it does something: a read takes a byte out, a write sends one. Hence `volatile`. A UART takes
 * accesses of one byte alone, PLIC and finisher aligned ones of four.
 */
static uint8_t uart_read(unsigned reg)
{
    return *(volatile uint8_t *)(UART + reg);
}

static void uart_write(unsigned reg, uint8_t value)
{
    *(volatile uint8_t *)(UART + reg) = value;
}

static uint32_t plic_read(unsigned offset)
{
    return *(volatile uint32_t *)(PLIC + offset);
}

static void plic_write(unsigned offset, uint32_t value)
{
    *(volatile uint32_t *)(PLIC + offset) = value;
}

/* The store is the guest's last step. */
static _Noreturn void finish(uint32_t word)
{
    *(volatile uint32_t *)FINISHER = word;
    for (;;) {
    }
}

static void send(uint8_t byte)
{
    while (!(uart_read(UART_LSR) & LSR_THR_EMPTY)) {
        /* here it is empty at once, on a board it isn't */
    }
    uart_write(UART_DATA, byte);
}

static void send_text(const char *text)
{
    while (*text != 0) {
        send(*text++);
    }
}

static uint8_t upper(uint8_t byte)
{
    return byte >= 'a' && byte <= 'z' ? byte - 'a' + 'A' : byte;
}

/* Takes every byte out, so that the UART's line is down afterwards. */
static void echo_received(void)
{
    while (uart_read(UART_LSR) & LSR_DATA_READY) {
        uint8_t byte = uart_read(UART_DATA);

        if (byte == END_OF_TRANSMISSION) {
            finish(FINISH_PASS);
        }
        send(upper(byte));
    }
}

/* Every trap, called by the entry in echo.s with interrupts off. */
void trap(uint64_t cause)
{
    if (cause != CAUSE_EXTERNAL) {
        finish(FINISH_FAIL | (uint32_t)cause << 16);
    }

    /* The claim says which source it is, 0 for none. Until it is completed, it doesn't become pending again. */
    uint32_t source = plic_read(PLIC_CLAIM);

    if (source == UART_SOURCE) {
        echo_received();
        plic_write(PLIC_CLAIM, source);
    }
}

/* Called by the start in echo.s. */
_Noreturn void echo(void)
{
    /* Interrupts at 8 bytes; fewer ones time out, and are an interrupt too. A change of FCR_FIFO drops what was
       received before. */
    uart_write(UART_FCR, FCR_FIFO | FCR_TRIGGER_8);
    uart_write(UART_IER, IER_RECEIVED);

    /* A priority above the threshold, and enabled: then a pending source raises the VCPU's interrupt. */
    plic_write(PLIC_PRIORITY, 1);
    plic_write(PLIC_ENABLES, 1U << UART_SOURCE);
    plic_write(PLIC_THRESHOLD, 0);

    send_text("ready\n");

    /* Last, since an interrupt may be taken from here on. */
    __asm__ volatile("csrs sie, %0" : : "r"(SIE_SEIE) : "memory");
    __asm__ volatile("csrs sstatus, %0" : : "r"(SSTATUS_SIE) : "memory");

    for (;;) {
        /* The VCPU gets no turn until an interrupt is pending, which the trap entry then takes. */
        __asm__ volatile("wfi" : : : "memory");
    }
}
