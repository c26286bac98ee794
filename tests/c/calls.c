/*
 * Calls every exported function as a C kernel does, with arguments that it accepts and arguments that it refuses, and looks at the code, at the
 * value and at every byte around it, also of every form, and of the checker at the record that it names. tests/c/run builds it as C and as C++ and
 * runs both.
 *
 * It includes nothing of a C library, so that a compiler for another machine needs no headers of one.
 */
#include "../../include/hubcrackle.h"

#ifdef __cplusplus
extern "C" {
#endif
int printf(const char *format, ...);
#ifdef __cplusplus
}
#endif

#define OK HUBCRACKLE_OK
#define EPERM HUBCRACKLE_EPERM
#define ENOMEM HUBCRACKLE_ENOMEM
#define EBUSY HUBCRACKLE_EBUSY
#define EINVAL HUBCRACKLE_EINVAL
#define EDEADLK HUBCRACKLE_EDEADLK
#define EALREADY HUBCRACKLE_EALREADY
#define EOVERFLOW HUBCRACKLE_EOVERFLOW
#define DIFFERS HUBCRACKLE_DIFFERS

enum { BEFORE = 16, ROOM = 16384, AFTER = 16, ALL = BEFORE + ROOM + AFTER };

/* Lent room with bytes on both sides that no call may touch. */
static uint8_t bytes[ALL];
static uint8_t *const out = bytes + BEFORE;

/* A log of records that are all zero, which is "up" of CPU 0: the longest, and one record more. */
static const uint8_t zeros[HUBCRACKLE_LOG_MAX + HUBCRACKLE_RECORD_BYTES] = { 0 };

static int calls, wrong;

/* What a byte is before a call: it differs from its neighbours. */
static uint8_t pattern(int at)
{
    return (uint8_t)(0xa5 ^ at * 29);
}

static int fill(void)
{
    int at;

    for (at = 0; at < ALL; at++)
        bytes[at] = pattern(at);
    return 0;
}

static int digit(char c)
{
    return c <= '9' ? c - '0' : c - 'a' + 10;
}

/* Counts a call. The room must begin with the value, in hexadecimal digits, and all else be as it was. */
static void check(int line, const char *call, int32_t code, int32_t want, const char *value)
{
    int at, bad = code != want;

    for (at = 0; at < ALL; at++) {
        uint8_t byte = pattern(at);

        if (at >= BEFORE && *value) {
            byte = (uint8_t)(digit(value[0]) * 16 + digit(value[1]));
            value += 2;
        }
        if (bytes[at] != byte) {
            printf("calls.c:%d: byte %d of the room is %02x, and should be %02x\n", line, at - BEFORE, bytes[at], byte);
            bad = 1;
        }
    }
    if (code != want)
        printf("calls.c:%d: the code is %d, and should be %d\n", line, (int)code, (int)want);
    if (bad)
        printf("calls.c:%d: WRONG: %s\n", line, call);
    calls++;
    wrong += bad;
}

/* Tries a call that lends `out`: its code, and its value as hexadecimal digits, "" where it is refused. */
#define TRY(want, value, call) (fill(), check(__LINE__, #call, (call), (want), (value)))

static void owner_words(void)
{
    const uint64_t last = UINT64_MAX - 3;

    TRY(OK, "000000000000000b", hubcrackle_spin_lock_compute_owner(3, 8, 0, out, 8)); /* M1 */
    TRY(OK, "0123456789abcdee", hubcrackle_spin_lock_compute_owner(2, 0x0123456789abcdecu, 0, out, 20));
    TRY(OK, "ffffffffffffffff", hubcrackle_spin_lock_compute_owner(3, last, 0, out, 8));
    TRY(EINVAL, "", hubcrackle_spin_lock_compute_owner(4, 8, 0, out, 8));
    TRY(EINVAL, "", hubcrackle_spin_lock_compute_owner(UINT32_MAX, 8, 0, out, 8));
    TRY(EINVAL, "", hubcrackle_spin_lock_compute_owner(0, 0, 0, out, 8));
    TRY(EINVAL, "", hubcrackle_spin_lock_compute_owner(0, 10, 0, out, 8));
    TRY(EINVAL, "", hubcrackle_spin_lock_compute_owner(4, 8, 0, out, 0));
    TRY(ENOMEM, "", hubcrackle_spin_lock_compute_owner(3, 8, 0, out, 7));
    TRY(ENOMEM, "", hubcrackle_spin_lock_compute_owner(3, 8, 0, out, 0));

    TRY(OK, "000000000000000803", hubcrackle_spin_lock_decode_owner(11, 0, out, 9)); /* M1 */
    TRY(OK, "000000000000000000", hubcrackle_spin_lock_decode_owner(0, 0, out, 9));  /* M2 */
    TRY(OK, "000000000000000400", hubcrackle_spin_lock_decode_owner(4, 0, out, 9));
    TRY(OK, "0123456789abcdec02", hubcrackle_spin_lock_decode_owner(0x0123456789abcdeeu, 0, out, 30));
    TRY(OK, "fffffffffffffffc03", hubcrackle_spin_lock_decode_owner(UINT64_MAX, 0, out, 9));
    TRY(EINVAL, "", hubcrackle_spin_lock_decode_owner(1, 0, out, 9));
    TRY(EINVAL, "", hubcrackle_spin_lock_decode_owner(3, 0, out, 9)); /* M2 */
    TRY(EINVAL, "", hubcrackle_spin_lock_decode_owner(2, 0, out, 0));
    TRY(ENOMEM, "", hubcrackle_spin_lock_decode_owner(11, 0, out, 8));
    TRY(ENOMEM, "", hubcrackle_spin_lock_decode_owner(0, 0, out, 8));

    TRY(OK, "01", hubcrackle_spin_lock_valid(0, 0, 0, out, 1));
    TRY(OK, "00", hubcrackle_spin_lock_valid(2, 2, 0, out, 1)); /* M3 */
    TRY(OK, "00", hubcrackle_spin_lock_valid(11, 3, 0, out, 1));
    TRY(OK, "01", hubcrackle_spin_lock_valid(11, 2, 0, out, 5));
    TRY(EINVAL, "", hubcrackle_spin_lock_valid(11, 4, 0, out, 1));
    TRY(EINVAL, "", hubcrackle_spin_lock_valid(0, 4, 0, out, 0));
    TRY(ENOMEM, "", hubcrackle_spin_lock_valid(11, 3, 0, out, 0));

    TRY(OK, "01", hubcrackle_spin_unlock_valid(11, 3, 8, 0, out, 1));
    TRY(OK, "00", hubcrackle_spin_unlock_valid(11, 2, 8, 0, out, 1));
    TRY(OK, "00", hubcrackle_spin_unlock_valid(11, 3, 12, 0, out, 6));
    TRY(OK, "00", hubcrackle_spin_unlock_valid(0, 0, 4, 0, out, 1));
    TRY(OK, "01", hubcrackle_spin_unlock_valid(UINT64_MAX, 3, last, 0, out, 1));
    TRY(EINVAL, "", hubcrackle_spin_unlock_valid(12, 4, 8, 0, out, 1));
    TRY(EINVAL, "", hubcrackle_spin_unlock_valid(3, 3, 0, 0, out, 1));
    TRY(EINVAL, "", hubcrackle_spin_unlock_valid(9, 0, 9, 0, out, 0));
    TRY(ENOMEM, "", hubcrackle_spin_unlock_valid(11, 3, 8, 0, out, 0));
}

/* Owner words with a tag of four bits, and flags that are neither 0 nor 1. */
static void wide_owner_words(void)
{
    const uint64_t last = UINT64_MAX - 15;

    TRY(OK, "000000000000001f", hubcrackle_spin_lock_compute_owner(15, 16, 1, out, 8));
    TRY(OK, "0123456789abcde9", hubcrackle_spin_lock_compute_owner(9, 0x0123456789abcde0u, 1, out, 20));
    TRY(OK, "ffffffffffffffff", hubcrackle_spin_lock_compute_owner(15, last, 1, out, 8));
    TRY(EINVAL, "", hubcrackle_spin_lock_compute_owner(16, 16, 1, out, 8));
    TRY(EINVAL, "", hubcrackle_spin_lock_compute_owner(UINT32_MAX, 16, 1, out, 8));
    TRY(EINVAL, "", hubcrackle_spin_lock_compute_owner(15, 0, 1, out, 8));
    TRY(EINVAL, "", hubcrackle_spin_lock_compute_owner(15, 8, 1, out, 8));
    TRY(EINVAL, "", hubcrackle_spin_lock_compute_owner(15, 16, 0, out, 8));
    TRY(EINVAL, "", hubcrackle_spin_lock_compute_owner(3, 16, 2, out, 8));
    TRY(EINVAL, "", hubcrackle_spin_lock_compute_owner(3, 16, UINT32_MAX, out, 0));
    TRY(ENOMEM, "", hubcrackle_spin_lock_compute_owner(15, 16, 1, out, 7));

    TRY(OK, "00000000000000100f", hubcrackle_spin_lock_decode_owner(31, 1, out, 9));
    TRY(OK, "000000000000001000", hubcrackle_spin_lock_decode_owner(16, 1, out, 9));
    TRY(OK, "000000000000000000", hubcrackle_spin_lock_decode_owner(0, 1, out, 9));
    TRY(OK, "0123456789abcde009", hubcrackle_spin_lock_decode_owner(0x0123456789abcde9u, 1, out, 30));
    TRY(OK, "fffffffffffffff00f", hubcrackle_spin_lock_decode_owner(UINT64_MAX, 1, out, 9));
    TRY(OK, "000000000000000c03", hubcrackle_spin_lock_decode_owner(15, 0, out, 9));
    TRY(EINVAL, "", hubcrackle_spin_lock_decode_owner(15, 1, out, 9));
    TRY(EINVAL, "", hubcrackle_spin_lock_decode_owner(4, 1, out, 9));
    TRY(EINVAL, "", hubcrackle_spin_lock_decode_owner(1, 1, out, 0));
    TRY(EINVAL, "", hubcrackle_spin_lock_decode_owner(31, 2, out, 9));
    TRY(EINVAL, "", hubcrackle_spin_lock_decode_owner(0, UINT32_MAX, out, 0));
    TRY(ENOMEM, "", hubcrackle_spin_lock_decode_owner(31, 1, out, 8));

    TRY(OK, "01", hubcrackle_spin_lock_valid(0, 15, 1, out, 1));
    TRY(OK, "00", hubcrackle_spin_lock_valid(31, 15, 1, out, 1));
    TRY(OK, "00", hubcrackle_spin_lock_valid(15, 15, 1, out, 1));
    TRY(OK, "01", hubcrackle_spin_lock_valid(31, 3, 1, out, 5));
    TRY(OK, "00", hubcrackle_spin_lock_valid(31, 3, 0, out, 1));
    TRY(EINVAL, "", hubcrackle_spin_lock_valid(31, 16, 1, out, 1));
    TRY(EINVAL, "", hubcrackle_spin_lock_valid(31, 15, 0, out, 1));
    TRY(EINVAL, "", hubcrackle_spin_lock_valid(31, 3, 2, out, 1));
    TRY(EINVAL, "", hubcrackle_spin_lock_valid(0, 0, UINT32_MAX, out, 0));
    TRY(ENOMEM, "", hubcrackle_spin_lock_valid(31, 15, 1, out, 0));

    TRY(OK, "01", hubcrackle_spin_unlock_valid(31, 15, 16, 1, out, 1));
    TRY(OK, "00", hubcrackle_spin_unlock_valid(31, 14, 16, 1, out, 1));
    TRY(OK, "00", hubcrackle_spin_unlock_valid(31, 15, 32, 1, out, 6));
    TRY(OK, "00", hubcrackle_spin_unlock_valid(0, 0, 16, 1, out, 1));
    TRY(OK, "01", hubcrackle_spin_unlock_valid(UINT64_MAX, 15, last, 1, out, 1));
    TRY(EINVAL, "", hubcrackle_spin_unlock_valid(32, 16, 16, 1, out, 1));
    TRY(EINVAL, "", hubcrackle_spin_unlock_valid(15, 15, 0, 1, out, 1));
    TRY(EINVAL, "", hubcrackle_spin_unlock_valid(11, 3, 8, 1, out, 0));
    TRY(EINVAL, "", hubcrackle_spin_unlock_valid(19, 3, 16, 2, out, 1));
    TRY(EINVAL, "", hubcrackle_spin_unlock_valid(19, 3, 16, UINT32_MAX, out, 0));
    TRY(ENOMEM, "", hubcrackle_spin_unlock_valid(31, 15, 16, 1, out, 0));
}

static void masks(void)
{
    TRY(OK, "00000006", hubcrackle_cpu_mask_mod(5, 2, 1, 0, 0, out, 4)); /* M4 */
    TRY(EINVAL, "", hubcrackle_cpu_mask_mod(5, 2, 1, 0, 1, out, 4));     /* M4 */
    TRY(OK, "00000001", hubcrackle_cpu_mask_mod(1, 8, 8, 0, 0, out, 4)); /* M5 */
    TRY(OK, "00000000", hubcrackle_cpu_mask_mod(7, 0, UINT32_MAX, 0, 0, out, 4)); /* M6 */
    TRY(EINVAL, "", hubcrackle_cpu_mask_mod(7, 0, UINT32_MAX, 0, 1, out, 4));     /* M6 */
    TRY(OK, "89abcdef", hubcrackle_cpu_mask_mod(0x80a0c0e0u, 0x090b0d0fu, 0, 0, 0, out, 9));
    TRY(OK, "80000000", hubcrackle_cpu_mask_mod(1, 0x80000000u, 1, 0, 1, out, 4));
    TRY(EINVAL, "", hubcrackle_cpu_mask_mod(5, 2, 1, 1, 0, out, 4));
    TRY(EINVAL, "", hubcrackle_cpu_mask_mod(5, 2, 1, 2, 0, out, 4));
    TRY(EINVAL, "", hubcrackle_cpu_mask_mod(5, 2, 5, 0, 2, out, 4));
    TRY(EINVAL, "", hubcrackle_cpu_mask_mod(5, 2, 5, 0, UINT32_MAX, out, 4));
    TRY(EINVAL, "", hubcrackle_cpu_mask_mod(5, 2, 1, 256, 0, out, 0));
    TRY(ENOMEM, "", hubcrackle_cpu_mask_mod(5, 2, 1, 0, 0, out, 3));

    TRY(OK, "00", hubcrackle_validate_pin_mask(0, out, 1));
    TRY(OK, "01", hubcrackle_validate_pin_mask(1, out, 1));
    TRY(OK, "01", hubcrackle_validate_pin_mask(0x80000000u, out, 3));
    TRY(OK, "00", hubcrackle_validate_pin_mask(0x80000001u, out, 1));
    TRY(OK, "00", hubcrackle_validate_pin_mask(UINT32_MAX, out, 1));
    TRY(ENOMEM, "", hubcrackle_validate_pin_mask(1, out, 0));

    TRY(OK, "80000000", hubcrackle_cpu_pin_compute(31, 32, out, 4)); /* M7 */
    TRY(EINVAL, "", hubcrackle_cpu_pin_compute(32, 33, out, 4));     /* M7 */
    TRY(EINVAL, "", hubcrackle_cpu_pin_compute(0, 0, out, 4));       /* M7 */
    TRY(OK, "00000001", hubcrackle_cpu_pin_compute(0, 1, out, 40));
    TRY(EINVAL, "", hubcrackle_cpu_pin_compute(0, 33, out, 4));
    TRY(EINVAL, "", hubcrackle_cpu_pin_compute(4, 4, out, 0));
    TRY(ENOMEM, "", hubcrackle_cpu_pin_compute(31, 32, out, 3));
}

static void interrupts(void)
{
    /* M9: priorities 9 9 5 9, CPU 3 inactive; and one byte more. */
    static const uint8_t four[] = { 1, 0, 0, 0, 9, 1, 0, 0, 0, 9, 1, 0, 0, 0, 5, 0, 0, 0, 0, 9, 0 };
    /* The least and the greatest priority, and -1. */
    static const uint8_t ends[] = { 1, 0x80, 0, 0, 0, 1, 0x7f, 0xff, 0xff, 0xff, 1, 0xff, 0xff, 0xff, 0xff };
    static const uint8_t two_active[] = { 1, 0, 0, 0, 9, 2, 0, 0, 0, 9 };
    uint8_t many[85];
    int at;

    /* Seventeen CPUs, each active and running at priority 256. */
    for (at = 0; at < 85; at++)
        many[at] = at % 5 == 0 || at % 5 == 3;

    TRY(OK, "00000002", hubcrackle_compute_ipi_mask(0, 5, 15, four, 20, 4, 4, out, 4));                   /* M9 */
    TRY(OK, "00000000", hubcrackle_compute_ipi_mask(0, INT32_MAX, 15, four, 20, 4, 4, out, 4));           /* M10 */
    TRY(OK, "00000005", hubcrackle_compute_ipi_mask(1, 4, UINT32_MAX, four, 20, 4, 16, out, 11));
    TRY(OK, "00000004", hubcrackle_compute_ipi_mask(1, 4, 4, four, 20, 4, 16, out, 4));
    TRY(OK, "00000006", hubcrackle_compute_ipi_mask(0, INT32_MIN, UINT32_MAX, ends, 15, 3, 3, out, 4));
    TRY(OK, "00000002", hubcrackle_compute_ipi_mask(0, -1, UINT32_MAX, ends, 15, 3, 3, out, 4));
    TRY(OK, "0000ff7f", hubcrackle_compute_ipi_mask(7, 255, UINT32_MAX, many, 80, 16, 16, out, 4));
    TRY(OK, "00000000", hubcrackle_compute_ipi_mask(7, 256, UINT32_MAX, many, 80, 16, 16, out, 4));
    TRY(EINVAL, "", hubcrackle_compute_ipi_mask(0, 5, 15, many, 85, 17, 17, out, 4));
    TRY(EINVAL, "", hubcrackle_compute_ipi_mask(0, 5, 15, four, 20, 4, 17, out, 4));
    TRY(EINVAL, "", hubcrackle_compute_ipi_mask(0, 5, 15, four, 20, 4, 3, out, 4));
    TRY(EINVAL, "", hubcrackle_compute_ipi_mask(4, 5, 15, four, 20, 4, 4, out, 4));
    TRY(EINVAL, "", hubcrackle_compute_ipi_mask(0, 5, 15, four, 19, 4, 4, out, 4));
    TRY(EINVAL, "", hubcrackle_compute_ipi_mask(0, 5, 15, four, 21, 4, 4, out, 4));
    TRY(EINVAL, "", hubcrackle_compute_ipi_mask(0, 5, 15, four, 0, 4, 4, out, 4));
    TRY(EINVAL, "", hubcrackle_compute_ipi_mask(0, 5, 15, four, 0, 0, 4, out, 4));
    TRY(EINVAL, "", hubcrackle_compute_ipi_mask(0, 5, 15, two_active, 10, 2, 4, out, 4));
    /* Five times these is 4 and 0 below 2 to the power 32. */
    TRY(EINVAL, "", hubcrackle_compute_ipi_mask(0, 5, 15, four, 4, 0x33333334u, UINT32_MAX, out, 4));
    TRY(EINVAL, "", hubcrackle_compute_ipi_mask(0, 5, 15, four, 0, UINT32_MAX, UINT32_MAX, out, 4));
    TRY(EINVAL, "", hubcrackle_compute_ipi_mask(0, 5, 15, two_active, 10, 2, 4, out, 0));
    TRY(ENOMEM, "", hubcrackle_compute_ipi_mask(0, 5, 15, four, 20, 4, 4, out, 3));

    TRY(OK, "01", hubcrackle_validate_ipi_mask(2, 0, 4, out, 1));
    TRY(OK, "01", hubcrackle_validate_ipi_mask(0, 3, 4, out, 1));
    TRY(OK, "00", hubcrackle_validate_ipi_mask(3, 0, 4, out, 1));
    TRY(OK, "00", hubcrackle_validate_ipi_mask(16, 0, 4, out, 8));
    TRY(OK, "01", hubcrackle_validate_ipi_mask(0xff7fu, 7, 16, out, 1));
    TRY(OK, "00", hubcrackle_validate_ipi_mask(0x10000u, 7, 16, out, 1));
    TRY(EINVAL, "", hubcrackle_validate_ipi_mask(2, 4, 4, out, 1));
    TRY(EINVAL, "", hubcrackle_validate_ipi_mask(2, 0, 17, out, 1));
    TRY(EINVAL, "", hubcrackle_validate_ipi_mask(2, 0, 0, out, 0));
    TRY(ENOMEM, "", hubcrackle_validate_ipi_mask(2, 0, 4, out, 0));
}

/* A record of a log: its first four bytes, and A. Its other bytes are zero. */
typedef uint8_t head[5];

/* Writes a log of such records. Says how long it is. */
static size_t spread(uint8_t *log, const head *heads, int count)
{
    int at, byte;

    for (at = 0; at < count; at++)
        for (byte = 0; byte < HUBCRACKLE_RECORD_BYTES; byte++)
            log[at * HUBCRACKLE_RECORD_BYTES + byte] = byte < 4 ? heads[at][byte] : byte == 7 ? heads[at][4] : 0;
    return (size_t)count * HUBCRACKLE_RECORD_BYTES;
}

/* "One log entire" of document 01; the fourth record is an acquire with A = 1, as document 02 has it. */
static const head worked[] = { { 0x00 }, { 0x20, 3 }, { 0x40, 0, 7 }, { 0x40, 0, 7, 0, 1 }, { 0x30, 3 }, { 0xb0, 0, 7 }, { 0x60, 0, 7 } };
static const char worked_answers[] = "0000000000000000"
                                     "0000000000000000"
                                     "0000000000000001"
                                     "0000000000000002"
                                     "fffffff000000000"
                                     "0000000000000010"
                                     "0000000000000001";

static void logs(void)
{
    /* Take from an idle CPU, and up twice: refused records have answers too. */
    static const uint8_t refusals[36] = { 0x30, 3, 0, 0, 0, 0, 0, 0, 0, 0, 0, 0, 0x00 };
    uint8_t log[7 * HUBCRACKLE_RECORD_BYTES];

    spread(log, worked, 7);
    TRY(OK, worked_answers, hubcrackle_run(0x20, log, sizeof log, out, 56)); /* M11 */
    TRY(OK, "0000000000000000", hubcrackle_run(0x20, log, 12, out, ROOM));
    TRY(OK, "ffffffff000000000000000000000000ffffff8e00000000", hubcrackle_run(0x48, refusals, 36, out, 24));
    TRY(OK, "", hubcrackle_run(0x10, log, 0, out, 0));
    TRY(EINVAL, "", hubcrackle_run(0x00, log, 12, out, 8));
    TRY(EINVAL, "", hubcrackle_run(0x50, log, 12, out, 8));
    TRY(EINVAL, "", hubcrackle_run(0x21, log, 12, out, 8));
    TRY(EINVAL, "", hubcrackle_run(0x00, zeros, HUBCRACKLE_LOG_MAX + 1, out, 0));
    TRY(EOVERFLOW, "", hubcrackle_run(0x20, zeros, HUBCRACKLE_LOG_MAX + 1, out, ROOM));
    TRY(EOVERFLOW, "", hubcrackle_run(0x20, zeros, HUBCRACKLE_LOG_MAX + 12, out, 0));
    TRY(EINVAL, "", hubcrackle_run(0x20, log, 13, out, 56));
    TRY(EINVAL, "", hubcrackle_run(0x20, log, 11, out, 0));
    TRY(ENOMEM, "", hubcrackle_run(0x20, log, sizeof log, out, 55));
    TRY(ENOMEM, "", hubcrackle_run(0x20, zeros, HUBCRACKLE_LOG_MAX, out, ROOM - 1));
}

/* One operation acquires, plain or nested by A. */
static void acquires(void)
{
    /* Plain, nested, and plain again, which is EDEADLK for the CPU that holds the lock; then the forms that are refused: A of 2, the former number
     * of a nested acquire without and with A, and a nested acquire with B; a release shows that the lock is still two deep. */
    static const head heads[] = { { 0x00 }, { 0x20, 3 }, { 0x40, 0, 7 }, { 0x40, 0, 7, 0, 1 }, { 0x40, 0, 7 }, { 0x40, 0, 7, 0, 2 },
                                  { 0x50, 0, 7 }, { 0x50, 0, 7, 0, 1 }, { 0x40, 0, 7, 0, 1 }, { 0x60, 0, 7 } };
    uint8_t log[10 * HUBCRACKLE_RECORD_BYTES];

    spread(log, heads, 10);
    log[8 * HUBCRACKLE_RECORD_BYTES + 11] = 1; /* B */
    TRY(OK,
        "0000000000000000"
        "0000000000000000"
        "0000000000000001"
        "0000000000000002"
        "ffffffd300000002"
        "ffffffea00000000"
        "ffffffea00000000"
        "ffffffea00000000"
        "ffffffea00000000"
        "0000000000000001",
        hubcrackle_run(0x20, log, sizeof log, out, 80));
}

/* The code of an answer that stands in the room. */
static int32_t code_at(int record)
{
    const uint8_t *at = out + record * HUBCRACKLE_ANSWER_BYTES;

    return (int32_t)((uint32_t)at[0] << 24 | (uint32_t)at[1] << 16 | (uint32_t)at[2] << 8 | at[3]);
}

/* A plain acquire of a held lock: the CPU that holds it would wait for itself, every other for that one. */
static void deadlocks(void)
{
    /* Lock 7 is CPU 0's. CPU 4 asks for it without a thread and with one, and CPU 0 at depths 1 and 2: plain, nested, plain. */
    static const head heads[] = { { 0x00 }, { 0x20, 3 }, { 0x40, 0, 7 }, { 0x04 }, { 0x44, 0, 7 }, { 0x24, 5 }, { 0x44, 0, 7 }, { 0x40, 0, 7 },
                                  { 0x40, 0, 7, 0, 1 }, { 0x40, 0, 7 } };
    uint8_t log[10 * HUBCRACKLE_RECORD_BYTES];

    spread(log, heads, 10);
    TRY(OK,
        "0000000000000000"
        "0000000000000000"
        "0000000000000001"
        "0000000000000000"
        "ffffffea00000001"
        "0000000000000000"
        "fffffff000000001"
        "ffffffd300000001"
        "0000000000000002"
        "ffffffd300000002",
        hubcrackle_run(0x04, log, sizeof log, out, 80));
    if (code_at(4) != EINVAL || code_at(6) != EBUSY || code_at(7) != EDEADLK || code_at(9) != EDEADLK) {
        printf("calls.c:%d: WRONG: the names of the codes\n", __LINE__);
        wrong++;
    }
}

/* Locks that are given back by one record, because their job was stopped. */
static void unwinds(void)
{
    /* Thread 3 holds lock 7 three deep and cannot be taken. It is unwound and taken, and thread 4 acquires the same lock. */
    static const head stopped[] = { { 0x00 }, { 0x20, 3 }, { 0x40, 0, 7 }, { 0x40, 0, 7, 0, 1 }, { 0x40, 0, 7, 0, 1 },
                                    { 0x30, 3 }, { 0xc0, 3 }, { 0x30, 3 }, { 0x20, 4 }, { 0x40, 0, 7 } };
    /* CPU 0 holds the first lock and the last, CPU 1 one between. The unwind of one CPU leaves the other's locks. */
    static const head two_cpus[] = { { 0x00 }, { 0x01 }, { 0x20, 3 }, { 0x21, 4 }, { 0x40 }, { 0x40, 0, 127 }, { 0x41, 0, 64 },
                                     { 0xc0, 3 }, { 0xb0 }, { 0xb0, 0, 127 }, { 0xb0, 0, 64 }, { 0xc1, 4 }, { 0xb0, 0, 64 }, { 0xc1, 4 } };
    /* Nobody on the CPU; with lock 7 held, another thread, and the thread on another CPU; then a form that is wrong in one field each, the number
     * after unwind, and a release, which shows that the lock is still held. */
    static const head refused[] = { { 0x00 }, { 0xc0 }, { 0x20, 3 }, { 0x40, 0, 7 }, { 0xc0, 4 }, { 0xc1, 3 }, { 0xc2, 3 }, { 0xc0, 32 },
                                    { 0xc0, 3, 7 }, { 0xc0, 3, 0, 1 }, { 0xc0, 3, 0, 0, 1 }, { 0xc0, 3 }, { 0xd0, 3 }, { 0x60, 0, 7 } };
    uint8_t log[14 * HUBCRACKLE_RECORD_BYTES];
    size_t log_len;

    log_len = spread(log, stopped, 10);
    TRY(OK,
        "0000000000000000"
        "0000000000000000"
        "0000000000000001"
        "0000000000000002"
        "0000000000000003"
        "fffffff000000000"
        "0000000000000003"
        "0000000000000000"
        "0000000000000000"
        "0000000000000001",
        hubcrackle_run(0x20, log, log_len, out, 80));

    log_len = spread(log, two_cpus, 14);
    TRY(OK,
        "0000000000000000"
        "0000000000000000"
        "0000000000000000"
        "0000000000000000"
        "0000000000000001"
        "0000000000000001"
        "0000000000000001"
        "0000000000000002"
        "0000000000000000"
        "0000000000000000"
        "0000000000000015"
        "0000000000000001"
        "0000000000000000"
        "0000000000000000",
        hubcrackle_run(0x20, log, log_len, out, ROOM));

    log_len = spread(log, refused, 14);
    log[11 * HUBCRACKLE_RECORD_BYTES + 11] = 1; /* B */
    TRY(OK,
        "0000000000000000"
        "ffffffff00000000"
        "0000000000000000"
        "0000000000000001"
        "ffffffff00000000"
        "ffffffff00000000"
        "ffffffea00000000"
        "ffffffea00000000"
        "ffffffea00000000"
        "ffffffea00000000"
        "ffffffea00000000"
        "ffffffea00000000"
        "ffffffea00000000"
        "0000000000000000",
        hubcrackle_run(0x20, log, log_len, out, 112));
}

/* Setup bytes: 16 times the number of CPUs, 1 to 4, and 8 for pin-only; with 4 more, for wide tags, 1 to 16 CPUs, where 16 is written as 0. */
static void setups(void)
{
    TRY(OK, "", hubcrackle_run(0x04, zeros, 0, out, 0));
    TRY(OK, "", hubcrackle_run(0x14, zeros, 0, out, 0));
    TRY(OK, "", hubcrackle_run(0x44, zeros, 0, out, 0));
    TRY(OK, "", hubcrackle_run(0x54, zeros, 0, out, 0));
    TRY(OK, "", hubcrackle_run(0xf4, zeros, 0, out, 0));
    TRY(OK, "", hubcrackle_run(0x0c, zeros, 0, out, 0));
    TRY(OK, "", hubcrackle_run(0x48, zeros, 0, out, 0));
    TRY(EINVAL, "", hubcrackle_run(0x00, zeros, 0, out, 0));
    TRY(EINVAL, "", hubcrackle_run(0x08, zeros, 0, out, 0));
    TRY(EINVAL, "", hubcrackle_run(0x50, zeros, 0, out, 0));
    TRY(EINVAL, "", hubcrackle_run(0xf0, zeros, 0, out, 0));
    TRY(EINVAL, "", hubcrackle_run(0x41, zeros, 0, out, 0));
    TRY(EINVAL, "", hubcrackle_run(0x42, zeros, 0, out, 0));
    TRY(EINVAL, "", hubcrackle_run(0x05, zeros, 0, out, 0));
    TRY(EINVAL, "", hubcrackle_run(0x06, zeros, 0, out, 0));
}

/* Logs on a machine with wide tags: thread t has thread word 16 (t + 1). */
static void wide_logs(void)
{
    /* CPU 15 of sixteen: thread 3 acquires lock 7 there, whose word is then 16 * 4 + 15, and cannot be taken before it is unwound. */
    static const head last_cpu[] = { { 0x0f }, { 0x2f, 3 }, { 0x4f, 0, 7 }, { 0xb0, 0, 7 }, { 0x3f, 3 }, { 0xcf, 3 }, { 0x3f, 3 } };
    /* CPUs 0, 4 and 12, which a tag of two bits does not tell apart, hold a lock each. The unwind of one leaves the others' locks. The last
     * asks for a pin to CPU 15. */
    static const head apart[] = { { 0x00 }, { 0x04 }, { 0x0c }, { 0x20 }, { 0x24, 1 }, { 0x2c, 2 }, { 0x40 }, { 0x44, 0, 1 }, { 0x4c, 0, 2 },
                                  { 0xc4, 1 }, { 0xb0 }, { 0xb0, 0, 1 }, { 0xb0, 0, 2 }, { 0x8f, 5 } };
    uint8_t log[14 * HUBCRACKLE_RECORD_BYTES];
    size_t log_len;

    log_len = spread(log, last_cpu, 7);
    TRY(OK,
        "0000000000000000"
        "0000000000000000"
        "0000000000000001"
        "000000000000004f"
        "fffffff000000000"
        "0000000000000001"
        "0000000000000000",
        hubcrackle_run(0x04, log, log_len, out, 56));
    /* With fifteen CPUs there is no CPU 15, nor with four. */
    TRY(OK, "ffffffea00000000", hubcrackle_run(0xf4, log, 12, out, 8));
    TRY(OK, "ffffffea00000000", hubcrackle_run(0x40, log, 12, out, 8));

    log_len = spread(log, apart, 14);
    TRY(OK,
        "0000000000000000"
        "0000000000000000"
        "0000000000000000"
        "0000000000000000"
        "0000000000000000"
        "0000000000000000"
        "0000000000000001"
        "0000000000000001"
        "0000000000000001"
        "0000000000000001"
        "0000000000000010"
        "0000000000000000"
        "000000000000003c"
        "0000000000008000",
        hubcrackle_run(0x04, log, log_len, out, 112));
}

/* Under pin-only a mask has one bit, and the bit is a CPU's of the machine. */
static void pins(void)
{
    /* Thread 5 is moved by its mask from CPU 0 to CPU 9, to CPU 4 and to CPU 3: under pin-only four CPUs have the last alone, and it is put
     * there. */
    static const uint8_t log[] = { 0x70, 5, 0, 0, 0, 0, 0x02, 0x00, 0, 0, 0, 1, /**/ 0x70, 5, 0, 0, 0, 0, 0, 0x10, 0, 0, 0, 1, /**/
                                   0x70, 5, 0, 0, 0, 0, 0, 0x08, 0, 0, 0, 1, /**/ 0x03, 0, 0, 0, 0, 0, 0, 0, 0, 0, 0, 0, /**/
                                   0x23, 5, 0, 0, 0, 0, 0, 0, 0, 0, 0, 0 };
    /* Bits 15 and 16 in turn. */
    static const uint8_t past[] = { 0x70, 0, 0, 0, 0, 0, 0x80, 0, 0, 0, 0, 1, /**/ 0x70, 0, 0, 0, 0, 1, 0, 0, 0, 0, 0x80, 0 };

    TRY(OK,
        "ffffffea00000001"
        "ffffffea00000001"
        "0000000000000008"
        "0000000000000000"
        "0000000000000000",
        hubcrackle_run(0x48, log, sizeof log, out, 40));
    /* A wide machine of ten CPUs has CPU 9. */
    TRY(OK, "0000000000000200", hubcrackle_run(0xac, log, 12, out, 8));
    TRY(OK, "ffffffea00000001", hubcrackle_run(0x9c, log, 12, out, 8));
    /* Without pin-only a mask may have any bits. */
    TRY(OK, "00000000fffffffe", hubcrackle_run(0x40, log, 12, out, 8));
    TRY(OK, "0000000000008000ffffffea00008000", hubcrackle_run(0x0c, past, sizeof past, out, 16));
    /* The single call has no n. */
    TRY(OK, "00000200", hubcrackle_cpu_mask_mod(1, 0x200, 1, 0, 1, out, 4));
}

/* The answers to 2048 records that are all "up" of CPU 0: where it was down the first is accepted, and every other is EALREADY. */
static const char *ups(int was_down)
{
    static char answers[2 * ROOM + 1];
    static const char first[] = "0000000000000000", other[] = "ffffff8e00000000";
    int at;

    for (at = 0; at < 2 * ROOM; at++)
        answers[at] = at < 16 && was_down ? first[at] : other[at % 16];
    return answers;
}

static void longest_log(void)
{
    TRY(OK, ups(1), hubcrackle_run(0x20, zeros, HUBCRACKLE_LOG_MAX, out, ROOM));
}

/* Forms in lent room, each with bytes on both sides that no call may touch, and what all these were before a call. */
enum { FORM = HUBCRACKLE_FORM_BYTES, FORMS = 3, FORM_ALL = BEFORE + FORM + AFTER };
static uint8_t lent[FORMS][FORM_ALL], were[FORMS][FORM_ALL];
static uint8_t *const one = lent[0] + BEFORE, *const two = lent[1] + BEFORE, *const three = lent[2] + BEFORE;

/* In a form the eleven places for pending bytes, and how many are pending, stand at the end. */
enum { PENDING_AT = FORM - 12, PENDING = 11, COUNT_AT = FORM - 1 };

/* Where a feed says how many records it ran, and the checker which record differs, between two numbers that neither may touch; what all three are
 * before a call. */
static uint32_t said[3];
static uint32_t *const records = said + 1, *const record = said + 1;
#define UNSAID 0xa5c396f0u

static void keep(void)
{
    int which, at;

    for (which = 0; which < FORMS; which++)
        for (at = 0; at < FORM_ALL; at++)
            were[which][at] = lent[which][at];
    said[0] = said[1] = said[2] = UNSAID;
}

/* Says what is wrong besides a call's code and value. */
static void blame(int line, const char *what)
{
    printf("calls.c:%d: WRONG: %s\n", line, what);
    wrong++;
}

/* The number that a call says must be as it should, and every byte of every form as it was, but for those of the form that the call wrote. */
static void kept(int line, const char *call, const uint8_t *written, uint32_t count)
{
    int which, at, bad = said[0] != UNSAID || said[1] != count || said[2] != UNSAID;

    if (bad)
        printf("calls.c:%d: the number that is said is %x %x %x, and should be %x\n", line, said[0], said[1], said[2], count);
    for (which = 0; which < FORMS; which++)
        for (at = 0; at < FORM_ALL; at++) {
            if (lent[which] + BEFORE == written && at >= BEFORE && at < BEFORE + FORM)
                continue;
            if (lent[which][at] != were[which][at]) {
                printf("calls.c:%d: byte %d of form %d is %02x, and was %02x\n", line, at - BEFORE, which, lent[which][at], were[which][at]);
                bad = 1;
            }
        }
    if (bad)
        blame(line, call);
}

/* Tries a call as above, and looks at the forms: it writes one of them, and says how many records there were. */
#define FORM_TRY(want, value, written, count, call) (keep(), TRY(want, value, call), kept(__LINE__, #call, (written), (count)))

/* Tries a call that leaves everything as it was. */
#define STILL_TRY(want, call) FORM_TRY(want, "", NULL, UNSAID, call)

/* The pending bytes of a form must be these, with zeros behind them. */
static void pending(int line, const uint8_t *form, const uint8_t *left, int count)
{
    int at, bad = form[COUNT_AT] != count;

    for (at = 0; at < PENDING; at++)
        if (form[PENDING_AT + at] != (at < count ? left[at] : 0))
            bad = 1;
    if (bad)
        blame(line, "the pending bytes");
}

/* Two forms must be the same. */
static void same(int line, const uint8_t *left, const uint8_t *right)
{
    int at, bad = 0;

    for (at = 0; at < FORM; at++)
        if (left[at] != right[at])
            bad = 1;
    if (bad)
        blame(line, "the forms differ");
}

/* Starts a form in one of the lent rooms. What stood there is different each time. */
static void start(uint8_t *form, uint8_t setup)
{
    static int turn;
    int at;

    turn++;
    for (at = -BEFORE; at < FORM + AFTER; at++)
        form[at] = pattern(at + turn);
    FORM_TRY(OK, "", form, UNSAID, hubcrackle_start(setup, form, FORM));
    pending(__LINE__, form, NULL, 0);
}

static void copy(uint8_t *to, const uint8_t *from)
{
    int at;

    for (at = 0; at < FORM; at++)
        to[at] = from[at];
}

/* The answers to the records of a log from one up to another, of those to all. */
static const char *part(const char *answers, size_t from, size_t to)
{
    static char digits[2 * ROOM + 1];
    size_t at;

    for (at = 0; at < (to - from) * 16; at++)
        digits[at] = answers[from * 16 + at];
    digits[at] = 0;
    return digits;
}

/* Feeds a form the bytes of a log from one place up to another, with no more room than their answers need. */
static void feed(uint8_t *form, const uint8_t *log, size_t from, size_t to, const char *answers)
{
    const size_t first = from / HUBCRACKLE_RECORD_BYTES, last = to / HUBCRACKLE_RECORD_BYTES, count = last - first;
    const int before = wrong;

    FORM_TRY(OK, part(answers, first, last), form, (uint32_t)count,
             hubcrackle_feed(form, FORM, log + from, to - from, out, count * HUBCRACKLE_ANSWER_BYTES, records));
    pending(__LINE__, form, log + last * HUBCRACKLE_RECORD_BYTES, (int)(to % HUBCRACKLE_RECORD_BYTES));
    if (wrong != before)
        printf("calls.c: that was for bytes %d up to %d of a log\n", (int)from, (int)to);
}

/* A form as hexadecimal digits. */
static const char *digits_of(const uint8_t *form)
{
    static const char hex[] = "0123456789abcdef";
    static char digits[2 * FORM + 1];
    int at;

    for (at = 0; at < FORM; at++) {
        digits[2 * at] = hex[form[at] / 16];
        digits[2 * at + 1] = hex[form[at] % 16];
    }
    return digits;
}

/* Here the form is the value, and stands in the room. */
static void starts(void)
{
    start(one, 0x20);
    TRY(OK, digits_of(one), hubcrackle_start(0x20, out, FORM));
    TRY(OK, digits_of(one), hubcrackle_start(0x20, out, ROOM));
    TRY(ENOMEM, "", hubcrackle_start(0x20, out, FORM - 1));
    TRY(ENOMEM, "", hubcrackle_start(0x20, out, 1));
    TRY(ENOMEM, "", hubcrackle_start(0x20, out, 0));
    TRY(EINVAL, "", hubcrackle_start(0x21, out, FORM));
    TRY(EINVAL, "", hubcrackle_start(0x21, out, FORM - 1));
    TRY(EINVAL, "", hubcrackle_start(0x00, out, 0));
    start(one, 0x0c);
    TRY(OK, digits_of(one), hubcrackle_start(0x0c, out, FORM));
    TRY(ENOMEM, "", hubcrackle_start(0x0c, out, FORM - 1));
    /* A form that was in use is started anew. */
    feed(one, zeros, 0, 17, ups(1));
    FORM_TRY(OK, "", one, UNSAID, hubcrackle_start(0x20, one, FORM + AFTER));
    start(two, 0x20);
    same(__LINE__, one, two);
}

/* All setup bytes: a good one makes the machine that it makes in a run. */
static void every_setup(void)
{
    /* Up of the CPUs 0, 4 and 15; thread 3 on CPU 0, lock 7, and its owner word; thread 5's mask, and with bit 4 on and bit 0 off. */
    static const head heads[] = { { 0x00 }, { 0x04 }, { 0x0f }, { 0x20, 3 }, { 0x40, 0, 7 }, { 0xb0, 0, 7 }, { 0x70, 5 }, { 0x70, 5, 0, 0, 16 } };
    uint8_t log[8 * HUBCRACKLE_RECORD_BYTES], answers[8 * HUBCRACKLE_ANSWER_BYTES];
    int setup, at, bad;

    spread(log, heads, 8);
    log[7 * HUBCRACKLE_RECORD_BYTES + 11] = 1; /* B */
    for (setup = 0; setup < 256; setup++) {
        const int wide = setup & 4, narrow_cpus = setup >= 0x10 && setup < 0x50;

        if (setup % 4 || (!wide && !narrow_cpus)) {
            TRY(EINVAL, "", hubcrackle_start((uint8_t)setup, out, FORM));
            TRY(EINVAL, "", hubcrackle_start((uint8_t)setup, out, 0));
            continue;
        }
        start(one, (uint8_t)setup);
        TRY(OK, digits_of(one), hubcrackle_start((uint8_t)setup, out, FORM));
        bad = hubcrackle_run((uint8_t)setup, log, sizeof log, answers, sizeof answers) != OK;
        bad |= hubcrackle_feed(one, FORM, log, sizeof log, out, sizeof answers, records) != OK || *records != 8;
        for (at = 0; at < (int)sizeof answers; at++)
            bad |= out[at] != answers[at];
        if (bad)
            blame(__LINE__, "a form's answers are not those of a run");
        calls += 2;
    }
}

/* The worked log in one piece, and cut in two at every place: the same answers, and the same form at the end. */
static void cuts(void)
{
    uint8_t log[7 * HUBCRACKLE_RECORD_BYTES];
    size_t cut;

    spread(log, worked, 7);
    start(two, 0x20);
    feed(two, log, 0, sizeof log, worked_answers);
    for (cut = 0; cut <= sizeof log; cut++) {
        start(one, 0x20);
        feed(one, log, 0, cut, worked_answers);
        feed(one, log, cut, sizeof log, worked_answers);
        same(__LINE__, one, two);
    }
}

/* The worked log byte by byte with nothing between the bytes, and in fragments of every length up to three records. */
static void short_fragments(void)
{
    uint8_t log[7 * HUBCRACKLE_RECORD_BYTES];
    size_t at, length;

    spread(log, worked, 7);
    start(two, 0x20);
    feed(two, log, 0, sizeof log, worked_answers);
    start(one, 0x20);
    for (at = 0; at < sizeof log; at++) {
        feed(one, log, at, at + 1, worked_answers);
        copy(three, one);
        feed(one, log, at + 1, at + 1, worked_answers);
        same(__LINE__, one, three);
    }
    same(__LINE__, one, two);
    for (length = 2; length <= 36; length++) {
        start(one, 0x20);
        for (at = 0; at < sizeof log; at += length)
            feed(one, log, at, at + length < sizeof log ? at + length : sizeof log, worked_answers);
        same(__LINE__, one, two);
    }
}

/* The longest fragment, with nothing pending and with eleven bytes: 2048 records each time. */
static void longest_fragments(void)
{
    start(one, 0x20);
    FORM_TRY(OK, ups(1), one, 2048, hubcrackle_feed(one, FORM, zeros, HUBCRACKLE_LOG_MAX, out, ROOM, records));
    pending(__LINE__, one, NULL, 0);
    FORM_TRY(OK, ups(0), one, 2048, hubcrackle_feed(one, FORM, zeros, HUBCRACKLE_LOG_MAX, out, ROOM, records));
    start(one, 0x20);
    FORM_TRY(OK, "", one, 0, hubcrackle_feed(one, FORM, zeros, 11, out, 0, records));
    STILL_TRY(ENOMEM, hubcrackle_feed(one, FORM, zeros, HUBCRACKLE_LOG_MAX, out, ROOM - 1, records));
    FORM_TRY(OK, ups(1), one, 2048, hubcrackle_feed(one, FORM, zeros, HUBCRACKLE_LOG_MAX, out, ROOM, records));
    pending(__LINE__, one, zeros, 11);
    FORM_TRY(OK, ups(0), one, 2048, hubcrackle_feed(one, FORM, zeros, HUBCRACKLE_LOG_MAX, out, ROOM, records));
    pending(__LINE__, one, zeros, 11);
    FORM_TRY(OK, "ffffff8e00000000", one, 1, hubcrackle_feed(one, FORM, zeros, 1, out, 8, records));
    STILL_TRY(OK, hubcrackle_finish(one, FORM));
}

/* A log of 10,002 records: thread 3 on CPU 0 takes each lock in turn, nested, and gives it back twice. */
static void long_log(void)
{
    enum { LONG = 10002 };
    static const head up = { 0x00 }, put = { 0x20, 3 };
    static const char depths[] = "1210";
    static uint8_t log[LONG * HUBCRACKLE_RECORD_BYTES];
    static char answers[LONG * 16 + 1];
    size_t at, end;

    for (at = 0; at < LONG * 16; at++)
        answers[at] = at >= 32 && at % 16 == 15 ? depths[(at / 16 - 2) % 4] : '0';
    spread(log, &up, 1);
    spread(log + HUBCRACKLE_RECORD_BYTES, &put, 1);
    for (at = 2; at < LONG; at++) {
        const size_t turn = (at - 2) % 4;
        const head next = { (uint8_t)(turn < 2 ? 0x40 : 0x60), 0, (uint8_t)((at - 2) / 4 % 128), 0, (uint8_t)(turn == 1) };

        spread(log + at * HUBCRACKLE_RECORD_BYTES, &next, 1);
    }
    start(one, 0x20);
    for (at = 0; at < sizeof log; at = end) {
        end = at + 1000 < sizeof log ? at + 1000 : sizeof log;
        feed(one, log, at, end, answers);
    }
    STILL_TRY(OK, hubcrackle_finish(one, FORM));
    /* Every lock was given back, and thread 3 is still there: so it is after the first two records. */
    start(two, 0x20);
    feed(two, log, 0, 24, answers);
    same(__LINE__, one, two);
}

/* Too little room. The fragment is then taken with more, or in smaller parts. */
static void short_rooms(void)
{
    uint8_t log[7 * HUBCRACKLE_RECORD_BYTES];

    spread(log, worked, 7);
    start(one, 0x20);
    STILL_TRY(ENOMEM, hubcrackle_feed(one, FORM, log, sizeof log, out, 55, records));
    STILL_TRY(ENOMEM, hubcrackle_feed(one, FORM, log, sizeof log, out, 0, records));
    STILL_TRY(ENOMEM, hubcrackle_feed(one, FORM, log, 12, out, 7, records));
    feed(one, log, 0, 11, worked_answers);
    /* One byte completes a record. */
    STILL_TRY(ENOMEM, hubcrackle_feed(one, FORM, log + 11, 1, out, 7, records));
    STILL_TRY(ENOMEM, hubcrackle_feed(one, FORM, log + 11, 1, out, 0, records));
    FORM_TRY(OK, "0000000000000000", one, 1, hubcrackle_feed(one, FORM, log + 11, 1, out, 8, records));
    feed(one, log, 12, 17, worked_answers);
    /* These complete three, and those of the smaller parts one and two. */
    STILL_TRY(ENOMEM, hubcrackle_feed(one, FORM, log + 17, 31, out, 23, records));
    feed(one, log, 17, 30, worked_answers);
    STILL_TRY(ENOMEM, hubcrackle_feed(one, FORM, log + 30, 18, out, 15, records));
    feed(one, log, 30, 48, worked_answers);
    /* More room than is needed. */
    FORM_TRY(OK, part(worked_answers, 4, 7), one, 3, hubcrackle_feed(one, FORM + AFTER, log + 48, 36, out, ROOM, records));
    FORM_TRY(OK, "", one, 0, hubcrackle_feed(one, FORM, log, 7, out, ROOM, records));
    pending(__LINE__, one, log, 7);
}

/* Fragments that are too long: that is said before ENOMEM. */
static void overflows(void)
{
    start(one, 0x20);
    STILL_TRY(EOVERFLOW, hubcrackle_feed(one, FORM, zeros, HUBCRACKLE_LOG_MAX + 1, out, ROOM, records));
    STILL_TRY(EOVERFLOW, hubcrackle_feed(one, FORM, zeros, HUBCRACKLE_LOG_MAX + 12, out, ROOM, records));
    STILL_TRY(EOVERFLOW, hubcrackle_feed(one, FORM, zeros, HUBCRACKLE_LOG_MAX + 1, out, ROOM - 1, records));
    STILL_TRY(EOVERFLOW, hubcrackle_feed(one, FORM, zeros, HUBCRACKLE_LOG_MAX + 1, out, 0, records));
    STILL_TRY(ENOMEM, hubcrackle_feed(one, FORM, zeros, HUBCRACKLE_LOG_MAX, out, ROOM - 1, records));
    FORM_TRY(OK, "", one, 0, hubcrackle_feed(one, FORM, zeros, 5, out, ROOM, records));
    STILL_TRY(EOVERFLOW, hubcrackle_feed(one, FORM, zeros, HUBCRACKLE_LOG_MAX + 1, out, ROOM, records));
    STILL_TRY(EOVERFLOW, hubcrackle_feed(one, FORM, zeros, HUBCRACKLE_LOG_MAX + 12, out, 0, records));
    STILL_TRY(ENOMEM, hubcrackle_feed(one, FORM, zeros, HUBCRACKLE_LOG_MAX, out, 0, records));
    FORM_TRY(OK, ups(1), one, 2048, hubcrackle_feed(one, FORM, zeros, HUBCRACKLE_LOG_MAX, out, ROOM, records));
}

/* No form: every call says EINVAL, and feed says it before EOVERFLOW and ENOMEM. */
static void no_form(const uint8_t *left, size_t form_len)
{
    copy(one, left);
    STILL_TRY(EINVAL, hubcrackle_feed(one, form_len, zeros, 0, out, 0, records));
    STILL_TRY(EINVAL, hubcrackle_feed(one, form_len, zeros, 12, out, 8, records));
    STILL_TRY(EINVAL, hubcrackle_feed(one, form_len, zeros, 12, out, 0, records));
    STILL_TRY(EINVAL, hubcrackle_feed(one, form_len, zeros, HUBCRACKLE_LOG_MAX, out, ROOM, records));
    STILL_TRY(EINVAL, hubcrackle_feed(one, form_len, zeros, HUBCRACKLE_LOG_MAX + 1, out, ROOM, records));
    STILL_TRY(EINVAL, hubcrackle_feed(one, form_len, zeros, HUBCRACKLE_LOG_MAX + 1, out, 0, records));
    STILL_TRY(EINVAL, hubcrackle_finish(one, form_len));
}

static void short_forms(void)
{
    start(one, 0x20);
    start(two, 0x20);
    no_form(two, FORM - 1);
    no_form(two, FORM - 12);
    no_form(two, 1);
    no_form(two, 0);
    FORM_TRY(OK, "0000000000000000", one, 1, hubcrackle_feed(one, FORM, zeros, 12, out, 8, records));
    STILL_TRY(OK, hubcrackle_finish(one, FORM + AFTER));
}

/* A good form of which one byte is another. */
static void spoilt(uint8_t setup, int at, uint8_t byte)
{
    const int before = wrong;

    start(one, setup);
    start(two, setup);
    FORM_TRY(OK, "", two, 0, hubcrackle_feed(two, FORM, zeros, 7, out, 0, records));
    two[at] = byte;
    no_form(two, FORM);
    no_form(two, FORM + AFTER);
    if (wrong != before)
        printf("calls.c: that was for byte %d as %02x\n", at, byte);
}

static void spoilt_forms(void)
{
    int at;

    /* How many bytes are pending. */
    spoilt(0x20, COUNT_AT, 12);
    spoilt(0x20, COUNT_AT, 13);
    spoilt(0x20, COUNT_AT, 128);
    spoilt(0x20, COUNT_AT, 255);
    /* The number of CPUs, in bytes 0 to 3: none, five without and seventeen with wide tags, and 2 to the power 24 and more. */
    spoilt(0x20, 3, 0);
    spoilt(0x20, 3, 5);
    spoilt(0x04, 3, 17);
    spoilt(0x20, 0, 1);
    /* The end of the last lock's owner word, where nobody holds it. */
    spoilt(0x20, PENDING_AT - 1, 4);
    /* Bytes that no call has written: none of the CPUs, and too many. */
    for (at = 0; at < FORM; at++)
        two[at] = 0;
    no_form(two, FORM);
    for (at = 0; at < FORM; at++)
        two[at] = 0xff;
    no_form(two, FORM);
}

/* What stands behind the pending bytes is not asked, and is zero when a feed was accepted, also of no bytes. */
static void zeros_behind(void)
{
    uint8_t log[7 * HUBCRACKLE_RECORD_BYTES];
    int at, count;

    spread(log, worked, 7);
    for (count = 0; count <= PENDING; count++) {
        start(one, 0x20);
        feed(one, log, 0, 24, worked_answers);
        feed(one, log, 24, 24 + (size_t)count, worked_answers);
        copy(two, one);
        for (at = count; at < PENDING; at++)
            one[PENDING_AT + at] = 0xee;
        STILL_TRY(count == 0 ? OK : EINVAL, hubcrackle_finish(one, FORM));
        STILL_TRY(EOVERFLOW, hubcrackle_feed(one, FORM, zeros, HUBCRACKLE_LOG_MAX + 1, out, 0, records));
        copy(three, one);
        FORM_TRY(OK, "", one, 0, hubcrackle_feed(one, FORM, zeros, 0, out, 0, records));
        same(__LINE__, one, two);
        feed(three, log, 24 + (size_t)count, sizeof log, worked_answers);
    }
}

/* The end of a log: between records, and inside one, after which feeding goes on. */
static void finishes(void)
{
    uint8_t log[7 * HUBCRACKLE_RECORD_BYTES];
    size_t at;

    spread(log, worked, 7);
    start(one, 0x20);
    STILL_TRY(OK, hubcrackle_finish(one, FORM));
    for (at = 0; at < sizeof log; at++) {
        feed(one, log, at, at + 1, worked_answers);
        STILL_TRY((at + 1) % HUBCRACKLE_RECORD_BYTES == 0 ? OK : EINVAL, hubcrackle_finish(one, FORM));
    }
    STILL_TRY(OK, hubcrackle_finish(one, FORM + AFTER));
    STILL_TRY(EINVAL, hubcrackle_finish(one, FORM - 1));
    start(two, 0x20);
    feed(two, log, 0, sizeof log - 5, worked_answers);
    STILL_TRY(EINVAL, hubcrackle_finish(two, FORM));
    STILL_TRY(EINVAL, hubcrackle_finish(two, FORM));
    feed(two, log, sizeof log - 5, sizeof log, worked_answers);
    STILL_TRY(OK, hubcrackle_finish(two, FORM));
    STILL_TRY(OK, hubcrackle_finish(one, FORM));
    same(__LINE__, one, two);
}

/* A narrow machine and a wide one are fed in turn. */
static void two_forms(void)
{
    /* As in wide_logs. */
    static const head last_cpu[] = { { 0x0f }, { 0x2f, 3 }, { 0x4f, 0, 7 }, { 0xb0, 0, 7 }, { 0x3f, 3 }, { 0xcf, 3 }, { 0x3f, 3 } };
    static const char answers[] = "0000000000000000"
                                  "0000000000000000"
                                  "0000000000000001"
                                  "000000000000004f"
                                  "fffffff000000000"
                                  "0000000000000001"
                                  "0000000000000000";
    uint8_t narrow[7 * HUBCRACKLE_RECORD_BYTES], wide[7 * HUBCRACKLE_RECORD_BYTES];
    size_t at, left, right;

    spread(narrow, worked, 7);
    spread(wide, last_cpu, 7);
    start(one, 0x20);
    start(two, 0x04);
    /* Seven bytes to the one and five to the other, and at the end what is left. */
    for (at = 0; at < 12; at++) {
        left = at * 7;
        right = at * 5;
        feed(one, narrow, left, left + 7, worked_answers);
        feed(two, wide, right, at == 11 ? sizeof wide : right + 5, answers);
    }
    STILL_TRY(OK, hubcrackle_finish(one, FORM));
    STILL_TRY(OK, hubcrackle_finish(two, FORM));
}

/* A copy goes on by itself: the one is fed the rest of the log, one copy the same, and the other another rest. */
static void copies(void)
{
    uint8_t log[7 * HUBCRACKLE_RECORD_BYTES];

    spread(log, worked, 7);
    start(one, 0x20);
    start(two, 0x20);
    start(three, 0x20);
    feed(one, log, 0, 40, worked_answers);
    copy(two, one);
    copy(three, one);
    feed(one, log, 40, sizeof log, worked_answers);
    /* Pending is the beginning of an acquire, which is plain here, and the lock is this CPU's. */
    FORM_TRY(OK, "ffffffd300000001", two, 1, hubcrackle_feed(two, FORM, zeros, 8, out, 8, records));
    feed(three, log, 40, 59, worked_answers);
    /* A release: the lock is one deep in the copy, and two deep in the other before its last record. */
    FORM_TRY(OK, "0000000000000000", two, 1, hubcrackle_feed(two, FORM, log + 72, 12, out, 8, records));
    STILL_TRY(EINVAL, hubcrackle_finish(three, FORM));
    STILL_TRY(OK, hubcrackle_finish(one, FORM));
    STILL_TRY(OK, hubcrackle_finish(two, FORM));
    feed(three, log, 59, sizeof log, worked_answers);
    same(__LINE__, one, three);
}

/* A claim, with room for one answer too many, and the log that it is to, of this many records at most. */
enum { RECORDS = HUBCRACKLE_LOG_MAX / HUBCRACKLE_RECORD_BYTES };
static uint8_t claim[ROOM + HUBCRACKLE_ANSWER_BYTES];
static uint8_t claim_log[HUBCRACKLE_LOG_MAX];

/* Claims what a run of a log answers. Says how long the claim is. */
static size_t claim_of(uint8_t setup, const uint8_t *log, size_t log_len)
{
    const size_t claim_len = log_len / HUBCRACKLE_RECORD_BYTES * HUBCRACKLE_ANSWER_BYTES;

    calls++;
    if (hubcrackle_run(setup, log, log_len, claim, claim_len) != OK)
        blame(__LINE__, "a log has no right claim");
    return claim_len;
}

/* Tries a claim in which an answer differs: the lowest record of those. */
#define DIFFERS_TRY(lowest, call) FORM_TRY(DIFFERS, "", NULL, (lowest), call)

/* The worked log: the right claim to it, to its front of any length, and on the machine of another setup. */
static void right_claims(void)
{
    const size_t log_len = spread(claim_log, worked, 7);
    const size_t claim_len = claim_of(0x20, claim_log, log_len);
    size_t count;

    STILL_TRY(OK, hubcrackle_check(0x20, claim_log, log_len, claim, claim_len, record));
    for (count = 0; count < 7; count++)
        STILL_TRY(OK, hubcrackle_check(0x20, claim_log, count * HUBCRACKLE_RECORD_BYTES, claim, count * HUBCRACKLE_ANSWER_BYTES, record));
    STILL_TRY(OK, hubcrackle_check(0x04, claim_log, 0, claim, 0, record));
    /* Four CPUs answer as two do, and pin-only lets thread 3 on CPU 0; a wide machine has another owner word. */
    STILL_TRY(OK, hubcrackle_check(0x40, claim_log, log_len, claim, claim_len, record));
    STILL_TRY(OK, hubcrackle_check(0x28, claim_log, log_len, claim, claim_len, record));
    DIFFERS_TRY(5, hubcrackle_check(0x24, claim_log, log_len, claim, claim_len, record));
    claim_of(0x24, claim_log, log_len);
    STILL_TRY(OK, hubcrackle_check(0x24, claim_log, log_len, claim, claim_len, record));
    DIFFERS_TRY(5, hubcrackle_check(0x20, claim_log, log_len, claim, claim_len, record));
}

/* The worked log: every bit of its claim is another once; then two bytes are, of every two answers; then all are. */
static void wrong_claims(void)
{
    const size_t log_len = spread(claim_log, worked, 7);
    const size_t claim_len = claim_of(0x20, claim_log, log_len);
    size_t at, first, second;
    int bit;

    for (at = 0; at < claim_len; at++)
        for (bit = 1; bit < 256; bit *= 2) {
            claim[at] ^= (uint8_t)bit;
            DIFFERS_TRY((uint32_t)at / HUBCRACKLE_ANSWER_BYTES, hubcrackle_check(0x20, claim_log, log_len, claim, claim_len, record));
            claim[at] ^= (uint8_t)bit;
        }
    for (second = 1; second < 7; second++)
        for (first = 0; first < second; first++) {
            claim[second * HUBCRACKLE_ANSWER_BYTES] ^= 1;
            claim[first * HUBCRACKLE_ANSWER_BYTES + 7] ^= 1;
            DIFFERS_TRY((uint32_t)first, hubcrackle_check(0x20, claim_log, log_len, claim, claim_len, record));
            claim[second * HUBCRACKLE_ANSWER_BYTES] ^= 1;
            claim[first * HUBCRACKLE_ANSWER_BYTES + 7] ^= 1;
        }
    STILL_TRY(OK, hubcrackle_check(0x20, claim_log, log_len, claim, claim_len, record));
    for (at = 0; at < claim_len; at++)
        claim[at] ^= 0xff;
    DIFFERS_TRY(0, hubcrackle_check(0x20, claim_log, log_len, claim, claim_len, record));
}

/* Claims whose length is not 8 bytes a record, right at their front and wrong there. */
static void claim_lengths(void)
{
    const size_t log_len = spread(claim_log, worked, 7);
    const size_t claim_len = claim_of(0x20, claim_log, log_len);
    int turn;

    for (turn = 0; turn < 2; turn++) {
        STILL_TRY(EINVAL, hubcrackle_check(0x20, claim_log, log_len, claim, claim_len - 1, record));
        STILL_TRY(EINVAL, hubcrackle_check(0x20, claim_log, log_len, claim, claim_len + 1, record));
        STILL_TRY(EINVAL, hubcrackle_check(0x20, claim_log, log_len, claim, claim_len - HUBCRACKLE_ANSWER_BYTES, record));
        STILL_TRY(EINVAL, hubcrackle_check(0x20, claim_log, log_len, claim, claim_len + HUBCRACKLE_ANSWER_BYTES, record));
        STILL_TRY(EINVAL, hubcrackle_check(0x20, claim_log, log_len, claim, sizeof claim, record));
        STILL_TRY(EINVAL, hubcrackle_check(0x20, claim_log, log_len, claim, 0, record));
        STILL_TRY(EINVAL, hubcrackle_check(0x20, claim_log, 0, claim, 1, record));
        STILL_TRY(EINVAL, hubcrackle_check(0x20, claim_log, 0, claim, HUBCRACKLE_ANSWER_BYTES, record));
        claim[0] ^= 1;
    }
    STILL_TRY(EINVAL, hubcrackle_check(0x20, zeros, HUBCRACKLE_LOG_MAX, claim, ROOM - 1, record));
    STILL_TRY(EINVAL, hubcrackle_check(0x20, zeros, HUBCRACKLE_LOG_MAX, claim, ROOM + 1, record));
    STILL_TRY(EINVAL, hubcrackle_check(0x20, zeros, HUBCRACKLE_LOG_MAX, claim, ROOM - HUBCRACKLE_ANSWER_BYTES, record));
    STILL_TRY(EINVAL, hubcrackle_check(0x20, zeros, HUBCRACKLE_LOG_MAX, claim, ROOM + HUBCRACKLE_ANSWER_BYTES, record));
}

/* Setups and logs that hubcrackle_run refuses: the setup is judged before the log, and the log before the claim. */
static void refused_claims(void)
{
    const size_t log_len = spread(claim_log, worked, 7);
    const size_t claim_len = claim_of(0x20, claim_log, log_len);

    STILL_TRY(EINVAL, hubcrackle_check(0x00, claim_log, log_len, claim, claim_len, record));
    STILL_TRY(EINVAL, hubcrackle_check(0x50, claim_log, log_len, claim, claim_len, record));
    STILL_TRY(EINVAL, hubcrackle_check(0x21, claim_log, log_len, claim, claim_len, record));
    STILL_TRY(EINVAL, hubcrackle_check(0x22, claim_log, 0, claim, 0, record));
    STILL_TRY(EINVAL, hubcrackle_check(0x00, zeros, HUBCRACKLE_LOG_MAX + 1, claim, ROOM, record));
    STILL_TRY(EINVAL, hubcrackle_check(0x00, zeros, HUBCRACKLE_LOG_MAX + 12, claim, sizeof claim, record));
    STILL_TRY(EOVERFLOW, hubcrackle_check(0x20, zeros, HUBCRACKLE_LOG_MAX + 1, claim, ROOM, record));
    STILL_TRY(EOVERFLOW, hubcrackle_check(0x20, zeros, HUBCRACKLE_LOG_MAX + 12, claim, sizeof claim, record));
    STILL_TRY(EOVERFLOW, hubcrackle_check(0x20, zeros, HUBCRACKLE_LOG_MAX + 12, claim, 0, record));
    STILL_TRY(EOVERFLOW, hubcrackle_check(0x20, zeros, HUBCRACKLE_LOG_MAX + 12, claim, 1, record));
    STILL_TRY(EINVAL, hubcrackle_check(0x20, claim_log, log_len - 1, claim, claim_len, record));
    STILL_TRY(EINVAL, hubcrackle_check(0x20, claim_log, log_len - 1, claim, claim_len - HUBCRACKLE_ANSWER_BYTES, record));
    STILL_TRY(EINVAL, hubcrackle_check(0x20, claim_log, log_len + 1, claim, claim_len, record));
    STILL_TRY(EINVAL, hubcrackle_check(0x20, claim_log, 1, claim, 0, record));
    STILL_TRY(EINVAL, hubcrackle_check(0x20, claim_log, 11, claim, 0, record));
    STILL_TRY(EINVAL, hubcrackle_check(0x20, zeros, HUBCRACKLE_LOG_MAX - 1, claim, ROOM, record));
}

/* A number at a place, most significant byte first. */
static void put_number(uint8_t *at, uint32_t number)
{
    at[0] = (uint8_t)(number >> 24);
    at[1] = (uint8_t)(number >> 16);
    at[2] = (uint8_t)(number >> 8);
    at[3] = (uint8_t)number;
}

/* The longest log: thread 5's mask counts its records, from 0. The value of each answer is the record's number, as long as no record before it was
 * left out, so that no two answers are the same. */
static void count_by_mask(void)
{
    uint32_t at;

    for (at = 0; at < RECORDS; at++) {
        uint8_t *const next = claim_log + at * HUBCRACKLE_RECORD_BYTES;
        const uint32_t before = at == 0 ? UINT32_MAX : at - 1;

        put_number(next, 0x70050000u);
        put_number(next + 4, at & ~before);
        put_number(next + 8, before & ~at);
    }
}

/* The longest log, whose answers are made here too: only one answer differs, at every place, and then all behind it differ too. */
static void long_claims(void)
{
    uint32_t at;

    count_by_mask();
    for (at = 0; at < RECORDS; at++) {
        put_number(claim + at * HUBCRACKLE_ANSWER_BYTES, (uint32_t)OK);
        put_number(claim + at * HUBCRACKLE_ANSWER_BYTES + 4, at);
    }
    STILL_TRY(OK, hubcrackle_check(0x20, claim_log, HUBCRACKLE_LOG_MAX, claim, ROOM, record));
    for (at = 0; at < RECORDS; at++) {
        uint8_t *const byte = claim + at * HUBCRACKLE_ANSWER_BYTES + at % HUBCRACKLE_ANSWER_BYTES;

        *byte ^= 0x80;
        DIFFERS_TRY(at, hubcrackle_check(0x20, claim_log, HUBCRACKLE_LOG_MAX, claim, ROOM, record));
        *byte ^= 0x80;
    }
    STILL_TRY(OK, hubcrackle_check(0x20, claim_log, HUBCRACKLE_LOG_MAX, claim, ROOM, record));
    for (at = RECORDS; at-- > 0;) {
        claim[at * HUBCRACKLE_ANSWER_BYTES + at % HUBCRACKLE_ANSWER_BYTES] ^= 1;
        DIFFERS_TRY(at, hubcrackle_check(0x20, claim_log, HUBCRACKLE_LOG_MAX, claim, ROOM, record));
    }
}

/* The fronts of that log, of every number of records: the right claim, and one whose last answer differs. */
static void front_claims(void)
{
    size_t log_len;

    count_by_mask();
    claim_of(0x20, claim_log, HUBCRACKLE_LOG_MAX);
    for (log_len = HUBCRACKLE_RECORD_BYTES; log_len <= HUBCRACKLE_LOG_MAX; log_len += HUBCRACKLE_RECORD_BYTES) {
        const size_t count = log_len / HUBCRACKLE_RECORD_BYTES, claim_len = count * HUBCRACKLE_ANSWER_BYTES;

        STILL_TRY(OK, hubcrackle_check(0x20, claim_log, log_len, claim, claim_len, record));
        claim[claim_len - 1] ^= 1;
        DIFFERS_TRY((uint32_t)count - 1, hubcrackle_check(0x20, claim_log, log_len, claim, claim_len, record));
        claim[claim_len - 1] ^= 1;
    }
}

/* Claims of a controller that takes an accident or a self-deadlock for something else, and one to the same records in another order. */
static void told_claims(void)
{
    /* Thread 3 holds lock 7 three deep, and is unwound. */
    static const head accident[] = { { 0x00 }, { 0x20, 3 }, { 0x40, 0, 7 }, { 0x40, 0, 7, 0, 1 }, { 0x40, 0, 7, 0, 1 }, { 0xc0, 3 } };
    static const uint8_t one_level[] = { 0, 0, 0, 0, 0, 0, 0, 0, /**/ 0, 0, 0, 0, 0, 0, 0, 0, /**/ 0, 0, 0, 0, 0, 0, 0, 1, /**/
                                         0, 0, 0, 0, 0, 0, 0, 2, /**/ 0, 0, 0, 0, 0, 0, 0, 3, /**/ 0, 0, 0, 0, 0, 0, 0, 1 };
    /* CPU 0 asks for its own lock again. */
    static const head own[] = { { 0x00 }, { 0x20, 3 }, { 0x40, 0, 7 }, { 0x40, 0, 7 } };
    static const uint8_t deadlock[] = { 0, 0, 0, 0, 0, 0, 0, 0, /**/ 0, 0, 0, 0, 0, 0, 0, 0, /**/ 0, 0, 0, 0, 0, 0, 0, 1, /**/
                                        0xff, 0xff, 0xff, 0xd3, 0, 0, 0, 1 };
    static const uint8_t busy[] = { 0, 0, 0, 0, 0, 0, 0, 0, /**/ 0, 0, 0, 0, 0, 0, 0, 0, /**/ 0, 0, 0, 0, 0, 0, 0, 1, /**/
                                    0xff, 0xff, 0xff, 0xf0, 0, 0, 0, 1 };
    /* Pins of two threads, which may trade places. */
    static const head pins_given[] = { { 0x81, 4 }, { 0x80, 3 } }, pins_traded[] = { { 0x80, 3 }, { 0x81, 4 } };
    size_t log_len = spread(claim_log, accident, 6);

    DIFFERS_TRY(5, hubcrackle_check(0x20, claim_log, log_len, one_level, sizeof one_level, record));
    claim_of(0x20, claim_log, log_len);
    STILL_TRY(OK, hubcrackle_check(0x20, claim_log, log_len, claim, sizeof one_level, record));

    log_len = spread(claim_log, own, 4);
    STILL_TRY(OK, hubcrackle_check(0x20, claim_log, log_len, deadlock, sizeof deadlock, record));
    DIFFERS_TRY(3, hubcrackle_check(0x20, claim_log, log_len, busy, sizeof busy, record));

    log_len = spread(claim_log, pins_traded, 2);
    claim_of(0x20, claim_log, log_len);
    STILL_TRY(OK, hubcrackle_check(0x20, claim_log, log_len, claim, 16, record));
    log_len = spread(claim_log, pins_given, 2);
    DIFFERS_TRY(0, hubcrackle_check(0x20, claim_log, log_len, claim, 16, record));
}

/* A stack of its own for a claim to be judged on. It is filled first, so that the bytes that are written there can be told. */
enum { STACK = 1 << 17 };
static uint8_t stack[STACK] __attribute__((aligned(16)));

/* How long the front of claim_log is that is judged there. */
static size_t judged_len;

/* Judges the right claim to that front. */
static void judge(void)
{
    calls++;
    if (hubcrackle_check(0x20, claim_log, judged_len, claim, judged_len / HUBCRACKLE_RECORD_BYTES * HUBCRACKLE_ANSWER_BYTES, record) != OK)
        blame(__LINE__, "a right claim on another stack");
}

/* Calls it on that stack, on x86-64 and on Arm, which the archives are for. */
static void judge_there(void)
{
    void (*const call)(void) = judge;

#if defined(__aarch64__)
    __asm__ volatile("mov x19, sp\n\tmov sp, %0\n\tblr %1\n\tmov sp, x19"
                     :
                     : "r"(stack + STACK), "r"(call)
                     : "x0", "x1", "x2", "x3", "x4", "x5", "x6", "x7", "x8", "x9", "x10", "x11", "x12", "x13", "x14", "x15", "x16", "x17", "x18",
                       "x19", "x30", "v0", "v1", "v2", "v3", "v4", "v5", "v6", "v7", "v8", "v9", "v10", "v11", "v12", "v13", "v14", "v15", "v16", "v17",
                       "v18", "v19", "v20", "v21", "v22", "v23", "v24", "v25", "v26", "v27", "v28", "v29", "v30", "v31", "memory", "cc");
#else
    __asm__ volatile("movq %%rsp, %%rbx\n\tmovq %0, %%rsp\n\tcall *%1\n\tmovq %%rbx, %%rsp"
                     :
                     : "r"(stack + STACK), "r"(call)
                     : "rax", "rbx", "rcx", "rdx", "rsi", "rdi", "r8", "r9", "r10", "r11", "xmm0", "xmm1", "xmm2", "xmm3", "xmm4", "xmm5", "xmm6",
                       "xmm7", "xmm8", "xmm9", "xmm10", "xmm11", "xmm12", "xmm13", "xmm14", "xmm15", "memory", "cc");
#endif
}

/* How many bytes of stack the right claim to a front of claim_log takes, down to the lowest byte that changes, whatever it was; the few of `judge`
 * are among them. */
static int stack_taken(size_t log_len)
{
    static const uint8_t fillings[] = { 0x00, 0xff };
    int turn, at, lowest = STACK;

    judged_len = log_len;
    for (turn = 0; turn < 2; turn++) {
        for (at = 0; at < STACK; at++)
            stack[at] = pattern(at) ^ fillings[turn];
        judge_there();
        for (at = 0; at < lowest && stack[at] == (pattern(at) ^ fillings[turn]); at++)
            continue;
        lowest = at;
    }
    return STACK - lowest;
}

/* A claim to the longest log takes no more stack than one to its first record. Says how much. */
static int stack_of_claims(void)
{
    int first, all;

    count_by_mask();
    claim_of(0x20, claim_log, HUBCRACKLE_LOG_MAX);
    first = stack_taken(HUBCRACKLE_RECORD_BYTES);
    all = stack_taken(HUBCRACKLE_LOG_MAX);
    if (first != all) {
        printf("calls.c: the stack is %d bytes for the first record, and %d for all\n", first, all);
        blame(__LINE__, "a claim takes stack by the length of its log");
    }
    return all;
}

int main(void)
{
    int check_stack;

    owner_words();
    wide_owner_words();
    masks();
    interrupts();
    logs();
    acquires();
    deadlocks();
    unwinds();
    setups();
    wide_logs();
    pins();
    longest_log();
    starts();
    every_setup();
    cuts();
    short_fragments();
    longest_fragments();
    long_log();
    short_rooms();
    overflows();
    short_forms();
    spoilt_forms();
    zeros_behind();
    finishes();
    two_forms();
    copies();
    right_claims();
    wrong_claims();
    claim_lengths();
    refused_claims();
    long_claims();
    front_claims();
    told_claims();
    check_stack = stack_of_claims();
    printf("%d calls, %d wrong; hubcrackle_check takes %d bytes of stack\n", calls, wrong, check_stack);
    return wrong != 0;
}
