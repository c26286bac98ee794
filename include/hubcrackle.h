/*
 * Hubcrackle: spinlock, affinity and interrupt rules for a C kernel.
 *
 * Link target/staticlib/libkernel.a; for hubcrackle_start, hubcrackle_feed and hubcrackle_finish target/staticlib/libkernel_form.a too; and for
 * hubcrackle_check target/staticlib/libkernel_check.a. tools/archives proves and writes the three for x86-64. None of them needs another. The
 * functions allocate nothing, keep no state between calls and call nothing but memcpy and memset, so any number of CPUs may be in them at once.
 *
 * The archives are plain System V code for every x86-64 processor: they may use SSE registers and the 128 bytes below the stack pointer. Call them
 * where both are allowed. As built now, hubcrackle_run takes about 7,800 bytes of stack, hubcrackle_start 18,300, hubcrackle_feed 18,800,
 * hubcrackle_finish 14,700 and hubcrackle_check 16,100, and every other function less than 512. A machine, with sixteen CPU slots in either width,
 * has 3,912 bytes, and they hold it on the stack. How long a call takes, where it is said below, was measured with an older kit's archives.
 *
 * Every function works in the same way.
 *
 *   - It returns a code: HUBCRACKLE_OK, or a negative number that says why it refused. hubcrackle_check alone, which has no `out`, has a third kind,
 *     HUBCRACKLE_DIFFERS, which is positive and goes with a number: compare its code with HUBCRACKLE_OK, and do not ask whether it is negative.
 *   - On HUBCRACKLE_OK its value stands over the front of `out`, most significant byte first, in as many bytes as the function says. Bytes
 *     of `out` past the value stay as they were. `out` may be longer than needed.
 *   - On any other code no byte of `out` has changed, and there is no value.
 *   - HUBCRACKLE_ENOMEM (`out` too short) is tested last: a call that is wrong for another reason says so, however short `out` is.
 *   - Every number is allowed as an argument. What the rule does not accept is refused with HUBCRACKLE_EINVAL; nothing is undefined.
 *
 * The bytes belong to the caller, who lends them for the time of the call; no pointer is kept. A pointer is never NULL, also where its length
 * is 0, and points to at least as many bytes as its length says. `out` does not overlap what the same call reads.
 *
 * That each function returns the code and leaves the bytes that its rule gives, for every argument, is proved: crates/kernel_c, crates/kernel_form_c
 * and crates/kernel_check_c have the contracts.
 */
#ifndef HUBCRACKLE_H
#define HUBCRACKLE_H

#include <stddef.h>
#include <stdint.h>

/* Codes. The numbers are Zephyr's. The single calls give OK, ENOMEM and EINVAL, and hubcrackle_run and hubcrackle_feed return EOVERFLOW too.
 * hubcrackle_check gives OK, EINVAL, EOVERFLOW and HUBCRACKLE_DIFFERS. The answer to one record of a log can have any of these but ENOMEM and
 * EOVERFLOW. */
#define HUBCRACKLE_OK 0
#define HUBCRACKLE_EPERM (-1)       /* not the owner; thread not on that CPU */
#define HUBCRACKLE_ENOMEM (-12)     /* `out` is too short for the value */
#define HUBCRACKLE_EBUSY (-16)      /* held by another CPU; nested 255 deep; CPU or thread occupied; CPU holds locks */
#define HUBCRACKLE_EINVAL (-22)     /* bad number, form, record or mask; CPU down or empty; thread running */
#define HUBCRACKLE_EDEADLK (-45)    /* the asking CPU itself holds the lock */
#define HUBCRACKLE_EALREADY (-114)  /* CPU already up, or already down */
#define HUBCRACKLE_EOVERFLOW (-139) /* log or fragment over HUBCRACKLE_LOG_MAX bytes */

/* What hubcrackle_check returns, and no other call, where it judged a claim and an answer differs: neither OK nor a refusal, and no number of
 * Zephyr's. */
#define HUBCRACKLE_DIFFERS 1

/* How many bytes a value has in `out`. */
#define HUBCRACKLE_WORD_BYTES 8   /* an owner word */
#define HUBCRACKLE_HOLDER_BYTES 9 /* a decoded owner word: the thread, 8 bytes, and then the CPU, 1 byte */
#define HUBCRACKLE_MASK_BYTES 4   /* a CPU mask: bit i, counted from the low end, stands for CPU i */
#define HUBCRACKLE_YES_NO_BYTES 1 /* 1 for yes, 0 for no */

/* How many bytes each of several things has that stand one behind the other. */
#define HUBCRACKLE_CPU_BYTES 5     /* a CPU of hubcrackle_compute_ipi_mask */
#define HUBCRACKLE_RECORD_BYTES 12 /* a record of a log */
#define HUBCRACKLE_ANSWER_BYTES 8  /* an answer to a record */

/* How long a log may be, and the room that its answers then need. */
#define HUBCRACKLE_LOG_MAX 24576     /* 2048 records */
#define HUBCRACKLE_ANSWERS_MAX 16384 /* 2048 answers */

/* How many bytes a form has, between the calls that take a log as it arrives. */
#define HUBCRACKLE_FORM_BYTES 2962

#ifdef __cplusplus
extern "C" {
#endif

/*
 * Owner words: 64 bits that say which thread on which CPU holds a lock; 0 says that nobody does. The number of the CPU stands in their low bits:
 * two, or four on a controller with more than four CPUs. `wide` says which, in every call: HUBCRACKLE_NARROW or HUBCRACKLE_WIDE; any other number
 * is EINVAL. The same word names another CPU and another thread at the other width, so all calls on a lock have to take the same.
 *
 *                                  narrow               wide
 *     CPU                          0 to 3               0 to 15
 *     thread word                  nonzero, multiple    nonzero, multiple
 *                                  of 4                 of 16
 *     words that no thread makes   1 to 3               1 to 15
 *
 * A thread word may be the address of a thread structure that is aligned so.
 *
 * What a C kernel has to change: until now these four calls had no `wide`, and the words were the narrow ones. Hand HUBCRACKLE_NARROW to each,
 * just before `out`, and everything is as it was. For wide words align thread structures to 16 bytes, and make every word anew.
 */
#define HUBCRACKLE_NARROW 0
#define HUBCRACKLE_WIDE 1

/* The owner word of a thread on a CPU: the sum of the two. Value: HUBCRACKLE_WORD_BYTES.
 * EINVAL: the CPU is above 3, wide above 15; the thread word is 0 or no multiple of 4, wide of 16; `wide` is neither 0 nor 1. */
int32_t hubcrackle_spin_lock_compute_owner(uint32_t current_cpu_id, uint64_t current_thread, uint32_t wide, uint8_t *out, size_t out_len);

/* Who holds the lock that has this owner word. Value: HUBCRACKLE_HOLDER_BYTES, all zero if it is free (word 0).
 * EINVAL: the word is 1 to 3, wide 1 to 15, which no thread makes; `wide` is neither 0 nor 1. */
int32_t hubcrackle_spin_lock_decode_owner(uint64_t thread_cpu, uint32_t wide, uint8_t *out, size_t out_len);

/* Whether a CPU may go for the lock that has this owner word. Value: HUBCRACKLE_YES_NO_BYTES; no exactly if the word is nonzero and names that
 * CPU, so that the CPU would wait for itself. EINVAL: the CPU is above 3, wide above 15; `wide` is neither 0 nor 1. */
int32_t hubcrackle_spin_lock_valid(uint64_t thread_cpu, uint32_t current_cpu_id, uint32_t wide, uint8_t *out, size_t out_len);

/* Whether a thread on a CPU may unlock the lock that has this owner word. Value: HUBCRACKLE_YES_NO_BYTES; yes exactly if the word is theirs.
 * EINVAL: the CPU, the thread word or `wide` is one of which hubcrackle_spin_lock_compute_owner makes no word. */
int32_t hubcrackle_spin_unlock_valid(uint64_t thread_cpu, uint32_t current_cpu_id, uint64_t current_thread, uint32_t wide, uint8_t *out,
                                     size_t out_len);

/*
 * Affinity masks: on which CPUs a thread may run, one bit each.
 */

/* A thread's new mask: the current one with the bits of `enable` set and then those of `disable` cleared. is_running and pin_only are 0 for no
 * and 1 for yes. Value: HUBCRACKLE_MASK_BYTES; a mask of zero is a mask, and with pin_only the one bit may be any of the 32.
 * EINVAL: the thread is running; pin_only is asked for, and the new mask has not exactly one bit; a flag is neither 0 nor 1. */
int32_t hubcrackle_cpu_mask_mod(uint32_t current_mask, uint32_t enable, uint32_t disable, uint32_t is_running, uint32_t pin_only, uint8_t *out,
                                size_t out_len);

/* Whether a mask names exactly one CPU. Value: HUBCRACKLE_YES_NO_BYTES. Never EINVAL. */
int32_t hubcrackle_validate_pin_mask(uint32_t mask, uint8_t *out, size_t out_len);

/* The mask that pins a thread to one CPU of max_cpus. Value: HUBCRACKLE_MASK_BYTES.
 * EINVAL: max_cpus is above 32; the CPU is not below max_cpus. */
int32_t hubcrackle_cpu_pin_compute(uint32_t cpu_id, uint32_t max_cpus, uint8_t *out, size_t out_len);

/*
 * Interprocessor interrupts, for at most 16 CPUs. A lower priority number is more important.
 */

/* Which CPUs to interrupt when a thread of priority target_prio and affinity target_cpu_mask gets ready on current_cpu: the other active CPUs
 * of that affinity that run something less important. `cpus` has HUBCRACKLE_CPU_BYTES for each of the num_cpus CPUs in their order: 1 if it is
 * active and else 0, and then the priority of what it runs, an int32_t in two's complement, most significant byte first.
 * Value: HUBCRACKLE_MASK_BYTES.
 * EINVAL: max_cpus is above 16; num_cpus is above max_cpus; current_cpu is not below num_cpus; cpus_len is not HUBCRACKLE_CPU_BYTES times
 * num_cpus; an active byte is neither 0 nor 1. */
int32_t hubcrackle_compute_ipi_mask(uint32_t current_cpu, int32_t target_prio, uint32_t target_cpu_mask, const uint8_t *cpus, size_t cpus_len,
                                    uint32_t num_cpus, uint32_t max_cpus, uint8_t *out, size_t out_len);

/* Whether a mask can come from hubcrackle_compute_ipi_mask with this current_cpu and this max_cpus: it spares the current CPU and names none
 * from max_cpus on. Value: HUBCRACKLE_YES_NO_BYTES. EINVAL: max_cpus is above 16; current_cpu is not below max_cpus. */
int32_t hubcrackle_validate_ipi_mask(uint32_t mask, uint32_t current_cpu, uint32_t max_cpus, uint8_t *out, size_t out_len);

/*
 * A whole log.
 */

/* Runs a log from its start on a fresh machine of 32 threads and 128 locks. The setup byte says the rest: 16 times the number of CPUs, 8 more for
 * pin-only, under which every mask must have exactly one bit, that of a CPU of the machine, and 4 more if the machine is wide. There are 1 to 4
 * CPUs, on a wide machine 1 to 16; 16 is written as 0, so that the setup byte of a wide machine of sixteen is 4. A wide machine of 1 to 4 CPUs is
 * another than a narrow one: its owner words are wide.
 *
 * A record: byte 0 is 16 times the operation plus the CPU, byte 1 the thread, byte 2 the lock, byte 3 zero, bytes 4 to 7 A, bytes 8 to 11 B, the
 * last two most significant byte first. What an operation does not use is zero.
 *
 *     operation    uses                    value of the answer
 *      0 up        CPU                     0
 *      1 down      CPU                     0
 *      2 put       CPU, thread             0
 *      3 take      CPU, thread             0
 *      4 acquire   CPU, lock, A            how deep the lock is held; A is 0, or 1 if it may nest
 *      6 release   CPU, lock               how deep the lock is held
 *      7 mask      thread, A on, B off     the thread's mask; under pin-only one bit, of a CPU that there is
 *      8 pin       CPU, thread             the thread's mask
 *      9 priority  thread, A               0; A is -128 to 127, in two's complement
 *     10 ipi       CPU, thread             the CPUs to interrupt
 *     11 owner     lock                    the lock's owner word; thread t has thread word 4 (t + 1), wide 16 (t + 1)
 *     12 unwind    CPU, thread             how deep the CPU's locks were held, added up; it frees them all
 *
 * An acquire takes a free lock. To a plain one, A = 0, a held lock is EDEADLK if the asking CPU holds it itself, and EBUSY if another does: who spins
 * on EBUSY waits for another CPU, and who is answered EDEADLK would wait for itself. Once it was EBUSY to both. A nested one, A = 1, takes the holder
 * one level deeper, up to 255, and is EBUSY otherwise. There is no operation 5: it was the nested acquire once, and is of another form now, whatever
 * its fields are. Outside a log hubcrackle_spin_lock_valid tells a kernel the same before it spins.
 *
 * Under pin-only operation 7 is EINVAL, and its value the current mask, if the new mask has not exactly one bit or if that bit is n or above, where
 * n is the number of CPUs. Once a log took any one bit, so that a thread could be pinned to a CPU that there is not.
 * hubcrackle_cpu_mask_mod has no n, and takes any one bit as before.
 *
 * An answer: the record's code, 4 bytes in two's complement, and its value, 4 bytes, both most significant byte first. A refused record has an
 * answer too, with the value as it stands, of unwind 0, and changes nothing; a record of another form is EINVAL with value 0.
 *
 * Value: HUBCRACKLE_ANSWER_BYTES for each record, in their order. An empty log has no answers and needs no room. The log is refused whole, in
 * this order: EINVAL: a bad setup byte. EOVERFLOW: log_len is above HUBCRACKLE_LOG_MAX. EINVAL: log_len is no multiple of
 * HUBCRACKLE_RECORD_BYTES. ENOMEM: out_len is below HUBCRACKLE_ANSWER_BYTES times the number of records. */
int32_t hubcrackle_run(uint8_t setup, const uint8_t *log, size_t log_len, uint8_t *out, size_t out_len);

/*
 * A log as it arrives, in fragments that may end inside a record. A form keeps the machine between the calls, and the bytes of the record that is
 * not whole yet, in HUBCRACKLE_FORM_BYTES that the caller lends to each call. Start it, feed it each fragment as it comes, and finish it. For a log
 * of whole records that is cut anywhere, and of which no fragment is refused, the answers, one behind the other, are those of hubcrackle_run;
 * a log may also be longer than HUBCRACKLE_LOG_MAX. Records and answers are as above.
 *
 * What it costs: each call reads the whole form from its bytes and tests it, and a feed that is accepted writes it back. For a feed that is as long
 * as some 100 records take, whatever the fragment's length is, so hand over what has arrived rather than single bytes. In fragments of 1,000 bytes a
 * log takes about 2.7 times as long as in one hubcrackle_run, in fragments of HUBCRACKLE_LOG_MAX about 1.15 times.
 *
 * The bytes of a form are for these calls alone: what they hold may change with the archive. A form may be copied; bytes that no call has written
 * are taken for the form that they happen to spell, and refused with EINVAL unless its machine is well-formed and at most eleven bytes are pending.
 */

/* A form with nothing pending, on the fresh machine of a setup byte. Value, over the front of `form`: HUBCRACKLE_FORM_BYTES.
 * EINVAL: a bad setup byte. ENOMEM: form_len is below HUBCRACKLE_FORM_BYTES. */
int32_t hubcrackle_start(uint8_t setup, uint8_t *form, size_t form_len);

/* A fragment of a log: 0 to HUBCRACKLE_LOG_MAX bytes. Runs the records that it completes, of which there are at most 2048, and keeps the bytes behind
 * them for the next call. Value: HUBCRACKLE_ANSWER_BYTES for each of those records, in their order; `records` says how many there were.
 * `form`, `fragment`, `out` and `records` do not overlap. A fragment is taken whole or not at all: on any code but OK neither the form nor `out` nor
 * `records` has changed, and feeding may go on, with the same fragment in smaller parts or with more room.
 * In this order: EINVAL: form_len is below HUBCRACKLE_FORM_BYTES; no form. EOVERFLOW: fragment_len is above HUBCRACKLE_LOG_MAX. ENOMEM: out_len is
 * below HUBCRACKLE_ANSWER_BYTES times the number of records. */
int32_t hubcrackle_feed(uint8_t *form, size_t form_len, const uint8_t *fragment, size_t fragment_len, uint8_t *out, size_t out_len,
                        uint32_t *records);

/* The end of a log. It has no value and changes nothing, so feeding may go on after it. EINVAL: form_len is below HUBCRACKLE_FORM_BYTES; no form; the
 * log ends inside a record. The records that were run stand. */
int32_t hubcrackle_finish(const uint8_t *form, size_t form_len);

/*
 * Claimed answers to a log.
 */

/* Whether claimed answers to a log are the right ones, byte for byte. It is for a controller that was sold, which has recorded a log and the answers
 * that it gave: the rules of this archive judge them, and the archive is libkernel_check.a. Setup byte, records and answers are those of
 * hubcrackle_run. `claim` has HUBCRACKLE_ANSWER_BYTES for each record, in the order that the records have in `log`: what hubcrackle_run writes for
 * the same setup byte and log is accepted, and nothing else is. An empty log has an empty claim.
 *
 * OK: every byte of the claim is right. HUBCRACKLE_DIFFERS: at least one answer differs, and `record` has the number, from 0, of the lowest record
 * whose answer does. Any other code: the claim was not judged, for one of these reasons, in this order: EINVAL: a bad setup byte. EOVERFLOW: log_len
 * is above HUBCRACKLE_LOG_MAX. EINVAL: log_len is no multiple of HUBCRACKLE_RECORD_BYTES. EINVAL: claim_len is not HUBCRACKLE_ANSWER_BYTES times the
 * number of records. There is no ENOMEM, since there is no `out`.
 *
 * A caller accepts a claim on HUBCRACKLE_OK and on nothing else. `record` is written with HUBCRACKLE_DIFFERS alone: on OK and on every refusal it
 * stays as it was. It does not overlap `log` or `claim`.
 *
 * What it costs: its memory does not grow with the log. The answers are compared 1,024 at a time, in 16,100 bytes of stack however long the log is.
 * A right claim to a long log takes about 1.1 times as long as hubcrackle_run of that log, and to a short one half a microsecond more. A wrong one
 * takes at most a few microseconds more: at most 1,023 records are run behind the one that differs. */
int32_t hubcrackle_check(uint8_t setup, const uint8_t *log, size_t log_len, const uint8_t *claim, size_t claim_len, uint32_t *record);

#ifdef __cplusplus
}
#endif

#endif
