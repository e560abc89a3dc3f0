/* lynx_service: whether what a system does is one lawful run of the link service, told while it runs, a line at a time.
 *
 * A history is told from its header on, as docs/HISTORIES.md has it: first `history 1`, then its processes and wires, then a line for each step.
 *
 *     lynx_service *service;
 *     if (lynx_service_new(&service) != LYNX_SERVICE_OK) ..
 *     if (lynx_service_line(service, "history 1", 9) != LYNX_SERVICE_OK) ..
 *     lynx_service_free(service);
 *
 * Link: `cc main.c liblynx_service.a`. The two files are what `lynx library FOLDER` writes. Besides itself the library calls `malloc`, `realloc`, `free` and
 * the like of `memcpy`. It is for x86-64 with SSE4.2, as each such machine since 2009 has it.
 *
 * Threads: a service is used by one thread at a time, and by one call at a time. Several services are independent of one another. No function is to be
 * called from a signal handler. `malloc`, `realloc` and `free` of the program come from one allocator.
 *
 * Pointers: a null pointer is told by status LYNX_SERVICE_NULL, and then nothing was done but what is said below. What can't be told is a pointer that is
 * neither null nor what is wanted: a service that was freed, or that is not one of lynx_service_new; bytes that are not the caller's, or fewer than were
 * said. With such a pointer anything may happen. Bytes that are passed are used during the call alone, and nobody else writes them meanwhile. A line and
 * the name of an end are only read. A holder is apart from the name that is asked for: the name that one call put is copied before it is asked for with
 * the same holder. No length is 2^63 or more.
 */
#ifndef LYNX_SERVICE_H
#define LYNX_SERVICE_H

#include <stddef.h>
#include <stdint.h>

#ifdef __cplusplus
extern "C" {
#endif

/* A history as far as its lines were told. Its memory is the library's, from lynx_service_new to lynx_service_free. */
typedef struct lynx_service lynx_service;

/* What is answered: 0, 4 and 7 as the statuses of `lynx service`. */
#define LYNX_SERVICE_OK 0        /* done; of a line: with it too, the lines so far are one lawful run */
#define LYNX_SERVICE_NULL 1      /* a pointer is null */
#define LYNX_SERVICE_REFUSED 4   /* the line, or one before it, can't stand there, or its step is not allowed there */
#define LYNX_SERVICE_NO_MEMORY 7 /* want of memory */

/* Makes a service that was told no line, and puts it at `out`.
 *
 * LYNX_SERVICE_OK; LYNX_SERVICE_NULL where `out` is null; LYNX_SERVICE_NO_MEMORY, and then a null pointer is at `out`. */
int lynx_service_new(lynx_service **out);

/* Tells the next line: `length` bytes at `line`, without the line feed. Header lines, empty lines and comments are told too. The bytes need no zero
 * behind them, and may lie anywhere; an empty line has length 0 and a pointer that is not null.
 *
 * LYNX_SERVICE_OK where the lines so far are one lawful run (before the line that says what the text is, nothing is said). LYNX_SERVICE_REFUSED where the
 * line has no form in its place, or its step is not allowed there; a line feed has no form. LYNX_SERVICE_NO_MEMORY where memory is out. Once a line was
 * refused, for its form, its step or memory, each later one gets the same answer and changes nothing.
 * LYNX_SERVICE_NULL where `service` or `line` is null. */
int lynx_service_line(lynx_service *service, const char *line, size_t length);

/* The words of the refusal: `form: ..` or `no: ..`, as `lynx service` prints them behind the number of the line, or `no memory`; none where no line was
 * refused, or there was no memory for them.
 *
 * The answer is the length of the words. At most `size` bytes of them are written to `room`, from the first on, and no zero behind them; what lies
 * behind them in `room` stays. With `room` null, or size 0, nothing is written, so the length can be asked first. Of a null `service` it is 0. What is
 * proved of it is of a room whose bytes were written before, as by `memset`. */
size_t lynx_service_why(const lynx_service *service, char *room, size_t size);

/* Where an end is. */
#define LYNX_SERVICE_OWNED 10     /* a process owns it: `name` is the process's */
#define LYNX_SERVICE_SENT 11      /* it is in a message that was not received yet: `name` is the end that sent it, `number` the message's */
#define LYNX_SERVICE_DESTROYED 12 /* it was destroyed */
#define LYNX_SERVICE_NO_END 13    /* no line told an end of that name */

/* Who holds it. */
typedef struct lynx_service_holder {
    uint32_t number; /* of the message where the end is LYNX_SERVICE_SENT, else 0 */
    size_t length;   /* of the name, at most 34; 0 where there is none */
    char name[40];   /* the name, and zeros behind it */
} lynx_service_holder;

/* Tells where an end is after the lines so far, by its name: `length` bytes at `end`, as `mail.a`; and puts at `holder` who holds it. It changes nothing
 * else.
 *
 * LYNX_SERVICE_OWNED, LYNX_SERVICE_SENT, LYNX_SERVICE_DESTROYED or LYNX_SERVICE_NO_END; LYNX_SERVICE_NULL where a pointer is null. Where nobody holds it,
 * or `service` or `end` is null, the holder is all zeros.
 *
 * Once a line was refused, the answer is of the lines before it, unless it was refused for want of memory: then nothing is said of it. Before the first
 * step the answer takes memory for a moment; where there is none it is LYNX_SERVICE_NO_MEMORY. Else it is found by two look-ups; where a message has the
 * end, all links are gone through for a name too. */
int lynx_service_place(const lynx_service *service, const char *end, size_t length, lynx_service_holder *holder);

/* Frees a service. It is not to be used any more. Of a null pointer nothing is done. */
void lynx_service_free(lynx_service *service);

#ifdef __cplusplus
}
#endif

#endif
