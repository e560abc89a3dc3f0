/* Tries the functions of lynx_service.h: null pointers, lengths of zero, short rooms, lines behind a refusal, many services, want of memory. It is linked with
 * --wrap=malloc and --wrap=realloc. What fails is printed, and then the status is 1. */
#include <stdio.h>
#include <stdlib.h>
#include <string.h>

#include "lynx_service.h"

#define HEADER "history 1;process alice;process bob;wire alice bob as mail;wire alice bob as box"
#define GIVEN HEADER ";alice: send mail.a 1 yours +box.a"
#define NO_END "no: this call is refused: NoEnd, box.a is in message 1 of mail.a"
#define NO_END_OF_BOB "no: this call is refused: NoEnd, box.a is owned by bob"

static int passed, failed;
/* So many blocks are given, where it is not negative; then none. */
static long blocks_left = -1;

void *__real_malloc(size_t size);
void *__real_realloc(void *block, size_t size);

static int is_out_of_memory(void) {
    if (blocks_left > 0) {
        blocks_left--;
        return 0;
    }
    return blocks_left == 0;
}

void *__wrap_malloc(size_t size) {
    return is_out_of_memory() ? NULL : __real_malloc(size);
}

void *__wrap_realloc(void *block, size_t size) {
    return is_out_of_memory() ? NULL : __real_realloc(block, size);
}

static void holds(const char *what, int is_so) {
    if (is_so) {
        passed++;
    } else {
        failed++;
        printf("FAILED %s\n", what);
    }
}

static int line(lynx_service *service, const char *text) {
    return lynx_service_line(service, text, strlen(text));
}

/* The answer of the last of these lines, which semicolons part, or of the first that is refused. */
static int lines(lynx_service *service, const char *texts) {
    int status = LYNX_SERVICE_OK;
    while (status == LYNX_SERVICE_OK && *texts) {
        size_t length = strcspn(texts, ";");
        status = lynx_service_line(service, texts, length);
        texts += length + (texts[length] == ';');
    }
    return status;
}

static lynx_service *told(const char *texts, int wanted) {
    lynx_service *service = NULL;
    holds("a service is made", lynx_service_new(&service) == LYNX_SERVICE_OK && service);
    holds(texts, lines(service, texts) == wanted);
    return service;
}

static int is_why(const lynx_service *service, const char *words) {
    char room[600];
    size_t length = lynx_service_why(service, room, sizeof room);
    return length == strlen(words) && memcmp(room, words, length) == 0;
}

/* Whether the end of so many bytes is there, with this holder and zeros behind its name. */
static int is_told(const lynx_service *service, const char *end, size_t bytes, int place, const char *name, unsigned number) {
    static const char zeros[sizeof((lynx_service_holder *)0)->name];
    lynx_service_holder holder;
    memset(&holder, 'x', sizeof holder);
    size_t length = strlen(name);
    return lynx_service_place(service, end, bytes, &holder) == place && holder.number == number && holder.length == length &&
           memcmp(holder.name, name, length) == 0 && memcmp(holder.name + length, zeros, sizeof zeros - length) == 0;
}

static int is_at(const lynx_service *service, const char *end, int place, const char *name, unsigned number) {
    return is_told(service, end, strlen(end), place, name, number);
}

static void try_nulls(void) {
    char room[8] = "abcdefg";
    lynx_service *service = told(HEADER, LYNX_SERVICE_OK);
    holds("no place for a service", lynx_service_new(NULL) == LYNX_SERVICE_NULL);
    holds("a line of no service", lynx_service_line(NULL, "history 1", 9) == LYNX_SERVICE_NULL);
    holds("no line", lynx_service_line(service, NULL, 0) == LYNX_SERVICE_NULL);
    holds("no line of some length", lynx_service_line(service, NULL, 9) == LYNX_SERVICE_NULL);
    holds("the words of no service", lynx_service_why(NULL, room, sizeof room) == 0 && strcmp(room, "abcdefg") == 0);
    holds("an end of no service", is_told(NULL, "mail.a", 6, LYNX_SERVICE_NULL, "", 0));
    holds("no end", is_told(service, NULL, 6, LYNX_SERVICE_NULL, "", 0));
    holds("no holder", lynx_service_place(service, "mail.a", 6, NULL) == LYNX_SERVICE_NULL);
    holds("after them the service is as before", line(service, "bob: receive mail.b") == LYNX_SERVICE_OK && is_why(service, ""));
    lynx_service_free(NULL);
    lynx_service_free(service);
}

static void try_lengths(void) {
    lynx_service *service = told(HEADER, LYNX_SERVICE_OK);
    char name[200];
    memset(name, 'a', sizeof name);
    holds("an empty line", lynx_service_line(service, "x", 0) == LYNX_SERVICE_OK);
    holds("a comment", line(service, "# nothing") == LYNX_SERVICE_OK);
    holds("bytes behind the line are none of it", lynx_service_line(service, "bob: receive mail.bcd", 19) == LYNX_SERVICE_OK);
    holds("an end of length 0", is_told(service, "mail.a", 0, LYNX_SERVICE_NO_END, "", 0));
    holds("bytes behind the end are none of it", is_told(service, "mail.abc", 6, LYNX_SERVICE_OWNED, "alice", 0));
    holds("a long end", is_told(service, name, sizeof name, LYNX_SERVICE_NO_END, "", 0));
    holds("a zero in a line", lynx_service_line(service, "bob: wait\0", 10) == LYNX_SERVICE_REFUSED);
    lynx_service_free(service);
    service = told(HEADER, LYNX_SERVICE_OK);
    holds("a line feed in a line", line(service, "bob: receive mail.b\n") == LYNX_SERVICE_REFUSED);
    lynx_service_free(service);
}

static void try_places(void) {
    static const char longest[] = "abcdefghijklmnopqrstuvwxyz123456";
    char texts[600], end[40];
    lynx_service *service = told("", LYNX_SERVICE_OK);
    holds("before the header", is_at(service, "mail.a", LYNX_SERVICE_NO_END, "", 0));
    holds("the header", lines(service, HEADER) == LYNX_SERVICE_OK);
    holds("behind the header", is_at(service, "box.a", LYNX_SERVICE_OWNED, "alice", 0) && is_at(service, "box.b", LYNX_SERVICE_OWNED, "bob", 0));
    const char *others[] = {"box", "box.", "box.c", "box.aa", "Box.a", ".a", "own.a", "alice", "box.a ", " box.a"};
    for (size_t at = 0; at < sizeof others / sizeof *others; at++)
        holds(others[at], is_at(service, others[at], LYNX_SERVICE_NO_END, "", 0));
    holds("an end is given", line(service, "alice: send mail.a 1 yours +box.a") == LYNX_SERVICE_OK);
    holds("it is in the message", is_at(service, "box.a", LYNX_SERVICE_SENT, "mail.a", 1));
    holds("it is matched", lines(service, "bob: receive mail.b;match mail.a 1") == LYNX_SERVICE_OK && is_at(service, "box.a", LYNX_SERVICE_SENT, "mail.a", 1));
    holds("it is taken", line(service, "take mail.a 1 by bob") == LYNX_SERVICE_OK && is_at(service, "box.a", LYNX_SERVICE_OWNED, "bob", 0));
    holds("it is destroyed", line(service, "bob: destroy box.a") == LYNX_SERVICE_OK && is_at(service, "box.a", LYNX_SERVICE_DESTROYED, "", 0));
    holds("a link is made", line(service, "bob: make own") == LYNX_SERVICE_OK && is_at(service, "own.b", LYNX_SERVICE_OWNED, "bob", 0));
    lynx_service_free(service);
    snprintf(texts, sizeof texts, "history 1;process %s;wire %s %s as %s;wire %s %s as x;%s: send %s.b 1 - +x.a", longest, longest, longest, longest, longest,
             longest, longest, longest);
    service = told(texts, LYNX_SERVICE_OK);
    snprintf(end, sizeof end, "%s.b", longest);
    holds("the longest names", is_at(service, end, LYNX_SERVICE_OWNED, longest, 0) && is_at(service, "x.a", LYNX_SERVICE_SENT, end, 1));
    lynx_service_free(service);
}

static void try_refusal(void) {
    lynx_service *service = told(GIVEN, LYNX_SERVICE_OK);
    holds("no words before", is_why(service, ""));
    holds("the end is used", line(service, "alice: send box.a 1 hello") == LYNX_SERVICE_REFUSED);
    const char *later[] = {"bob: receive mail.b", "", "# nothing", "history 1", "nonsense"};
    for (size_t at = 0; at < sizeof later / sizeof *later; at++) {
        holds(later[at], line(service, later[at]) == LYNX_SERVICE_REFUSED);
        holds("the words are the same", is_why(service, NO_END));
        holds("the places are the same", is_at(service, "box.a", LYNX_SERVICE_SENT, "mail.a", 1) && is_at(service, "mail.b", LYNX_SERVICE_OWNED, "bob", 0));
    }
    lynx_service_free(service);
    service = told("history 1;process alice;alice:wait", LYNX_SERVICE_REFUSED);
    char room[6];
    holds("words of a form", lynx_service_why(service, room, sizeof room) > 6 && memcmp(room, "form: ", 6) == 0);
    lynx_service_free(service);
}

static void try_rooms(void) {
    lynx_service *service = told(GIVEN ";alice: send box.a 1 hello", LYNX_SERVICE_REFUSED);
    size_t whole = strlen(NO_END);
    char room[600], wanted[600];
    holds("no room", lynx_service_why(service, NULL, 0) == whole && lynx_service_why(service, NULL, 9) == whole);
    for (size_t size = 0; size < whole + 3; size++) {
        memset(room, '?', sizeof room);
        memset(wanted, '?', sizeof wanted);
        memcpy(wanted, NO_END, size < whole ? size : whole);
        holds("a room of some size", lynx_service_why(service, room, size) == whole && memcmp(room, wanted, sizeof room) == 0);
    }
    lynx_service_free(service);
}

static void try_many(void) {
    enum { MANY = 1000 };
    static lynx_service *all[MANY];
    int is_apart = 1;
    for (int at = 0; at < MANY; at++)
        is_apart &= lynx_service_new(&all[at]) == LYNX_SERVICE_OK && lines(all[at], HEADER) == LYNX_SERVICE_OK;
    for (int at = 0; at < MANY; at += 2)
        is_apart &= line(all[at], "alice: send mail.a 1 yours +box.a") == LYNX_SERVICE_OK;
    for (int at = 0; at < MANY; at++)
        is_apart &= line(all[at], "alice: send box.a 1 hello") == (at % 2 ? LYNX_SERVICE_OK : LYNX_SERVICE_REFUSED);
    for (int at = MANY - 1; at >= 0; at -= 2)
        lynx_service_free(all[at]);
    for (int at = 0; at < MANY; at += 2) {
        is_apart &= is_why(all[at], NO_END);
        lynx_service_free(all[at]);
    }
    holds("many services are apart", is_apart);
}

/* A run with so many blocks of memory. The answer is whether they were enough. */
static int try_blocks(long blocks) {
    static const char texts[] = GIVEN ";bob: receive mail.b;match mail.a 1;take mail.a 1 by bob;bob: make own;alice: send box.a 1 hello";
    lynx_service *service = (lynx_service *)&blocks;
    blocks_left = blocks;
    int status = lynx_service_new(&service);
    if (status == LYNX_SERVICE_OK)
        status = lines(service, texts);
    else
        holds("null is put where there is no memory for a service", service == NULL);
    int had_enough = status == LYNX_SERVICE_REFUSED;
    holds("the answer where memory is short", had_enough || status == LYNX_SERVICE_NO_MEMORY);
    blocks_left = -1;
    if (service)
        holds("the answer stays", line(service, "bob: wait") == status);
    holds("the words of it", !service || is_why(service, had_enough ? NO_END_OF_BOB : "no memory") || (!had_enough && is_why(service, "")));
    lynx_service_free(service);
    return had_enough;
}

static void try_memory(void) {
    long blocks = 0;
    while (blocks < 1000 && !try_blocks(blocks))
        blocks++;
    holds("with memory enough the run is refused for its step", blocks > 0 && blocks < 1000);
    lynx_service *service = told(HEADER, LYNX_SERVICE_OK);
    blocks_left = 0;
    lynx_service_holder holder;
    int place = lynx_service_place(service, "mail.a", 6, &holder);
    blocks_left = -1;
    holds("a place where there is no memory", place == LYNX_SERVICE_NO_MEMORY || place == LYNX_SERVICE_OWNED);
    holds("after it the service is as before", line(service, "bob: receive mail.b") == LYNX_SERVICE_OK);
    lynx_service_free(service);
}

int main(void) {
    try_nulls();
    try_lengths();
    try_places();
    try_refusal();
    try_rooms();
    try_many();
    try_memory();
    printf("%d calls passed, %d failed\n", passed, failed);
    return failed != 0;
}
