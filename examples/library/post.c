/* A message layer whose log is checked while it runs. Alice gives an end away and uses it all the same, which the layer does not notice.
 *
 *     bin/lynx library checker
 *     cc -I checker examples/library/post.c checker/liblynx_service.a -o post
 *     ./post
 *
 * prints
 *
 *     line 8: no: this call is refused: NoEnd, box.a is in message 1 of mail.a
 *     box.a is in message 1 of mail.a
 *     mail.b is owned by bob
 */
#include <stdarg.h>
#include <stdio.h>
#include <string.h>

#include "lynx_service.h"

static lynx_service *service;
static int lines, status;

/* Tells the service a line, in the form of printf. Of the first one that can't stand there its number is printed, and why. */
static void tell(const char *form, ...) {
    char line[600], why[600] = {0};
    va_list words;
    va_start(words, form);
    int length = vsnprintf(line, sizeof line, form, words);
    va_end(words);
    lines++;
    if (status != LYNX_SERVICE_OK || length < 0 || (size_t)length >= sizeof line)
        return;
    status = lynx_service_line(service, line, (size_t)length);
    if (status == LYNX_SERVICE_OK)
        return;
    size_t told = lynx_service_why(service, why, sizeof why);
    printf("line %d: %.*s\n", lines, (int)(told < sizeof why ? told : sizeof why), why);
}

/* Who holds an end, by the lines so far. */
static void print_holder(const char *end) {
    lynx_service_holder holder;
    int place = lynx_service_place(service, end, strlen(end), &holder);
    if (place == LYNX_SERVICE_OWNED)
        printf("%s is owned by %s\n", end, holder.name);
    else if (place == LYNX_SERVICE_SENT)
        printf("%s is in message %u of %s\n", end, (unsigned)holder.number, holder.name);
    else
        printf("nobody holds %s\n", end);
}

/* An end in the books of the layer. Its bug: who gave an end away stays its user until the message is taken. */
struct end {
    const char *name, *user;
    int sends;
};

static void send(struct end *on, const char *text, const struct end *given) {
    on->sends++;
    tell("%s: send %s %d %s%s%s", on->user, on->name, on->sends, text, given ? " +" : "", given ? given->name : "");
}

int main(void) {
    struct end mail = {"mail.a", "alice", 0}, box = {"box.a", "alice", 0};
    if (lynx_service_new(&service) != LYNX_SERVICE_OK)
        return LYNX_SERVICE_NO_MEMORY;
    tell("history 1");
    tell("process alice");
    tell("process bob");
    tell("wire alice bob as mail");
    tell("wire alice bob as box");
    send(&mail, "yours", &box);
    tell("bob: receive mail.b");
    send(&box, "hello", NULL);
    print_holder("box.a");
    print_holder("mail.b");
    lynx_service_free(service);
    return status;
}
