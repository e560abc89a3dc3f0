/* The program `lynx_service`, by the library: answers FILE. So .ci/checks/histories tries all that it has on the library too. */
#define _POSIX_C_SOURCE 200809L
#include <stdio.h>
#include <stdlib.h>
#include <string.h>

#include "lynx_service.h"

static int answer(lynx_service *service, const char *file, unsigned long number) {
    char why[600];
    size_t length = lynx_service_why(service, why, sizeof why);
    fprintf(stderr, "%s:%lu: %.*s\n", file, number, (int)(length < sizeof why ? length : sizeof why), why);
    return LYNX_SERVICE_REFUSED;
}

int main(int count, char **words) {
    FILE *text = count == 2 ? fopen(words[1], "r") : NULL;
    lynx_service *service;
    char *line = NULL;
    size_t room = 0;
    ssize_t length;
    unsigned long number = 0;
    int has_begun = 0, status = LYNX_SERVICE_OK;
    if (!text || lynx_service_new(&service) != LYNX_SERVICE_OK)
        return 2;
    while (status == LYNX_SERVICE_OK && (length = getline(&line, &room, text)) >= 0) {
        length -= line[length - 1] == '\n';
        number++;
        has_begun |= length > 0 && line[0] != '#';
        status = lynx_service_line(service, line, (size_t)length);
    }
    /* a text that ends before the line that says what it is has no form at its end */
    if (status == LYNX_SERVICE_OK && !has_begun) {
        number++;
        status = lynx_service_line(service, "end", 3);
    }
    if (status == LYNX_SERVICE_REFUSED)
        answer(service, words[1], number);
    else if (status == LYNX_SERVICE_OK)
        puts("yes");
    lynx_service_free(service);
    free(line);
    fclose(text);
    return status;
}
