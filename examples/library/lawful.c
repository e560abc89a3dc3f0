// Whether the history on standard input is lawful: cc -I checker lawful.c checker/liblynx_service.a, of `lynx library checker`.
#include <stdio.h>
#include <string.h>

#include "lynx_service.h"

int main(void) {
    char line[4096];
    lynx_service *service;
    int status = lynx_service_new(&service);
    while (fgets(line, sizeof line, stdin))
        if (status == LYNX_SERVICE_OK)
            status = lynx_service_line(service, line, strcspn(line, "\n"));
    lynx_service_free(service);
    return status;
}
