/*
 * A server with the routines ECHO, PASS, RELAY and ADV, with the library beside it.
 *
 * ECHO returns the data of the request with TPSUCCESS and code 0. PASS forwards X_OCTET with a space among its first 256
 * octets to the service before the first space, with what follows it, and returns other data as ECHO does. RELAY calls that
 * service in its place, and returns its code and data, or TPFAIL with code 1 and the error's name. ADV advertises a service on
 * the queue of its server for `+ SERVICE ROUTINE`, takes one off for `- SERVICE`, and returns `OK` or the error's name with
 * TPSUCCESS and code 0; other data is TPFAIL with code 2 and no data. It has to be one of its own routines. A service's name is a
 * text of C, so it ends at an octet 00. Any other routine is TPFAIL with code 99 and no data. Octets that are no frame,
 * and a frame that may not come then, are told by their place, with status 10.
 *
 *     cc -std=c99 -o server server.c
 */

#include <string.h>

#define TPSERVICES ECHO, PASS, RELAY, ADV
#include "sunzheg.h"

/* The first space among the first 256 octets of X_OCTET, or NULL. */
static char *space_in(TPSVCINFO *request)
{
    char type[8];
    size_t count = (size_t)request->len;
    if (request->data == NULL || tptypes(request->data, type, NULL) < 0 || strcmp(type, X_OCTET) != 0)
        return NULL;
    return memchr(request->data, ' ', count < 256 ? count : 256);
}

void ECHO(TPSVCINFO *request)
{
    tpreturn(TPSUCCESS, 0, request->data, request->len, 0);
}

/* Takes the service off the front of the data, up to the space; what follows it goes on in the request's own buffer. */
static long part(TPSVCINFO *request, char service[256])
{
    char *space = space_in(request);
    if (space == NULL)
        ECHO(request); /* It doesn't come back. */
    size_t length = (size_t)(space - request->data), rest = (size_t)request->len - length - 1;
    memcpy(service, request->data, length);
    service[length] = '\0';
    memmove(request->data, space + 1, rest);
    return (long)rest;
}

void PASS(TPSVCINFO *request)
{
    char service[256];
    long rest = part(request, service);
    tpforward(service, request->data, rest, 0);
}

void RELAY(TPSVCINFO *request)
{
    char service[256];
    long rest = part(request, service), count = 0;
    char *answer = tpalloc(X_OCTET, NULL, 0), *name = tpalloc(X_OCTET, NULL, 16);
    if (answer == NULL || name == NULL)
        tpreturn(TPFAIL, 1, NULL, 0, 0);
    if (tpcall(service, request->data, rest, &answer, &count, 0) < 0) {
        strcpy(name, tpstrerror(tperrno));
        tpfree(answer);
        tpreturn(TPFAIL, 1, name, (long)strlen(name), 0);
    }
    tpfree(name);
    tpreturn(TPSUCCESS, tpurcode, count > 0 ? answer : NULL, count, 0);
}

/* Whether it is a word of 1 to 255 octets. */
static int is_word(const char *text)
{
    size_t length = strlen(text);
    return 1 <= length && length <= 255 && strchr(text, ' ') == NULL;
}

/* The routine of that name, or NULL. */
static void (*routine_of(const char *name))(TPSVCINFO *)
{
    static const struct {
        const char *name;
        void (*routine)(TPSVCINFO *);
    } all[] = {{"ECHO", ECHO}, {"PASS", PASS}, {"RELAY", RELAY}, {"ADV", ADV}};
    for (size_t i = 0; i < sizeof all / sizeof all[0]; i++)
        if (strcmp(all[i].name, name) == 0)
            return all[i].routine;
    return NULL;
}

void ADV(TPSVCINFO *request)
{
    char type[8], text[516] = "", *service = text + 2;
    const char *told = "OK";
    if (request->data != NULL && tptypes(request->data, type, NULL) >= 0 && strcmp(type, X_OCTET) == 0 && request->len < 516)
        memcpy(text, request->data, (size_t)request->len);
    char *space = strchr(service, ' ');
    int adds = strncmp(text, "+ ", 2) == 0 && space != NULL, takes = strncmp(text, "- ", 2) == 0;
    if (adds)
        *space = '\0';
    if ((!adds && !takes) || !is_word(service) || (adds && !is_word(space + 1)))
        tpreturn(TPFAIL, 2, NULL, 0, 0); /* It doesn't come back. */
    if ((adds ? tpadvertise(service, routine_of(space + 1)) : tpunadvertise(service)) < 0)
        told = tpstrerror(tperrno);
    char *answer = tpalloc(X_OCTET, NULL, 16);
    if (answer == NULL)
        tpreturn(TPFAIL, 1, NULL, 0, 0);
    tpreturn(TPSUCCESS, 0, strcpy(answer, told), (long)strlen(told), 0);
}
