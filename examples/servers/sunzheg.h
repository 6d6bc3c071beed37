/*
 * A library for servers of Sunzheg in C, in one file: docs/protocol.md says what goes over the pipes, and this file does it.
 *
 * Its names are those of XATMI (X/Open C506), with tpforward and TPEXIT of Tuxedo. So this is a whole server:
 *
 *     #include "sunzheg.h"
 *
 *     void ECHO(TPSVCINFO *request)
 *     {
 *         tpreturn(TPSUCCESS, 0, request->data, request->len, 0);
 *     }
 *
 *     cc -DTPSERVICES=ECHO -o server server.c
 *
 * TPSERVICES names the services, as `buildserver -s` does, at most 32 with commas between them: the functions that are called
 * for the routines of these names. One file of the program has it, on the command line or by #define before this one is
 * included, and main() comes with it; other files include this one without it.
 *
 * TPSHAPES is a text that names the shapes of typed data, by the texts of the configuration:
 *
 *     #define TPSHAPES "order: item int, price long, memo string 16; bill: account string 16, cents long"
 *
 * X_C_TYPE of such a shape is a struct in the memory, with the fields as a compiler lays them: short, int and char are those of
 * C, long is int64_t, and string N is char[N], which has no octet 00 at its end where the text fills it. X_C_TYPE of another
 * subtype is the octets on the pipe, and for it tpreturn and tpforward take `len`.
 *
 * As by XATMI: tpreturn and tpforward don't come back; they free the buffer that they are given, and that of the request. Data
 * is a buffer of tpalloc, or NULL. Where a service ends without either, or gives one of them what it may not, that is told on
 * standard error, and the caller is told TPESVCERR. A routine that isn't there is TPFAIL with code 99. After TPEXIT the server ends.
 *
 * A service may call others by tpcall, which waits for the answer. *odata is a buffer of tpalloc, of any type; an answer with data
 * takes its place, and *odata is where that is. An answer without data leaves it, and *olen is 0. It answers -1 for an error, of
 * which tperrno is the number and tpstrerror the name; want of memory is TPEOS. tpurcode is the code of the last answer, also of
 * TPESVCFAIL. Flags are TPNOBLOCK, TPNOTIME, TPSIGRSTRT, TPNOTRAN, and TPNOCHANGE: then data of another type than *odata has is
 * TPEOTYPE. tpsprio sets the priority of the service's next call or forward, with TPABSOLUTE, and else adds to it. A service whose
 * call is put on its own queue waits for good where no other server is there.
 *
 * A service may change which services callers find on the queue of its server. tpadvertise puts one there, with the function that
 * serves it; one that TPSERVICES doesn't name is TPEINVAL. It is TPEMATCH where the service is there with another routine, and
 * TPELIMIT where all queues have 256 services together. tpunadvertise takes it off, and is TPENOENT where it isn't there. A name
 * that is none is TPEINVAL. Each server of the queue may get a request of the service: one whose TPSERVICES doesn't name the
 * function returns TPFAIL with code 99.
 *
 * Outside a service all these are TPEPROTO.
 *
 * Standard output belongs to the monitor: what a service prints there goes to standard error, and standard input is empty.
 * Octets that are no frame, and a frame that may not come then, are told by their place, and the server ends with status 10.
 *
 * Not here: tpacall and tpgetrply, conversations and X_COMMON.
 */

#ifndef SUNZHEG_H
#define SUNZHEG_H

#define XATMI_SERVICE_NAME_LENGTH 32

#define X_OCTET "X_OCTET"
#define X_C_TYPE "X_C_TYPE"

#define TPNOBLOCK 0x00000001L
#define TPSIGRSTRT 0x00000002L
#define TPNOREPLY 0x00000004L
#define TPNOTRAN 0x00000008L
#define TPTRAN 0x00000010L
#define TPNOTIME 0x00000020L
#define TPABSOLUTE 0x00000040L
#define TPGETANY 0x00000080L
#define TPNOCHANGE 0x00000100L
#define TPCONV 0x00000400L
#define TPSENDONLY 0x00000800L
#define TPRECVONLY 0x00001000L

#define TPFAIL 0x00000001
#define TPSUCCESS 0x00000002
#define TPEXIT 0x08000000

#define TPEBADDESC 2
#define TPEBLOCK 3
#define TPEINVAL 4
#define TPELIMIT 5
#define TPENOENT 6
#define TPEOS 7
#define TPEPROTO 9
#define TPESVCERR 10
#define TPESVCFAIL 11
#define TPESYSTEM 12
#define TPETIME 13
#define TPEITYPE 17
#define TPEOTYPE 18
#define TPEEVENT 22
#define TPEMATCH 23

typedef struct tpsvcinfo {
    char name[XATMI_SERVICE_NAME_LENGTH]; /* the service that was called */
    char *data;                           /* a buffer, or NULL where the request has no data */
    long len;                             /* how many octets of it there are */
    long flags;                           /* TPNOREPLY, or of a conversation TPCONV and TPSENDONLY or TPRECVONLY */
    int cd;                               /* 0: there are no conversations yet */
} TPSVCINFO;

/* Why the last of these calls failed, and the code of the last answer. */
extern int tperrno;
extern long tpurcode;

void tpreturn(int rval, long rcode, char *data, long len, long flags);
void tpforward(char *svc, char *data, long len, long flags);
int tpcall(const char *svc, char *idata, long ilen, char **odata, long *olen, long flags);
int tpsprio(int prio, long flags);
int tpadvertise(const char *svcname, void (*func)(TPSVCINFO *));
int tpunadvertise(const char *svcname);
const char *tpstrerror(int err);
char *tpalloc(char *type, char *subtype, long size);
char *tprealloc(char *ptr, long size);
void tpfree(char *ptr);
long tptypes(char *ptr, char *type, char *subtype);

#ifdef TPSERVICES

#include <errno.h>
#include <fcntl.h>
#include <setjmp.h>
#include <signal.h>
#include <stddef.h>
#include <stdint.h>
#include <stdio.h>
#include <stdlib.h>
#include <string.h>
#include <unistd.h>

#ifndef TPSHAPES
#define TPSHAPES ""
#endif

/* ---- the services, one macro for each number of them */

#define SUNZHEG_1(DO, x) DO(x)
#define SUNZHEG_2(DO, x, ...) DO(x) SUNZHEG_1(DO, __VA_ARGS__)
#define SUNZHEG_3(DO, x, ...) DO(x) SUNZHEG_2(DO, __VA_ARGS__)
#define SUNZHEG_4(DO, x, ...) DO(x) SUNZHEG_3(DO, __VA_ARGS__)
#define SUNZHEG_5(DO, x, ...) DO(x) SUNZHEG_4(DO, __VA_ARGS__)
#define SUNZHEG_6(DO, x, ...) DO(x) SUNZHEG_5(DO, __VA_ARGS__)
#define SUNZHEG_7(DO, x, ...) DO(x) SUNZHEG_6(DO, __VA_ARGS__)
#define SUNZHEG_8(DO, x, ...) DO(x) SUNZHEG_7(DO, __VA_ARGS__)
#define SUNZHEG_9(DO, x, ...) DO(x) SUNZHEG_8(DO, __VA_ARGS__)
#define SUNZHEG_10(DO, x, ...) DO(x) SUNZHEG_9(DO, __VA_ARGS__)
#define SUNZHEG_11(DO, x, ...) DO(x) SUNZHEG_10(DO, __VA_ARGS__)
#define SUNZHEG_12(DO, x, ...) DO(x) SUNZHEG_11(DO, __VA_ARGS__)
#define SUNZHEG_13(DO, x, ...) DO(x) SUNZHEG_12(DO, __VA_ARGS__)
#define SUNZHEG_14(DO, x, ...) DO(x) SUNZHEG_13(DO, __VA_ARGS__)
#define SUNZHEG_15(DO, x, ...) DO(x) SUNZHEG_14(DO, __VA_ARGS__)
#define SUNZHEG_16(DO, x, ...) DO(x) SUNZHEG_15(DO, __VA_ARGS__)
#define SUNZHEG_17(DO, x, ...) DO(x) SUNZHEG_16(DO, __VA_ARGS__)
#define SUNZHEG_18(DO, x, ...) DO(x) SUNZHEG_17(DO, __VA_ARGS__)
#define SUNZHEG_19(DO, x, ...) DO(x) SUNZHEG_18(DO, __VA_ARGS__)
#define SUNZHEG_20(DO, x, ...) DO(x) SUNZHEG_19(DO, __VA_ARGS__)
#define SUNZHEG_21(DO, x, ...) DO(x) SUNZHEG_20(DO, __VA_ARGS__)
#define SUNZHEG_22(DO, x, ...) DO(x) SUNZHEG_21(DO, __VA_ARGS__)
#define SUNZHEG_23(DO, x, ...) DO(x) SUNZHEG_22(DO, __VA_ARGS__)
#define SUNZHEG_24(DO, x, ...) DO(x) SUNZHEG_23(DO, __VA_ARGS__)
#define SUNZHEG_25(DO, x, ...) DO(x) SUNZHEG_24(DO, __VA_ARGS__)
#define SUNZHEG_26(DO, x, ...) DO(x) SUNZHEG_25(DO, __VA_ARGS__)
#define SUNZHEG_27(DO, x, ...) DO(x) SUNZHEG_26(DO, __VA_ARGS__)
#define SUNZHEG_28(DO, x, ...) DO(x) SUNZHEG_27(DO, __VA_ARGS__)
#define SUNZHEG_29(DO, x, ...) DO(x) SUNZHEG_28(DO, __VA_ARGS__)
#define SUNZHEG_30(DO, x, ...) DO(x) SUNZHEG_29(DO, __VA_ARGS__)
#define SUNZHEG_31(DO, x, ...) DO(x) SUNZHEG_30(DO, __VA_ARGS__)
#define SUNZHEG_32(DO, x, ...) DO(x) SUNZHEG_31(DO, __VA_ARGS__)
#define SUNZHEG_PICK(_1, _2, _3, _4, _5, _6, _7, _8, _9, _10, _11, _12, _13, _14, _15, _16, _17, _18, _19, _20, _21, \
                     _22, _23, _24, _25, _26, _27, _28, _29, _30, _31, _32, CHOSEN, ...)                            \
    CHOSEN
#define SUNZHEG_EACH(DO, ...)                                                                                        \
    SUNZHEG_PICK(__VA_ARGS__, SUNZHEG_32, SUNZHEG_31, SUNZHEG_30, SUNZHEG_29, SUNZHEG_28, SUNZHEG_27, SUNZHEG_26,    \
                 SUNZHEG_25, SUNZHEG_24, SUNZHEG_23, SUNZHEG_22, SUNZHEG_21, SUNZHEG_20, SUNZHEG_19, SUNZHEG_18,     \
                 SUNZHEG_17, SUNZHEG_16, SUNZHEG_15, SUNZHEG_14, SUNZHEG_13, SUNZHEG_12, SUNZHEG_11, SUNZHEG_10,     \
                 SUNZHEG_9, SUNZHEG_8, SUNZHEG_7, SUNZHEG_6, SUNZHEG_5, SUNZHEG_4, SUNZHEG_3, SUNZHEG_2, SUNZHEG_1,  \
                 0)                                                                                                  \
    (DO, __VA_ARGS__)
#define SUNZHEG_DECLARED(name) void name(TPSVCINFO *);
#define SUNZHEG_LISTED(name) {#name, name},

SUNZHEG_EACH(SUNZHEG_DECLARED, TPSERVICES)

static const struct {
    const char *name;
    void (*service)(TPSVCINFO *);
} sunzheg_services[] = {SUNZHEG_EACH(SUNZHEG_LISTED, TPSERVICES)};

/* ---- what the protocol says in numbers */

enum { SUNZHEG_READY = 0x01, SUNZHEG_NEXT = 0x02, SUNZHEG_OP = 0x03, SUNZHEG_RETURN = 0x04, SUNZHEG_FORWARD = 0x05 };
enum { SUNZHEG_INVOKE = 0x11, SUNZHEG_REPLY = 0x12, SUNZHEG_SHUTDOWN = 0x13 };
enum { SUNZHEG_TPCALL = 1, SUNZHEG_TPSPRIO = 10, SUNZHEG_TPADVERTISE = 11, SUNZHEG_TPUNADVERTISE = 12 };
enum { SUNZHEG_DONE = 0, SUNZHEG_ANSWER = 3, SUNZHEG_ERROR = 6 };
enum { SUNZHEG_NONE = 0, SUNZHEG_OCTET = 1, SUNZHEG_TYPED = 2 };
enum { SUNZHEG_HEADER = 12, SUNZHEG_MAX_BODY = 66000, SUNZHEG_MAX_DATA = 65536, SUNZHEG_MAX_NAME = 31 };
enum { SUNZHEG_MAX_WORD = 255, SUNZHEG_MAX_MODE = 3, SUNZHEG_NO_ROUTINE = 99, SUNZHEG_BAD_FRAME = 10 };

/* The flags of a call by their bits in an OP, and the errors by their numbers in a REPLY; the last one is want of memory. */
static const long sunzheg_flags[] = {TPNOBLOCK, TPNOTIME, TPNOREPLY, TPNOTRAN, TPSIGRSTRT};
static const struct {
    int number;
    const char *name;
} sunzheg_errors[] = {
    {TPEINVAL, "TPEINVAL"}, {TPENOENT, "TPENOENT"}, {TPEITYPE, "TPEITYPE"}, {TPEOTYPE, "TPEOTYPE"}, {TPEBADDESC, "TPEBADDESC"},
    {TPELIMIT, "TPELIMIT"}, {TPEBLOCK, "TPEBLOCK"}, {TPETIME, "TPETIME"}, {TPEPROTO, "TPEPROTO"}, {TPESYSTEM, "TPESYSTEM"},
    {TPEMATCH, "TPEMATCH"}, {TPESVCFAIL, "TPESVCFAIL"}, {TPESVCERR, "TPESVCERR"}, {TPEEVENT, "TPEEVENT"}, {TPEOS, "TPEOS"},
};
enum { SUNZHEG_FLAGS = sizeof sunzheg_flags / sizeof sunzheg_flags[0], SUNZHEG_ERRORS = sizeof sunzheg_errors / sizeof sunzheg_errors[0] };

int tperrno = 0;
long tpurcode = 0;

/* A buffer of tpalloc: what stands before its octets. */
struct sunzheg_buffer {
    struct sunzheg_buffer *next;
    int kind;
    long size;
    char subtype[SUNZHEG_MAX_NAME + 1];
    union {
        long long whole;
        long double real;
        void *pointer;
    } aligned;
};

/* Some octets, which stand elsewhere. */
struct sunzheg_octets {
    const uint8_t *at;
    size_t count;
};

static struct {
    int input, output;
    struct sunzheg_buffer *buffers;
    /* The service that is under way and its request, and where its answer goes. */
    const char *service;
    char *request;
    uint32_t tag;
    jmp_buf back;
    int exits;
    /* Of the frame that comes next. */
    uint64_t place;
    uint8_t body[SUNZHEG_MAX_BODY];
    uint8_t answer[SUNZHEG_HEADER + SUNZHEG_MAX_BODY + SUNZHEG_HEADER];
    size_t count;
} sunzheg;

static void sunzheg_fail(const char *what)
{
    perror(what);
    exit(EXIT_FAILURE);
}

static uint64_t sunzheg_number(const uint8_t *at, size_t count)
{
    uint64_t number = 0;
    for (size_t i = 0; i < count; i++)
        number = number << 8 | at[i];
    return number;
}

/* ---- shapes: TPSHAPES is read each time that it is wanted */

struct sunzheg_field {
    size_t size, alignment;
    int is_number;
};

static const char *sunzheg_spaces(const char *at)
{
    return at + strspn(at, " \n\t");
}

/* Takes a field, `NAME KIND`, and answers what stands behind it; NULL where there is none. */
static const char *sunzheg_take_field(const char *at, struct sunzheg_field *field)
{
    static const struct {
        const char *kind;
        size_t size;
    } kinds[] = {{"short", 2}, {"int", 4}, {"long", 8}, {"char", 1}};
    at = sunzheg_spaces(at);
    at += strcspn(at, " ,;:");
    at = sunzheg_spaces(at);
    size_t length = strcspn(at, " ,;:\n\t");
    for (size_t i = 0; i < sizeof kinds / sizeof kinds[0]; i++)
        if (length == strlen(kinds[i].kind) && strncmp(at, kinds[i].kind, length) == 0) {
            *field = (struct sunzheg_field){kinds[i].size, kinds[i].size, 1};
            return sunzheg_spaces(at + length);
        }
    if (length != 6 || strncmp(at, "string", 6) != 0)
        return NULL;
    char *end;
    long count = strtol(at + length, &end, 10);
    if (count < 1 || count > 1024)
        return NULL;
    *field = (struct sunzheg_field){(size_t)count, 1, 0};
    return sunzheg_spaces(end);
}

/* The fields of that shape, or NULL. */
static const char *sunzheg_shape(const char *subtype)
{
    size_t length = strlen(subtype);
    for (const char *at = sunzheg_spaces(TPSHAPES); *at; at = sunzheg_spaces(at)) {
        const char *colon = strchr(at, ':');
        if (colon == NULL)
            return NULL;
        if ((size_t)(colon - at) == length && strncmp(at, subtype, length) == 0)
            return colon + 1;
        at = strchr(colon, ';');
        if (at == NULL)
            return NULL;
        at++;
    }
    return NULL;
}

/*
 * Goes over the fields of a shape: copies them from the struct to the octets on the pipe, or the other way, or only counts.
 * Answers how many octets the pipe has, and how many the struct; 0 where a field is misread.
 */
static size_t sunzheg_convert(const char *at, char *memory, uint8_t *pipe, int to_pipe, size_t *in_memory)
{
    size_t here = 0, there = 0, alignment = 1;
    struct sunzheg_field field;
    do {
        at = sunzheg_take_field(at + (*at == ','), &field);
        if (at == NULL)
            return 0;
        here = (here + field.alignment - 1) / field.alignment * field.alignment;
        alignment = field.alignment > alignment ? field.alignment : alignment;
        for (size_t i = 0; memory != NULL && i < field.size; i++) {
            const union {
                uint16_t number;
                uint8_t octets[2];
            } order = {1};
            size_t place = field.is_number && order.octets[0] == 1 ? field.size - 1 - i : i;
            if (to_pipe)
                pipe[there + i] = (uint8_t)memory[here + place];
            else
                memory[here + place] = (char)pipe[there + i];
        }
        here += field.size;
        there += field.size;
    } while (*at == ',');
    *in_memory = (here + alignment - 1) / alignment * alignment;
    return *at == ';' || *at == '\0' ? there : 0;
}

/* Ends where TPSHAPES can't be read. */
static void sunzheg_read_shapes(void)
{
    for (const char *at = sunzheg_spaces(TPSHAPES); *at;) {
        const char *colon = strchr(at, ':');
        size_t in_memory;
        if (colon == NULL || sunzheg_convert(colon + 1, NULL, NULL, 0, &in_memory) == 0) {
            fprintf(stderr, "TPSHAPES is \"NAME: FIELD KIND, FIELD KIND; NAME: ..\", and not %.40s\n", at);
            exit(EXIT_FAILURE);
        }
        at = strchr(colon, ';');
        at = at == NULL ? "" : sunzheg_spaces(at + 1);
    }
}

/* ---- buffers */

static struct sunzheg_buffer *sunzheg_buffer_of(const char *data)
{
    struct sunzheg_buffer *buffer = sunzheg.buffers;
    while (buffer != NULL && data != (const char *)(buffer + 1))
        buffer = buffer->next;
    return buffer;
}

static char *sunzheg_new(int kind, const char *subtype, size_t length, size_t size)
{
    struct sunzheg_buffer *buffer = calloc(1, sizeof *buffer + size + 1);
    if (buffer == NULL) {
        tperrno = TPEOS;
        return NULL;
    }
    buffer->kind = kind;
    buffer->size = (long)size;
    memcpy(buffer->subtype, subtype, length);
    buffer->next = sunzheg.buffers;
    sunzheg.buffers = buffer;
    return (char *)(buffer + 1);
}

char *tpalloc(char *type, char *subtype, long size)
{
    int kind = SUNZHEG_NONE;
    if (type != NULL && strcmp(type, X_OCTET) == 0)
        kind = SUNZHEG_OCTET;
    else if (type != NULL && strcmp(type, X_C_TYPE) == 0)
        kind = SUNZHEG_TYPED;
    size_t length = kind == SUNZHEG_TYPED && subtype != NULL ? strlen(subtype) : 0;
    size_t least = 0;
    if (size < 0 || type == NULL || length > SUNZHEG_MAX_NAME || (kind == SUNZHEG_TYPED && length == 0)) {
        tperrno = TPEINVAL;
        return NULL;
    }
    if (kind == SUNZHEG_NONE) {
        tperrno = TPENOENT;
        return NULL;
    }
    if (length > 0 && sunzheg_shape(subtype) != NULL)
        sunzheg_convert(sunzheg_shape(subtype), NULL, NULL, 0, &least);
    return sunzheg_new(kind, subtype == NULL ? "" : subtype, length, (size_t)size < least ? least : (size_t)size);
}

/* Takes the buffer out of the list of all, where it is in it. */
static struct sunzheg_buffer *sunzheg_take_buffer(const char *data)
{
    struct sunzheg_buffer **at = &sunzheg.buffers;
    while (*at != NULL && data != (const char *)(*at + 1))
        at = &(*at)->next;
    struct sunzheg_buffer *found = *at;
    if (found != NULL)
        *at = found->next;
    return found;
}

char *tprealloc(char *ptr, long size)
{
    struct sunzheg_buffer *old = sunzheg_buffer_of(ptr);
    if (old == NULL || size < 0) {
        tperrno = TPEINVAL;
        return NULL;
    }
    char *data = tpalloc(old->kind == SUNZHEG_OCTET ? X_OCTET : X_C_TYPE, old->subtype, size);
    if (data != NULL) {
        long kept = sunzheg_buffer_of(data)->size;
        memcpy(data, ptr, (size_t)(old->size < kept ? old->size : kept));
        if (ptr == sunzheg.request)
            sunzheg.request = data;
        free(sunzheg_take_buffer(ptr));
    }
    return data;
}

void tpfree(char *ptr)
{
    if (ptr == sunzheg.request)
        sunzheg.request = NULL;
    free(sunzheg_take_buffer(ptr));
}

long tptypes(char *ptr, char *type, char *subtype)
{
    struct sunzheg_buffer *buffer = sunzheg_buffer_of(ptr);
    if (buffer == NULL) {
        tperrno = TPEINVAL;
        return -1;
    }
    if (type != NULL)
        memcpy(type, buffer->kind == SUNZHEG_OCTET ? X_OCTET "\0" : X_C_TYPE, 8);
    if (subtype != NULL)
        memcpy(subtype, buffer->subtype, strlen(buffer->subtype) + 1 < 16 ? strlen(buffer->subtype) + 1 : 16);
    return buffer->size;
}

/* ---- answers */

static void sunzheg_put(uint64_t number, size_t octets)
{
    for (size_t i = 0; i < octets; i++)
        sunzheg.answer[sunzheg.count++] = (uint8_t)(number >> 8 * (octets - 1 - i));
}

static void sunzheg_put_octets(const void *octets, size_t count)
{
    if (count > 0)
        memcpy(sunzheg.answer + sunzheg.count, octets, count);
    sunzheg.count += count;
}

static void sunzheg_put_word(const char *word, size_t length)
{
    sunzheg_put(length, 1);
    sunzheg_put_octets(word, length);
}

/* A header whose body's length is written as the frame is ended. */
static size_t sunzheg_begin(int kind, uint32_t tag)
{
    size_t place = sunzheg.count;
    sunzheg_put_octets("XA\1", 3);
    sunzheg_put((uint64_t)kind, 1);
    sunzheg_put(0, 4);
    sunzheg_put(tag, 4);
    return place;
}

static void sunzheg_end(size_t place)
{
    size_t length = sunzheg.count - place - SUNZHEG_HEADER;
    for (size_t i = 0; i < 4; i++)
        sunzheg.answer[place + 4 + i] = (uint8_t)(length >> (24 - 8 * i));
}

static void sunzheg_put_kind(const struct sunzheg_buffer *buffer)
{
    sunzheg_put((uint64_t)buffer->kind, 1);
    if (buffer->kind == SUNZHEG_TYPED)
        sunzheg_put_word(buffer->subtype, strlen(buffer->subtype));
}

/* Puts data behind what stands there; answers what is wrong with it, or NULL. */
static const char *sunzheg_put_data(char *data, long len)
{
    struct sunzheg_buffer *buffer = sunzheg_buffer_of(data);
    if (data == NULL) {
        sunzheg_put(SUNZHEG_NONE, 1);
        return NULL;
    }
    if (buffer == NULL)
        return "the data is no buffer of tpalloc";
    const char *fields = buffer->kind == SUNZHEG_TYPED ? sunzheg_shape(buffer->subtype) : NULL;
    if (fields == NULL && (len < 0 || len > buffer->size))
        return "the length is more than the buffer has";
    if (fields == NULL && len > SUNZHEG_MAX_DATA)
        return "data has at most 65,536 octets";
    sunzheg_put_kind(buffer);
    if (fields == NULL) {
        sunzheg_put((uint64_t)len, 4);
        sunzheg_put_octets(data, (size_t)len);
        return NULL;
    }
    size_t in_memory, count = sunzheg_convert(fields, NULL, NULL, 0, &in_memory);
    if (count > SUNZHEG_MAX_DATA)
        return "data has at most 65,536 octets";
    sunzheg_put(count, 4);
    sunzheg_convert(fields, data, sunzheg.answer + sunzheg.count, 1, &in_memory);
    sunzheg.count += count;
    return NULL;
}

/* Data of a subtype that no configuration can have: for it the caller is told TPESVCERR. */
static void sunzheg_put_error(const char *call, const char *why)
{
    fprintf(stderr, "service %s: %s: %s; its caller is told TPESVCERR\n", sunzheg.service, call, why);
    sunzheg.count = 0;
    sunzheg.exits = 0;
    size_t place = sunzheg_begin(SUNZHEG_RETURN, sunzheg.tag);
    sunzheg_put(1, 1);
    sunzheg_put(0, 4);
    sunzheg_put(SUNZHEG_TYPED, 1);
    sunzheg_put_word("~", 1);
    sunzheg_put(0, 4);
    sunzheg_end(place);
}

/* Leaves the service, with what is wrong with its answer, if anything. */
static void sunzheg_leave(const char *call, const char *why, size_t place, char *data)
{
    if (why != NULL)
        sunzheg_put_error(call, why);
    else
        sunzheg_end(place);
    if (data != sunzheg.request)
        tpfree(data);
    longjmp(sunzheg.back, 1);
}

static void sunzheg_stay(const char *call)
{
    if (sunzheg.service == NULL) {
        fprintf(stderr, "%s: no service is under way\n", call);
        exit(EXIT_FAILURE);
    }
}

void tpreturn(int rval, long rcode, char *data, long len, long flags)
{
    const char *why = NULL;
    sunzheg_stay("tpreturn");
    sunzheg.count = 0;
    sunzheg.exits = rval == TPEXIT;
    size_t place = sunzheg_begin(SUNZHEG_RETURN, sunzheg.tag);
    if (rval != TPSUCCESS && rval != TPFAIL && rval != TPEXIT)
        why = "the first argument is TPSUCCESS, TPFAIL or TPEXIT";
    else if (rcode != (long)(int32_t)rcode)
        why = "the code has more than 32 bits";
    else if (flags != 0)
        why = "flags are 0";
    sunzheg_put(rval == TPSUCCESS ? 0 : rval == TPFAIL ? 1 : 2, 1);
    sunzheg_put((uint64_t)rcode, 4);
    if (why == NULL)
        why = sunzheg_put_data(data, len);
    sunzheg_leave("tpreturn", why, place, data);
}

void tpforward(char *svc, char *data, long len, long flags)
{
    const char *why = NULL;
    size_t length = svc == NULL ? 0 : strlen(svc);
    sunzheg_stay("tpforward");
    sunzheg.count = 0;
    sunzheg.exits = 0;
    size_t place = sunzheg_begin(SUNZHEG_FORWARD, sunzheg.tag);
    if (svc == NULL || length > SUNZHEG_MAX_WORD)
        why = "a service is a text of at most 255 octets";
    else if (flags != 0)
        why = "flags are 0";
    if (why == NULL) {
        sunzheg_put_word(svc, length);
        why = sunzheg_put_data(data, len);
    }
    sunzheg_leave("tpforward", why, place, data);
}

/* ---- what comes, of which each octet is judged */

/* Reads so many octets, and answers how many came: fewer where the input ends. */
static size_t sunzheg_read(uint8_t *into, size_t count)
{
    size_t had = 0;
    while (had < count) {
        ssize_t n = read(sunzheg.input, into + had, count - had);
        if (n > 0)
            had += (size_t)n;
        else if (n == 0)
            break;
        else if (errno != EINTR)
            sunzheg_fail("a pipe from the monitor");
    }
    return had;
}

static void sunzheg_write(void)
{
    const uint8_t *from = sunzheg.answer;
    while (sunzheg.count > 0) {
        ssize_t n = write(sunzheg.output, from, sunzheg.count);
        if (n > 0) {
            from += n;
            sunzheg.count -= (size_t)n;
        } else if (n == 0 || errno != EINTR) {
            sunzheg_fail("a pipe to the monitor");
        }
    }
}

/* Takes so many octets off the front, where there are so many. */
static int sunzheg_take(struct sunzheg_octets *rest, size_t count, struct sunzheg_octets *taken)
{
    if (count > rest->count)
        return 0;
    *taken = (struct sunzheg_octets){rest->at, count};
    *rest = (struct sunzheg_octets){rest->at + count, rest->count - count};
    return 1;
}

static int sunzheg_take_number(struct sunzheg_octets *rest, size_t count, size_t *number)
{
    struct sunzheg_octets taken;
    if (!sunzheg_take(rest, count, &taken))
        return 0;
    *number = (size_t)sunzheg_number(taken.at, count);
    return 1;
}

/* Takes a name into a text with a 0 behind it. */
static int sunzheg_take_name(struct sunzheg_octets *rest, char name[SUNZHEG_MAX_NAME + 1])
{
    size_t length;
    struct sunzheg_octets taken;
    if (!sunzheg_take_number(rest, 1, &length) || length < 1 || length > SUNZHEG_MAX_NAME || !sunzheg_take(rest, length, &taken))
        return 0;
    for (size_t i = 0; i < length; i++)
        if (taken.at[i] < 0x21 || taken.at[i] > 0x7E)
            return 0;
    memcpy(name, taken.at, length);
    name[length] = '\0';
    return name[0] != '.';
}

/* Takes data into a buffer; none of it is there where it is misread, or where a shape has another size here. */
static int sunzheg_take_data(struct sunzheg_octets *rest, char **data, long *len, const char **why)
{
    size_t kind, length, in_memory = 0;
    char subtype[SUNZHEG_MAX_NAME + 1] = "";
    struct sunzheg_octets taken;
    *data = NULL;
    *len = 0;
    if (!sunzheg_take_number(rest, 1, &kind) || kind > SUNZHEG_TYPED)
        return 0;
    if (kind == SUNZHEG_NONE)
        return 1;
    if (kind == SUNZHEG_TYPED && !sunzheg_take_name(rest, subtype))
        return 0;
    if (!sunzheg_take_number(rest, 4, &length) || length > SUNZHEG_MAX_DATA || !sunzheg_take(rest, length, &taken))
        return 0;
    const char *fields = kind == SUNZHEG_TYPED ? sunzheg_shape(subtype) : NULL;
    if (fields != NULL && sunzheg_convert(fields, NULL, NULL, 0, &in_memory) != length) {
        *why = "the shape of its data has another size in TPSHAPES";
        return 1;
    }
    *len = (long)(fields != NULL ? in_memory : length);
    *data = sunzheg_new((int)kind, subtype, strlen(subtype), (size_t)*len);
    if (*data == NULL)
        *why = "there is no memory for its data";
    else if (fields != NULL) {
        uint8_t *from = sunzheg.body + (taken.at - sunzheg.body);
        sunzheg_convert(fields, *data, from, 0, &in_memory);
    } else if (length > 0)
        memcpy(*data, taken.at, length);
    return 1;
}

static void sunzheg_bad_frame(void)
{
    fprintf(stderr, "bad frame at %llu\n", (unsigned long long)sunzheg.place);
    exit(SUNZHEG_BAD_FRAME);
}

/* Reads the next frame, its body into sunzheg.body, and answers its kind; the server ends where its input does. */
static int sunzheg_next_frame(uint32_t *tag, size_t *length)
{
    uint8_t header[SUNZHEG_HEADER];
    size_t had = sunzheg_read(header, SUNZHEG_HEADER);
    if (had == 0)
        exit(EXIT_SUCCESS);
    if (had < SUNZHEG_HEADER || memcmp(header, "XA\1", 3) != 0)
        sunzheg_bad_frame();
    if (header[3] != SUNZHEG_INVOKE && header[3] != SUNZHEG_REPLY && header[3] != SUNZHEG_SHUTDOWN)
        sunzheg_bad_frame();
    *length = (size_t)sunzheg_number(header + 4, 4);
    *tag = (uint32_t)sunzheg_number(header + 8, 4);
    if (*length > SUNZHEG_MAX_BODY || sunzheg_read(sunzheg.body, *length) < *length)
        sunzheg_bad_frame();
    return header[3];
}

/* ---- calls that a service makes */

const char *tpstrerror(int err)
{
    for (size_t i = 0; i < SUNZHEG_ERRORS; i++)
        if (sunzheg_errors[i].number == err)
            return sunzheg_errors[i].name;
    return NULL;
}

static int sunzheg_refuse(int error)
{
    tperrno = error;
    return -1;
}

/* Takes the number of an error. */
static int sunzheg_take_error(struct sunzheg_octets *rest)
{
    size_t number;
    if (!sunzheg_take_number(rest, 1, &number) || number < 1 || number > SUNZHEG_ERRORS)
        sunzheg_bad_frame();
    return sunzheg_errors[number - 1].number;
}

/* Takes an answer, whose data goes where *odata is, and answers the error, or 0. */
static int sunzheg_take_answer(struct sunzheg_octets *rest, char **odata, long *olen)
{
    size_t descriptor, outcome = 0, code = 0;
    const char *why = NULL;
    char *data = NULL;
    long len = 0;
    if (!sunzheg_take_number(rest, 8, &descriptor) || descriptor != 0 || !sunzheg_take_number(rest, 1, &outcome) || outcome > 2)
        sunzheg_bad_frame();
    if (outcome == 2)
        return sunzheg_take_error(rest);
    tperrno = TPEOTYPE; /* Its shape has another size here; of want of memory sunzheg_new says TPEOS. */
    if (!sunzheg_take_number(rest, 4, &code) || !sunzheg_take_data(rest, &data, &len, &why))
        sunzheg_bad_frame();
    if (why != NULL)
        return tperrno;
    tpurcode = (int32_t)(uint32_t)code;
    *olen = len;
    if (data != NULL) {
        int is_request = *odata == sunzheg.request;
        tpfree(*odata);
        *odata = data;
        if (is_request)
            sunzheg.request = data;
    }
    return outcome == 0 ? 0 : TPESVCFAIL;
}

/* Makes the call of the OP that stands there, and reads what becomes of it; `wanted` is the REPLY that is no error. */
static int sunzheg_ask(size_t place, size_t wanted, char **odata, long *olen)
{
    uint32_t tag;
    size_t length, told;
    int error = 0;
    sunzheg_end(place);
    sunzheg_write();
    if (sunzheg_next_frame(&tag, &length) != SUNZHEG_REPLY || tag != sunzheg.tag)
        sunzheg_bad_frame();
    struct sunzheg_octets rest = {sunzheg.body, length};
    if (!sunzheg_take_number(&rest, 1, &told) || (told != SUNZHEG_ERROR && told != wanted))
        sunzheg_bad_frame();
    if (told == SUNZHEG_ERROR)
        error = sunzheg_take_error(&rest);
    else if (told == SUNZHEG_ANSWER)
        error = sunzheg_take_answer(&rest, odata, olen);
    if (rest.count != 0)
        sunzheg_bad_frame();
    sunzheg.place += SUNZHEG_HEADER + length;
    return error == 0 ? 0 : sunzheg_refuse(error);
}

int tpcall(const char *svc, char *idata, long ilen, char **odata, long *olen, long flags)
{
    long known = TPNOCHANGE, bits = 0;
    for (int i = 0; i < SUNZHEG_FLAGS; i++) {
        known |= sunzheg_flags[i];
        bits |= (flags & sunzheg_flags[i]) != 0 ? 1L << i : 0;
    }
    if (sunzheg.service == NULL)
        return sunzheg_refuse(TPEPROTO);
    if (svc == NULL || strlen(svc) > SUNZHEG_MAX_WORD || odata == NULL || olen == NULL || (flags & ~known) != 0)
        return sunzheg_refuse(TPEINVAL);
    struct sunzheg_buffer *expected = sunzheg_buffer_of(*odata);
    if (expected == NULL)
        return sunzheg_refuse(TPEINVAL);
    sunzheg.count = 0;
    size_t place = sunzheg_begin(SUNZHEG_OP, sunzheg.tag);
    sunzheg_put(SUNZHEG_TPCALL, 1);
    sunzheg_put((uint64_t)bits, 1);
    sunzheg_put_word(svc, strlen(svc));
    if (flags & TPNOCHANGE)
        sunzheg_put_kind(expected);
    else
        sunzheg_put(SUNZHEG_NONE, 1);
    if (sunzheg_put_data(idata, ilen) != NULL)
        return sunzheg_refuse(TPEINVAL);
    return sunzheg_ask(place, SUNZHEG_ANSWER, odata, olen);
}

int tpsprio(int prio, long flags)
{
    if (sunzheg.service == NULL)
        return sunzheg_refuse(TPEPROTO);
    if (flags != 0 && flags != TPABSOLUTE)
        return sunzheg_refuse(TPEINVAL);
    sunzheg.count = 0;
    size_t place = sunzheg_begin(SUNZHEG_OP, sunzheg.tag);
    sunzheg_put(SUNZHEG_TPSPRIO, 1);
    sunzheg_put(flags == TPABSOLUTE, 1);
    sunzheg_put((uint64_t)(int64_t)prio, 4);
    return sunzheg_ask(place, SUNZHEG_DONE, NULL, NULL);
}

/* The name of the routine that is that function, or NULL. */
static const char *sunzheg_name_of(void (*func)(TPSVCINFO *))
{
    for (size_t i = 0; i < sizeof sunzheg_services / sizeof sunzheg_services[0]; i++)
        if (sunzheg_services[i].service == func)
            return sunzheg_services[i].name;
    return NULL;
}

/* Makes a change of the board: the OP of that number with these words, of which the second may be wanting. */
static int sunzheg_change(size_t op, const char *svcname, const char *routine)
{
    if (svcname == NULL || strlen(svcname) > SUNZHEG_MAX_WORD)
        return sunzheg_refuse(TPEINVAL);
    sunzheg.count = 0;
    size_t place = sunzheg_begin(SUNZHEG_OP, sunzheg.tag);
    sunzheg_put(op, 1);
    sunzheg_put_word(svcname, strlen(svcname));
    if (routine != NULL)
        sunzheg_put_word(routine, strlen(routine));
    return sunzheg_ask(place, SUNZHEG_DONE, NULL, NULL);
}

int tpadvertise(const char *svcname, void (*func)(TPSVCINFO *))
{
    if (sunzheg.service == NULL)
        return sunzheg_refuse(TPEPROTO);
    const char *routine = sunzheg_name_of(func);
    return routine == NULL ? sunzheg_refuse(TPEINVAL) : sunzheg_change(SUNZHEG_TPADVERTISE, svcname, routine);
}

int tpunadvertise(const char *svcname)
{
    if (sunzheg.service == NULL)
        return sunzheg_refuse(TPEPROTO);
    return sunzheg_change(SUNZHEG_TPUNADVERTISE, svcname, NULL);
}

/* ---- the server */

/* Calls the service of that name, which leaves by tpreturn or tpforward. */
static void sunzheg_call(const char *routine, TPSVCINFO *info)
{
    for (size_t i = 0; i < sizeof sunzheg_services / sizeof sunzheg_services[0]; i++)
        if (strcmp(sunzheg_services[i].name, routine) == 0) {
            sunzheg_services[i].service(info);
            sunzheg_put_error("its end", "neither tpreturn nor tpforward was called");
            return;
        }
    tpreturn(TPFAIL, SUNZHEG_NO_ROUTINE, NULL, 0, 0);
}

static void sunzheg_serve(const char *routine, TPSVCINFO *info, const char *why)
{
    sunzheg.service = routine;
    sunzheg.exits = 0;
    if (why != NULL)
        sunzheg_put_error("its request", why);
    else if (setjmp(sunzheg.back) == 0)
        sunzheg_call(routine, info);
    sunzheg.service = NULL;
    tpfree(sunzheg.request);
}

/* Answers an INVOKE, where its body is one. */
static void sunzheg_invoke(size_t length)
{
    static const long flags[] = {0, TPNOREPLY, TPCONV | TPRECVONLY, TPCONV | TPSENDONLY};
    struct sunzheg_octets rest = {sunzheg.body, length};
    static char routine[SUNZHEG_MAX_NAME + 1];
    static TPSVCINFO info;
    const char *why = NULL;
    size_t mode;
    if (!sunzheg_take_name(&rest, info.name) || !sunzheg_take_name(&rest, routine))
        sunzheg_bad_frame();
    if (!sunzheg_take_number(&rest, 1, &mode) || mode > SUNZHEG_MAX_MODE)
        sunzheg_bad_frame();
    if (!sunzheg_take_data(&rest, &info.data, &info.len, &why) || rest.count != 0)
        sunzheg_bad_frame();
    sunzheg.place += SUNZHEG_HEADER + length;
    info.flags = flags[mode];
    info.cd = 0;
    sunzheg.request = info.data;
    sunzheg_serve(routine, &info, why);
    if (!sunzheg.exits)
        sunzheg_begin(SUNZHEG_NEXT, 0);
    sunzheg_write();
}

/* Serves until SHUTDOWN, the end of the input or TPEXIT, and answers the status. */
static int sunzheg_life(const char *name)
{
    uint32_t invocation = 0;
    size_t length, ready = sunzheg_begin(SUNZHEG_READY, 0);
    sunzheg_put_word(name, strlen(name));
    sunzheg_end(ready);
    sunzheg_begin(SUNZHEG_NEXT, 0);
    sunzheg_write();
    while (!sunzheg.exits) {
        uint32_t tag;
        int kind = sunzheg_next_frame(&tag, &length);
        if (kind == SUNZHEG_SHUTDOWN && length == 0 && tag == 0)
            return EXIT_SUCCESS;
        if (kind != SUNZHEG_INVOKE || tag != ++invocation)
            sunzheg_bad_frame();
        sunzheg.tag = tag;
        sunzheg_invoke(length);
    }
    return EXIT_SUCCESS;
}

/* Takes the pipes, so that no service writes to the one or reads from the other. */
static void sunzheg_take_pipes(void)
{
    int nothing = open("/dev/null", O_RDONLY);
    sunzheg.input = dup(STDIN_FILENO);
    sunzheg.output = dup(STDOUT_FILENO);
    if (sunzheg.input < 0 || sunzheg.output < 0 || nothing < 0)
        sunzheg_fail("the pipes to the monitor");
    fcntl(sunzheg.input, F_SETFD, FD_CLOEXEC);
    fcntl(sunzheg.output, F_SETFD, FD_CLOEXEC);
    dup2(nothing, STDIN_FILENO);
    dup2(STDERR_FILENO, STDOUT_FILENO);
    close(nothing);
    setvbuf(stdout, NULL, _IOLBF, BUFSIZ);
    signal(SIGPIPE, SIG_IGN); /* A write to a closed pipe fails then, as any other. */
}

int main(int count, char **words)
{
    if (count != 3 || strcmp(words[1], "server") != 0 || strlen(words[2]) < 1 || strlen(words[2]) > SUNZHEG_MAX_NAME) {
        fprintf(stderr, "usage: %s server NAME, as the monitor starts it\n", words[0]);
        return EXIT_FAILURE;
    }
    sunzheg_read_shapes();
    sunzheg_take_pipes();
    return sunzheg_life(words[2]);
}

#endif
#endif
