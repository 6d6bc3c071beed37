/*
 * Keeps accounts: the server of the queue BILLS, with the library examples/servers/sunzheg.h.
 *
 * CHARGE takes "ACCOUNT CENTS", and returns how many charges the account has. BILL takes "ACCOUNT", and returns a
 * structure `bill`, or TPFAIL with code 2 where there is no such account. CLOSE ends the month: it returns TPEXIT with
 * the number of accounts, and the server ends. The accounts are kept as long as this process runs.
 *
 *     cc -std=c11 -o examples/telephone/billing examples/telephone/billing.c
 */

#include <stdint.h>
#include <stdio.h>
#include <string.h>

#define TPSERVICES CHARGE, BILL, CLOSE
/* As in telephone.toml. */
#define TPSHAPES "bill: account string 16, charges int, cents long"
#include "../servers/sunzheg.h"

enum { MISREAD = 99, NO_ACCOUNT = 2, MOST_ACCOUNTS = 100, NAME = 16 };

struct bill {
    char account[NAME];
    int charges;
    int64_t cents;
};

static struct bill accounts[MOST_ACCOUNTS];
static int known;

/* Reads "ACCOUNT" or "ACCOUNT CENTS", and answers how many words were read. */
static int words_of(const TPSVCINFO *request, char name[NAME + 1], int64_t *cents)
{
    char text[64];
    if (request->data == NULL || request->len >= (long)sizeof text)
        return 0;
    memcpy(text, request->data, (size_t)request->len);
    text[request->len] = '\0';
    long read = 0;
    int count = sscanf(text, "%16s %9ld", name, &read);
    *cents = read;
    return count;
}

static struct bill *find(const char *name)
{
    for (int i = 0; i < known; i++)
        if (strncmp(accounts[i].account, name, NAME) == 0)
            return &accounts[i];
    return NULL;
}

static struct bill *find_or_open(const char *name)
{
    struct bill *found = find(name);
    if (found != NULL || known == MOST_ACCOUNTS)
        return found;
    memcpy(accounts[known].account, name, strlen(name));
    return &accounts[known++];
}

void CHARGE(TPSVCINFO *request)
{
    char name[NAME + 1];
    int64_t cents;
    struct bill *account = words_of(request, name, &cents) == 2 && cents >= 0 ? find_or_open(name) : NULL;
    if (account == NULL)
        tpreturn(TPFAIL, MISREAD, NULL, 0, 0);
    account->charges++;
    account->cents += cents;
    tpreturn(TPSUCCESS, account->charges, NULL, 0, 0);
}

void BILL(TPSVCINFO *request)
{
    char name[NAME + 1];
    int64_t cents;
    if (words_of(request, name, &cents) < 1)
        tpreturn(TPFAIL, MISREAD, NULL, 0, 0);
    struct bill *account = find(name);
    if (account == NULL)
        tpreturn(TPFAIL, NO_ACCOUNT, NULL, 0, 0);
    char *bill = tpalloc(X_C_TYPE, "bill", sizeof *account);
    if (bill == NULL)
        tpreturn(TPFAIL, MISREAD, NULL, 0, 0);
    memcpy(bill, account, sizeof *account);
    tpreturn(TPSUCCESS, 0, bill, 0, 0);
}

void CLOSE(TPSVCINFO *request)
{
    (void)request;
    tpreturn(TPEXIT, known, NULL, 0, 0);
}
