/* Fevstunik: the application exchange of Kerberos 5 (RFC 4120, section 3.2) with the encryption
 * types of RFC 8009, for C and C++.
 *
 * Each function of the library calls a proved function of this repository; crates/krb_c has their
 * contracts. (fevstunik_code_name and fevstunik_code_text are inline functions of this header.)
 * Link with `pkg-config --libs fevstunik`. The library calls malloc, free and memory functions of
 * the C library, and nothing else.
 *
 * What is proved of a call holds if its caller follows these rules. Otherwise nothing is promised:
 *  - A handle is empty (all zero) before its first use, as
 *    `fevstunik_acceptor handle = FEVSTUNIK_ACCEPTOR_INIT;` makes it.
 *  - A handle is never copied, and only these functions write to it. It may be moved in memory
 *    between calls, but not during one. After a move its old place is not used again. A program
 *    that uses a copy, or that lets a handle overlap a buffer, may free memory that is still in
 *    use.
 *  - Only one call at a time may use a handle. Each call with a handle may write to it, also if
 *    what it holds stays the same, so no call takes a handle as const. Put a lock around calls that
 *    share a handle. Any thread may make a call. Two handles share nothing, in one process or in
 *    two. After a fork, the child must not use its copies: no call reports it, and each process
 *    would accept the same request. A pointer to const is only read: any number of threads may pass
 *    the same bytes, times or options at once.
 *  - Pointers are valid. A pointer to bytes whose size is 0 isn't read: it may be NULL (this is
 *    tested, not proved), or point anywhere.
 *  - What a call writes to (its handle, its buffer, its other results) overlaps nothing else that
 *    the call is given.
 *  - A bool is 0 or 1. Sizes are at most PTRDIFF_MAX.
 *  - malloc and free belong to one allocator, which aligns memory as C requires.
 *  - A call has 24 KiB of stack. The library uses at most 16 KiB of it, and malloc and free the
 *    rest.
 * Never call a function of this library from a signal handler, or in the child of a process that
 * forked while it had several threads.
 *
 * The library keeps its state in handles only. It reads no clock and no random numbers, and has no
 * output but its results.
 *
 * A call overwrites memory before it frees it. Before it returns, it overwrites the stack below its
 * caller's frame and the registers that it may change. So keys are left in handles, and in what the
 * caller passes and is given, which the caller has to overwrite. No jump and no address of a call
 * depends on a key or a plain text, except on what the call is to find out, such as whether a tag
 * is right, and except in the build for every x86-64, which looks up tables by secret bytes. This
 * is tested, not proved. SECURITY.md has the exceptions, and what remains in memory.
 *
 * Arguments belong to the caller: no function keeps a pointer to them or frees them. The library
 * allocates what a handle holds, and the handle's function whose name ends in _free frees it. There
 * is nothing else to free. Files have at most 16,777,216 bytes, and requests, replies and errors at
 * most 1,048,576: anything longer is a fault. Other sizes are limited by memory alone, unless a
 * limit is named. If memory runs out, a call may return FEVSTUNIK_OUT_OF_MEMORY even if an argument
 * has a fault. Two kinds of faults are still returned: those that a call finds before it allocates
 * memory, and those of a keytab or a cache. (But fevstunik_keytab_add and fevstunik_keytab_remove
 * copy the file first. They may return FEVSTUNIK_OUT_OF_MEMORY for a file with a fault.)
 *
 * A function that returns bytes writes them to the start of the caller's buffer, and leaves the
 * rest of the buffer unchanged. If the buffer is too short, the code is FEVSTUNIK_SHORT_BUFFER,
 * `size` is the number of bytes needed, and the buffer is unchanged: make the call again with a
 * longer one. A buffer of size 0 asks for the number alone. fevstunik_request and
 * fevstunik_context_request keep what they made in the handle `pending` even then. Two calls have
 * decided even then, also with a buffer of size 0: after fevstunik_service_answer and
 * fevstunik_login_settle, call fevstunik_login_answer with a longer buffer, and never the same call
 * again.
 */
#ifndef FEVSTUNIK_H
#define FEVSTUNIK_H

#include <stdbool.h>
#include <stddef.h>
#include <stdint.h>

#ifdef __cplusplus
extern "C" {
#endif

/* ---- version ---- */

#define FEVSTUNIK_VERSION_MAJOR 0
#define FEVSTUNIK_VERSION_MINOR 2
#define FEVSTUNIK_VERSION_PATCH 0

/* Returns the version of the library that the program runs with: 10,000 times the major number,
 * plus 100 times the minor number, plus the patch number. The macros above have the version of this
 * header.
 *
 *     printf("%u\n", (unsigned)fevstunik_version());
 */
uint32_t fevstunik_version(void);

/* ---- codes ---- */

/* The codes that calls return. A number never changes its meaning. The gaps are for new codes:
 * treat a code that you don't know as a failure.
 */
typedef enum fevstunik_code {
    FEVSTUNIK_OK = 0,        /* success */
    FEVSTUNIK_GO_ON = 1,     /* the login goes on with the client's next token; send the bytes first */
    FEVSTUNIK_ASK_STORE = 2, /* the store of stamps decides whether the request is a repeat; ask it, then call fevstunik_login_settle */

    /* Why a request is refused. The causes are checked in this order, and the first that applies is
     * returned. A number before a text is the code of RFC 4120, section 7.5.9, which the answer has
     * in `kerberos`. */
    FEVSTUNIK_MESSAGE_TYPE = 100,            /* 40: the first byte isn't that of a request */
    FEVSTUNIK_MALFORMED = 110,               /* 60: the bytes aren't a request; `at` is the place of the fault */
    FEVSTUNIK_USER_TO_USER = 120,            /* 45: the option use-session-key is set */
    FEVSTUNIK_TICKET_ETYPE = 130,            /* 14: the ticket's encryption type isn't 19 or 20 */
    FEVSTUNIK_NOT_US = 140,                  /* 35: the ticket is for a service that isn't served here */
    FEVSTUNIK_NO_KEY = 150,                  /* 45: no key of the ticket's encryption type is usable */
    FEVSTUNIK_BAD_KEY_VERSION = 160,         /* 44: no key of the ticket's encryption type has its version number */
    FEVSTUNIK_TICKET_INTEGRITY = 170,        /* 31: the key doesn't open the ticket */
    FEVSTUNIK_SESSION_KEY = 180,             /* 14: the ticket's session key isn't usable */
    FEVSTUNIK_AUTHENTICATOR_INTEGRITY = 190, /* 31: the session key doesn't open the authenticator */
    FEVSTUNIK_BAD_MATCH = 200,               /* 36: the authenticator and the ticket name different clients */
    FEVSTUNIK_SKEW = 210,                    /* 37: the clocks differ by more than the skew */
    FEVSTUNIK_JUST_STARTED = 215,            /* 37: the service has just started */
    FEVSTUNIK_REPEAT = 220,                  /* 34: a request of this service, client and time was seen before */
    FEVSTUNIK_NOT_YET_VALID = 230,           /* 33: the ticket isn't valid yet, or is marked invalid */
    FEVSTUNIK_EXPIRED = 240,                 /* 32: the ticket has expired */
    FEVSTUNIK_TRANSITED = 250,               /* 60: the client is of another realm, and no KDC checked the realms between */
    FEVSTUNIK_AUTHORIZATION = 260,           /* 60: the request has authorization data that may not be ignored */

    /* Why fevstunik_service_answer doesn't let a client in though its request is accepted: the
     * first that applies. */
    FEVSTUNIK_ANONYMOUS_CLIENT = 280, /* 60: the client is anonymous */
    FEVSTUNIK_FOREIGN_REALM = 290,    /* 60: the client is of a realm that isn't let in */
    FEVSTUNIK_CHANNEL_BINDINGS = 300, /* 60: the channel bindings aren't those of the connection */

    /* Why fevstunik_login_settle doesn't let a client in, besides SKEW and REPEAT. */
    FEVSTUNIK_STORE_FAILED = 310, /* 60: the store of stamps doesn't answer */

    /* Why a client isn't let in whose negotiation names another mechanism before Kerberos, though
     * its request is accepted: it hasn't shown that it sent its list of mechanisms (RFC 4178,
     * section 5). */
    FEVSTUNIK_LIST_MIC_MISSING = 320,   /* the MIC of the client's list of mechanisms is missing */
    FEVSTUNIK_LIST_MIC_WRONG = 321,     /* the client's list of mechanisms or its MIC was changed */
    FEVSTUNIK_LIST_MIC_OTHER_KEY = 322, /* the MIC of the client's list of mechanisms is under another key */
    FEVSTUNIK_LIST_KEY_TYPE = 323,      /* the client's subkey isn't of type 19 or 20, so it can't protect its list of mechanisms */

    /* Codes that many calls may return. */
    FEVSTUNIK_OUT_OF_MEMORY = 400,  /* out of memory; malloc returned NULL */
    FEVSTUNIK_SHORT_BUFFER = 401,   /* the buffer is too short; `size` bytes are needed */
    FEVSTUNIK_EMPTY_HANDLE = 402,   /* the handle is empty */
    FEVSTUNIK_NOTHING_THERE = 403,  /* the handle has no accepted request, no refusal, or no such moment */
    FEVSTUNIK_TOO_LONG = 404,       /* a file, a request, an error, a token, a name, a key or bindings are longer than their limit */
    FEVSTUNIK_FULL = 405,           /* the service remembers as many requests as it may, of all clients or of this one; `limit` or `limit_for_client` is reached */
    FEVSTUNIK_BAD_SKEW = 410,       /* the skew is more than 86,400 seconds */
    FEVSTUNIK_BAD_MOMENT = 411,     /* the moment is outside the years 0000 to 9999, or has 1,000,000 microseconds or more */
    FEVSTUNIK_BAD_CONFOUNDER = 412, /* the confounder isn't 16 bytes long */
    FEVSTUNIK_KEY_TYPE = 413,       /* the key's encryption type isn't 19 or 20 */
    FEVSTUNIK_KEY_LENGTH = 414,     /* the key isn't 16 bytes long (type 19) or 32 (type 20) */
    FEVSTUNIK_NO_CODE = 415,        /* there is no error to send: memory ran out, or the code isn't that of a cause */
    FEVSTUNIK_BAD_OPTIONS = 416,    /* the options are those of another version of the library; `size` isn't that of the struct */
    FEVSTUNIK_NO_NAME = 417,        /* no name to serve is given; `any_name` isn't set either */
    FEVSTUNIK_NO_START = 418,       /* it isn't said how repeats are refused after a start; `restarts` isn't a fevstunik_restart */
    FEVSTUNIK_EARLY_START = 419,    /* the start is before the year 2020; `any_start` isn't set */
    FEVSTUNIK_BAD_BINDINGS = 420,   /* there is no such rule for channel bindings, or it has no bindings to compare with; `bindings` isn't a fevstunik_bindings, or the hash isn't 16 bytes, or is all zero */
    FEVSTUNIK_BAD_RANDOM = 421,     /* there are fewer or more random bytes than the service needs; 16, and those of its subkey */
    FEVSTUNIK_BAD_SAID = 422,       /* the number isn't one of what a store of stamps says; it isn't a fevstunik_said */
    FEVSTUNIK_NOT_WAITING = 423,    /* the login doesn't wait for a store of stamps */
    FEVSTUNIK_SHARED = 424,         /* the service shares a store of stamps, which this call doesn't ask; call fevstunik_service_answer */

    /* What is wrong with a file. */
    FEVSTUNIK_FILE_VERSION = 500,   /* the file doesn't begin with 05 02 (a keytab), or with 05 03 or 05 04 (a cache) */
    FEVSTUNIK_FILE_HEADER = 501,    /* the header of the cache is malformed */
    FEVSTUNIK_FILE_TRUNCATED = 502, /* the keytab ends within a record; `at` is the place of the record */
    FEVSTUNIK_FILE_BAD_ITEM = 503,  /* an entry of the keytab, or the cache's principal or a credential, is invalid; `at` is its place */
    FEVSTUNIK_NO_SUCH_ENTRY = 504,  /* the file or the request has no item of this index */

    /* Why no request is built. */
    FEVSTUNIK_NO_CREDENTIAL = 600,      /* the cache has no ticket of its default principal for the service */
    FEVSTUNIK_NO_USABLE_KEY = 601,      /* no ticket for the service has a usable session key */
    FEVSTUNIK_CREDENTIAL_EXPIRED = 602, /* no usable ticket for the service ends later than the moment */
    FEVSTUNIK_BAD_TICKET = 603,         /* the credential's ticket isn't a valid ticket */

    /* Why a reply is refused: the first that applies. */
    FEVSTUNIK_REPLY_TYPE = 700,      /* the first byte isn't that of a reply */
    FEVSTUNIK_REPLY_MALFORMED = 701, /* the bytes aren't a reply; `at` is the place of the fault */
    FEVSTUNIK_REPLY_INTEGRITY = 702, /* the session key doesn't open the reply */
    FEVSTUNIK_REPLY_MISMATCH = 703,  /* 46: the reply's time isn't the request's */
    FEVSTUNIK_ERROR_MALFORMED = 704, /* the bytes aren't a KRB-ERROR; `at` is the place of the fault */

    /* Why a text isn't opened or a tag isn't its checksum, and why a text isn't a name. */
    FEVSTUNIK_TEXT_SHORT = 800,     /* the text has fewer bytes than a sealed empty text: 32 (type 19) or 40 (type 20) */
    FEVSTUNIK_TEXT_INTEGRITY = 801, /* the tag is wrong */
    FEVSTUNIK_BAD_TEXT = 810,       /* the text isn't a valid name; `at` is the place of the fault */
    FEVSTUNIK_NO_REALM = 811,       /* the text has no unescaped `@` */
    FEVSTUNIK_NOT_UTF8 = 812,       /* the text isn't UTF-8 */

    /* Why bytes aren't a GSS-API token, or the checksum of a GSS-API client. */
    FEVSTUNIK_NOT_A_TOKEN = 900,        /* the first byte isn't that of a token */
    FEVSTUNIK_TOKEN_MALFORMED = 901,    /* the bytes aren't a token; `at` is the place of the fault */
    FEVSTUNIK_TOKEN_CONTINUES = 902,    /* the token continues a negotiation, and doesn't begin one */
    FEVSTUNIK_TOKEN_EMPTY = 903,        /* the negotiation has no token of Kerberos; `at` is the place of its mechanism */
    FEVSTUNIK_TOKEN_ID = 904,           /* the token of Kerberos holds a message of another kind; `at` is the place of its identifier */
    FEVSTUNIK_TOKEN_UNFRAMED = 905,     /* a request without a token around it, as clients of DCE style send it; `at` is its place */
    FEVSTUNIK_OTHER_MECHANISM = 910,    /* the mechanism isn't Kerberos; `at` is its place */
    FEVSTUNIK_NTLM = 911,               /* the mechanism is NTLM, not Kerberos; `at` is its place */
    FEVSTUNIK_IAKERB = 912,             /* the mechanism is IAKERB, not Kerberos; `at` is its place */
    FEVSTUNIK_NESTED_NEGOTIATION = 913, /* the mechanism is a nested negotiation, not Kerberos; `at` is its place */
    FEVSTUNIK_BAD_MECHANISM = 920,      /* the number isn't that of a mechanism */
    FEVSTUNIK_BAD_VERDICT = 921,        /* the numbers aren't those of a verdict */
    FEVSTUNIK_BAD_NEGOTIATION = 922,    /* the numbers aren't those of a negotiation */
    FEVSTUNIK_NEGOTIATION_OVER = 923,   /* the negotiation is over: it has taken a request, or refused a token */
    FEVSTUNIK_CONTEXT_TRUNCATED = 930,  /* the checksum of type 0x8003 is cut off */
    FEVSTUNIK_CONTEXT_BINDINGS = 931,   /* the length of the bindings in the checksum of type 0x8003 isn't 16 */
    FEVSTUNIK_CONTEXT_DELEGATION = 932, /* the delegation option in the checksum of type 0x8003 isn't 1 */

    /* Why a message after the login isn't taken or written. */
    FEVSTUNIK_MESSAGE_DEFECTIVE = 940, /* the bytes aren't a message of this kind */
    FEVSTUNIK_MESSAGE_DIRECTION = 941, /* the message was sent back: it is one of the side that reads it */
    FEVSTUNIK_MESSAGE_OTHER_KEY = 942, /* the message is under another key */
    FEVSTUNIK_MESSAGE_INTEGRITY = 943, /* the message or its text was changed */
    FEVSTUNIK_MESSAGE_GAP = 944,       /* messages before this one are missing */
    FEVSTUNIK_MESSAGE_REPEAT = 946,    /* the message was taken before */
    FEVSTUNIK_MESSAGE_OLD = 947,       /* the message is too old to know whether it was taken before */
    FEVSTUNIK_NUMBERS_USED_UP = 948,   /* the message with the last number was sent */
    FEVSTUNIK_BAD_ROLE = 949           /* the number isn't that of a side; `role` isn't a fevstunik_role */
} fevstunik_code;

/* Returns the name of a code, such as "FEVSTUNIK_REPEAT", or "FEVSTUNIK_UNKNOWN" if the number
 * isn't a code of this header.
 *
 *     printf("%s\n", fevstunik_code_name(answer.code));
 */
static inline const char *fevstunik_code_name(uint32_t code)
{
    switch (code) {
    case FEVSTUNIK_OK: return "FEVSTUNIK_OK";
    case FEVSTUNIK_GO_ON: return "FEVSTUNIK_GO_ON";
    case FEVSTUNIK_ASK_STORE: return "FEVSTUNIK_ASK_STORE";
    case FEVSTUNIK_MESSAGE_TYPE: return "FEVSTUNIK_MESSAGE_TYPE";
    case FEVSTUNIK_MALFORMED: return "FEVSTUNIK_MALFORMED";
    case FEVSTUNIK_USER_TO_USER: return "FEVSTUNIK_USER_TO_USER";
    case FEVSTUNIK_TICKET_ETYPE: return "FEVSTUNIK_TICKET_ETYPE";
    case FEVSTUNIK_NOT_US: return "FEVSTUNIK_NOT_US";
    case FEVSTUNIK_NO_KEY: return "FEVSTUNIK_NO_KEY";
    case FEVSTUNIK_BAD_KEY_VERSION: return "FEVSTUNIK_BAD_KEY_VERSION";
    case FEVSTUNIK_TICKET_INTEGRITY: return "FEVSTUNIK_TICKET_INTEGRITY";
    case FEVSTUNIK_SESSION_KEY: return "FEVSTUNIK_SESSION_KEY";
    case FEVSTUNIK_AUTHENTICATOR_INTEGRITY: return "FEVSTUNIK_AUTHENTICATOR_INTEGRITY";
    case FEVSTUNIK_BAD_MATCH: return "FEVSTUNIK_BAD_MATCH";
    case FEVSTUNIK_SKEW: return "FEVSTUNIK_SKEW";
    case FEVSTUNIK_JUST_STARTED: return "FEVSTUNIK_JUST_STARTED";
    case FEVSTUNIK_REPEAT: return "FEVSTUNIK_REPEAT";
    case FEVSTUNIK_NOT_YET_VALID: return "FEVSTUNIK_NOT_YET_VALID";
    case FEVSTUNIK_EXPIRED: return "FEVSTUNIK_EXPIRED";
    case FEVSTUNIK_TRANSITED: return "FEVSTUNIK_TRANSITED";
    case FEVSTUNIK_AUTHORIZATION: return "FEVSTUNIK_AUTHORIZATION";
    case FEVSTUNIK_ANONYMOUS_CLIENT: return "FEVSTUNIK_ANONYMOUS_CLIENT";
    case FEVSTUNIK_FOREIGN_REALM: return "FEVSTUNIK_FOREIGN_REALM";
    case FEVSTUNIK_CHANNEL_BINDINGS: return "FEVSTUNIK_CHANNEL_BINDINGS";
    case FEVSTUNIK_STORE_FAILED: return "FEVSTUNIK_STORE_FAILED";
    case FEVSTUNIK_LIST_MIC_MISSING: return "FEVSTUNIK_LIST_MIC_MISSING";
    case FEVSTUNIK_LIST_MIC_WRONG: return "FEVSTUNIK_LIST_MIC_WRONG";
    case FEVSTUNIK_LIST_MIC_OTHER_KEY: return "FEVSTUNIK_LIST_MIC_OTHER_KEY";
    case FEVSTUNIK_LIST_KEY_TYPE: return "FEVSTUNIK_LIST_KEY_TYPE";
    case FEVSTUNIK_OUT_OF_MEMORY: return "FEVSTUNIK_OUT_OF_MEMORY";
    case FEVSTUNIK_SHORT_BUFFER: return "FEVSTUNIK_SHORT_BUFFER";
    case FEVSTUNIK_EMPTY_HANDLE: return "FEVSTUNIK_EMPTY_HANDLE";
    case FEVSTUNIK_NOTHING_THERE: return "FEVSTUNIK_NOTHING_THERE";
    case FEVSTUNIK_TOO_LONG: return "FEVSTUNIK_TOO_LONG";
    case FEVSTUNIK_FULL: return "FEVSTUNIK_FULL";
    case FEVSTUNIK_BAD_SKEW: return "FEVSTUNIK_BAD_SKEW";
    case FEVSTUNIK_BAD_MOMENT: return "FEVSTUNIK_BAD_MOMENT";
    case FEVSTUNIK_BAD_CONFOUNDER: return "FEVSTUNIK_BAD_CONFOUNDER";
    case FEVSTUNIK_KEY_TYPE: return "FEVSTUNIK_KEY_TYPE";
    case FEVSTUNIK_KEY_LENGTH: return "FEVSTUNIK_KEY_LENGTH";
    case FEVSTUNIK_NO_CODE: return "FEVSTUNIK_NO_CODE";
    case FEVSTUNIK_BAD_OPTIONS: return "FEVSTUNIK_BAD_OPTIONS";
    case FEVSTUNIK_NO_NAME: return "FEVSTUNIK_NO_NAME";
    case FEVSTUNIK_NO_START: return "FEVSTUNIK_NO_START";
    case FEVSTUNIK_EARLY_START: return "FEVSTUNIK_EARLY_START";
    case FEVSTUNIK_BAD_BINDINGS: return "FEVSTUNIK_BAD_BINDINGS";
    case FEVSTUNIK_BAD_RANDOM: return "FEVSTUNIK_BAD_RANDOM";
    case FEVSTUNIK_BAD_SAID: return "FEVSTUNIK_BAD_SAID";
    case FEVSTUNIK_NOT_WAITING: return "FEVSTUNIK_NOT_WAITING";
    case FEVSTUNIK_SHARED: return "FEVSTUNIK_SHARED";
    case FEVSTUNIK_FILE_VERSION: return "FEVSTUNIK_FILE_VERSION";
    case FEVSTUNIK_FILE_HEADER: return "FEVSTUNIK_FILE_HEADER";
    case FEVSTUNIK_FILE_TRUNCATED: return "FEVSTUNIK_FILE_TRUNCATED";
    case FEVSTUNIK_FILE_BAD_ITEM: return "FEVSTUNIK_FILE_BAD_ITEM";
    case FEVSTUNIK_NO_SUCH_ENTRY: return "FEVSTUNIK_NO_SUCH_ENTRY";
    case FEVSTUNIK_NO_CREDENTIAL: return "FEVSTUNIK_NO_CREDENTIAL";
    case FEVSTUNIK_NO_USABLE_KEY: return "FEVSTUNIK_NO_USABLE_KEY";
    case FEVSTUNIK_CREDENTIAL_EXPIRED: return "FEVSTUNIK_CREDENTIAL_EXPIRED";
    case FEVSTUNIK_BAD_TICKET: return "FEVSTUNIK_BAD_TICKET";
    case FEVSTUNIK_REPLY_TYPE: return "FEVSTUNIK_REPLY_TYPE";
    case FEVSTUNIK_REPLY_MALFORMED: return "FEVSTUNIK_REPLY_MALFORMED";
    case FEVSTUNIK_REPLY_INTEGRITY: return "FEVSTUNIK_REPLY_INTEGRITY";
    case FEVSTUNIK_REPLY_MISMATCH: return "FEVSTUNIK_REPLY_MISMATCH";
    case FEVSTUNIK_ERROR_MALFORMED: return "FEVSTUNIK_ERROR_MALFORMED";
    case FEVSTUNIK_TEXT_SHORT: return "FEVSTUNIK_TEXT_SHORT";
    case FEVSTUNIK_TEXT_INTEGRITY: return "FEVSTUNIK_TEXT_INTEGRITY";
    case FEVSTUNIK_BAD_TEXT: return "FEVSTUNIK_BAD_TEXT";
    case FEVSTUNIK_NO_REALM: return "FEVSTUNIK_NO_REALM";
    case FEVSTUNIK_NOT_UTF8: return "FEVSTUNIK_NOT_UTF8";
    case FEVSTUNIK_NOT_A_TOKEN: return "FEVSTUNIK_NOT_A_TOKEN";
    case FEVSTUNIK_TOKEN_MALFORMED: return "FEVSTUNIK_TOKEN_MALFORMED";
    case FEVSTUNIK_TOKEN_CONTINUES: return "FEVSTUNIK_TOKEN_CONTINUES";
    case FEVSTUNIK_TOKEN_EMPTY: return "FEVSTUNIK_TOKEN_EMPTY";
    case FEVSTUNIK_TOKEN_ID: return "FEVSTUNIK_TOKEN_ID";
    case FEVSTUNIK_TOKEN_UNFRAMED: return "FEVSTUNIK_TOKEN_UNFRAMED";
    case FEVSTUNIK_OTHER_MECHANISM: return "FEVSTUNIK_OTHER_MECHANISM";
    case FEVSTUNIK_NTLM: return "FEVSTUNIK_NTLM";
    case FEVSTUNIK_IAKERB: return "FEVSTUNIK_IAKERB";
    case FEVSTUNIK_NESTED_NEGOTIATION: return "FEVSTUNIK_NESTED_NEGOTIATION";
    case FEVSTUNIK_BAD_MECHANISM: return "FEVSTUNIK_BAD_MECHANISM";
    case FEVSTUNIK_BAD_VERDICT: return "FEVSTUNIK_BAD_VERDICT";
    case FEVSTUNIK_BAD_NEGOTIATION: return "FEVSTUNIK_BAD_NEGOTIATION";
    case FEVSTUNIK_NEGOTIATION_OVER: return "FEVSTUNIK_NEGOTIATION_OVER";
    case FEVSTUNIK_CONTEXT_TRUNCATED: return "FEVSTUNIK_CONTEXT_TRUNCATED";
    case FEVSTUNIK_CONTEXT_BINDINGS: return "FEVSTUNIK_CONTEXT_BINDINGS";
    case FEVSTUNIK_CONTEXT_DELEGATION: return "FEVSTUNIK_CONTEXT_DELEGATION";
    case FEVSTUNIK_MESSAGE_DEFECTIVE: return "FEVSTUNIK_MESSAGE_DEFECTIVE";
    case FEVSTUNIK_MESSAGE_DIRECTION: return "FEVSTUNIK_MESSAGE_DIRECTION";
    case FEVSTUNIK_MESSAGE_OTHER_KEY: return "FEVSTUNIK_MESSAGE_OTHER_KEY";
    case FEVSTUNIK_MESSAGE_INTEGRITY: return "FEVSTUNIK_MESSAGE_INTEGRITY";
    case FEVSTUNIK_MESSAGE_GAP: return "FEVSTUNIK_MESSAGE_GAP";
    case FEVSTUNIK_MESSAGE_REPEAT: return "FEVSTUNIK_MESSAGE_REPEAT";
    case FEVSTUNIK_MESSAGE_OLD: return "FEVSTUNIK_MESSAGE_OLD";
    case FEVSTUNIK_NUMBERS_USED_UP: return "FEVSTUNIK_NUMBERS_USED_UP";
    case FEVSTUNIK_BAD_ROLE: return "FEVSTUNIK_BAD_ROLE";
    default: return "FEVSTUNIK_UNKNOWN";
    }
}

/* Returns the meaning of a code, such as "a request of this service, client and time was seen
 * before", or "an unknown code" if the number isn't a code of this header.
 *
 *     fprintf(stderr, "%s\n", fevstunik_code_text(answer.code));
 */
static inline const char *fevstunik_code_text(uint32_t code)
{
    switch (code) {
    case FEVSTUNIK_OK: return "success";
    case FEVSTUNIK_GO_ON: return "the login goes on with the client's next token";
    case FEVSTUNIK_ASK_STORE: return "the store of stamps decides whether the request is a repeat";
    case FEVSTUNIK_MESSAGE_TYPE: return "the first byte isn't that of a request";
    case FEVSTUNIK_MALFORMED: return "the bytes aren't a request";
    case FEVSTUNIK_USER_TO_USER: return "the option use-session-key is set";
    case FEVSTUNIK_TICKET_ETYPE: return "the ticket's encryption type isn't 19 or 20";
    case FEVSTUNIK_NOT_US: return "the ticket is for a service that isn't served here";
    case FEVSTUNIK_NO_KEY: return "no key of the ticket's encryption type is usable";
    case FEVSTUNIK_BAD_KEY_VERSION: return "no key of the ticket's encryption type has its version number";
    case FEVSTUNIK_TICKET_INTEGRITY: return "the key doesn't open the ticket";
    case FEVSTUNIK_SESSION_KEY: return "the ticket's session key isn't usable";
    case FEVSTUNIK_AUTHENTICATOR_INTEGRITY: return "the session key doesn't open the authenticator";
    case FEVSTUNIK_BAD_MATCH: return "the authenticator and the ticket name different clients";
    case FEVSTUNIK_SKEW: return "the clocks differ by more than the skew";
    case FEVSTUNIK_JUST_STARTED: return "the service has just started";
    case FEVSTUNIK_REPEAT: return "a request of this service, client and time was seen before";
    case FEVSTUNIK_NOT_YET_VALID: return "the ticket isn't valid yet, or is marked invalid";
    case FEVSTUNIK_EXPIRED: return "the ticket has expired";
    case FEVSTUNIK_TRANSITED: return "the client is of another realm, and no KDC checked the realms between";
    case FEVSTUNIK_AUTHORIZATION: return "the request has authorization data that may not be ignored";
    case FEVSTUNIK_ANONYMOUS_CLIENT: return "the client is anonymous";
    case FEVSTUNIK_FOREIGN_REALM: return "the client is of a realm that isn't let in";
    case FEVSTUNIK_CHANNEL_BINDINGS: return "the channel bindings aren't those of the connection";
    case FEVSTUNIK_STORE_FAILED: return "the store of stamps doesn't answer";
    case FEVSTUNIK_LIST_MIC_MISSING: return "the MIC of the client's list of mechanisms is missing";
    case FEVSTUNIK_LIST_MIC_WRONG: return "the client's list of mechanisms or its MIC was changed";
    case FEVSTUNIK_LIST_MIC_OTHER_KEY: return "the MIC of the client's list of mechanisms is under another key";
    case FEVSTUNIK_LIST_KEY_TYPE: return "the client's subkey isn't of type 19 or 20, so it can't protect its list of mechanisms";
    case FEVSTUNIK_OUT_OF_MEMORY: return "out of memory";
    case FEVSTUNIK_SHORT_BUFFER: return "the buffer is too short";
    case FEVSTUNIK_EMPTY_HANDLE: return "the handle is empty";
    case FEVSTUNIK_NOTHING_THERE: return "the handle has no accepted request, no refusal, or no such moment";
    case FEVSTUNIK_TOO_LONG: return "a file, a request, an error, a token, a name, a key or bindings are longer than their limit";
    case FEVSTUNIK_FULL: return "the service remembers as many requests as it may, of all clients or of this one";
    case FEVSTUNIK_BAD_SKEW: return "the skew is more than 86,400 seconds";
    case FEVSTUNIK_BAD_MOMENT: return "the moment is outside the years 0000 to 9999, or has 1,000,000 microseconds or more";
    case FEVSTUNIK_BAD_CONFOUNDER: return "the confounder isn't 16 bytes long";
    case FEVSTUNIK_KEY_TYPE: return "the key's encryption type isn't 19 or 20";
    case FEVSTUNIK_KEY_LENGTH: return "the key isn't 16 bytes long (type 19) or 32 (type 20)";
    case FEVSTUNIK_NO_CODE: return "there is no error to send: memory ran out, or the code isn't that of a cause";
    case FEVSTUNIK_BAD_OPTIONS: return "the options are those of another version of the library";
    case FEVSTUNIK_NO_NAME: return "no name to serve is given";
    case FEVSTUNIK_NO_START: return "it isn't said how repeats are refused after a start";
    case FEVSTUNIK_EARLY_START: return "the start is before the year 2020";
    case FEVSTUNIK_BAD_BINDINGS: return "there is no such rule for channel bindings, or it has no bindings to compare with";
    case FEVSTUNIK_BAD_RANDOM: return "there are fewer or more random bytes than the service needs";
    case FEVSTUNIK_BAD_SAID: return "the number isn't one of what a store of stamps says";
    case FEVSTUNIK_NOT_WAITING: return "the login doesn't wait for a store of stamps";
    case FEVSTUNIK_SHARED: return "the service shares a store of stamps, which this call doesn't ask";
    case FEVSTUNIK_FILE_VERSION: return "the file doesn't begin with 05 02 (a keytab), or with 05 03 or 05 04 (a cache)";
    case FEVSTUNIK_FILE_HEADER: return "the header of the cache is malformed";
    case FEVSTUNIK_FILE_TRUNCATED: return "the keytab ends within a record";
    case FEVSTUNIK_FILE_BAD_ITEM: return "an entry of the keytab, or the cache's principal or a credential, is invalid";
    case FEVSTUNIK_NO_SUCH_ENTRY: return "the file or the request has no item of this index";
    case FEVSTUNIK_NO_CREDENTIAL: return "the cache has no ticket of its default principal for the service";
    case FEVSTUNIK_NO_USABLE_KEY: return "no ticket for the service has a usable session key";
    case FEVSTUNIK_CREDENTIAL_EXPIRED: return "no usable ticket for the service ends later than the moment";
    case FEVSTUNIK_BAD_TICKET: return "the credential's ticket isn't a valid ticket";
    case FEVSTUNIK_REPLY_TYPE: return "the first byte isn't that of a reply";
    case FEVSTUNIK_REPLY_MALFORMED: return "the bytes aren't a reply";
    case FEVSTUNIK_REPLY_INTEGRITY: return "the session key doesn't open the reply";
    case FEVSTUNIK_REPLY_MISMATCH: return "the reply's time isn't the request's";
    case FEVSTUNIK_ERROR_MALFORMED: return "the bytes aren't a KRB-ERROR";
    case FEVSTUNIK_TEXT_SHORT: return "the text has fewer bytes than a sealed empty text: 32 (type 19) or 40 (type 20)";
    case FEVSTUNIK_TEXT_INTEGRITY: return "the tag is wrong";
    case FEVSTUNIK_BAD_TEXT: return "the text isn't a valid name";
    case FEVSTUNIK_NO_REALM: return "the text has no unescaped `@`";
    case FEVSTUNIK_NOT_UTF8: return "the text isn't UTF-8";
    case FEVSTUNIK_NOT_A_TOKEN: return "the first byte isn't that of a token";
    case FEVSTUNIK_TOKEN_MALFORMED: return "the bytes aren't a token";
    case FEVSTUNIK_TOKEN_CONTINUES: return "the token continues a negotiation, and doesn't begin one";
    case FEVSTUNIK_TOKEN_EMPTY: return "the negotiation has no token of Kerberos";
    case FEVSTUNIK_TOKEN_ID: return "the token of Kerberos holds a message of another kind";
    case FEVSTUNIK_TOKEN_UNFRAMED: return "a request without a token around it, as clients of DCE style send it";
    case FEVSTUNIK_OTHER_MECHANISM: return "the mechanism isn't Kerberos";
    case FEVSTUNIK_NTLM: return "the mechanism is NTLM, not Kerberos";
    case FEVSTUNIK_IAKERB: return "the mechanism is IAKERB, not Kerberos";
    case FEVSTUNIK_NESTED_NEGOTIATION: return "the mechanism is a nested negotiation, not Kerberos";
    case FEVSTUNIK_BAD_MECHANISM: return "the number isn't that of a mechanism";
    case FEVSTUNIK_BAD_VERDICT: return "the numbers aren't those of a verdict";
    case FEVSTUNIK_BAD_NEGOTIATION: return "the numbers aren't those of a negotiation";
    case FEVSTUNIK_NEGOTIATION_OVER: return "the negotiation is over: it has taken a request, or refused a token";
    case FEVSTUNIK_CONTEXT_TRUNCATED: return "the checksum of type 0x8003 is cut off";
    case FEVSTUNIK_CONTEXT_BINDINGS: return "the length of the bindings in the checksum of type 0x8003 isn't 16";
    case FEVSTUNIK_CONTEXT_DELEGATION: return "the delegation option in the checksum of type 0x8003 isn't 1";
    case FEVSTUNIK_MESSAGE_DEFECTIVE: return "the bytes aren't a message of this kind";
    case FEVSTUNIK_MESSAGE_DIRECTION: return "the message was sent back: it is one of the side that reads it";
    case FEVSTUNIK_MESSAGE_OTHER_KEY: return "the message is under another key";
    case FEVSTUNIK_MESSAGE_INTEGRITY: return "the message or its text was changed";
    case FEVSTUNIK_MESSAGE_GAP: return "messages before this one are missing";
    case FEVSTUNIK_MESSAGE_REPEAT: return "the message was taken before";
    case FEVSTUNIK_MESSAGE_OLD: return "the message is too old to know whether it was taken before";
    case FEVSTUNIK_NUMBERS_USED_UP: return "the message with the last number was sent";
    case FEVSTUNIK_BAD_ROLE: return "the number isn't that of a side";
    default: return "an unknown code";
    }
}

/* ---- arguments and results ---- */

/* A struct never gains a field, but for fevstunik_acceptor_options, which begins with its size. New
 * results get functions of their own.
 */

/* The answer of a call. Numbers that don't belong to the code are 0. */
typedef struct fevstunik_answer {
    uint32_t code;    /* a fevstunik_code */
    int32_t kerberos; /* the error code of RFC 4120, section 7.5.9, or 0 if the code has none (0 isn't success) */
    size_t at;        /* the place of a fault, in bytes from the start of the argument */
    size_t size;      /* the number of bytes that were written, or are needed */
} fevstunik_answer;

/* A moment: whole seconds since 1970-01-01T00:00:00Z, without leap seconds, and the microseconds
 * after them.
 */
typedef struct fevstunik_time {
    int64_t seconds; /* -62,167,219,200 to 253,402,300,799 */
    uint32_t micros; /* 0 to 999,999 */
} fevstunik_time;

/* A place in the buffer. */
typedef struct fevstunik_span {
    size_t at;   /* where it begins, in bytes */
    size_t size; /* how many bytes it has */
} fevstunik_span;

/* What is known of an accepted request. The spans are places in the buffer of the call. */
typedef struct fevstunik_known {
    fevstunik_span client;      /* the client as text, such as alice@EX, without a zero byte at its end */
    fevstunik_span session_key; /* the key that client and service share: 16 or 32 bytes */
    fevstunik_span subkey;      /* the key that the client chose, if any; it may have any length */
    fevstunik_span service;     /* the service that was asked for, as text, such as host/web@EX */
    int64_t authtime;           /* when the client was authenticated, in seconds */
    int64_t endtime;            /* when the ticket expires, in seconds */
    int64_t ctime;              /* the client's time, in seconds */
    uint32_t cusec;             /* and the microseconds after them */
    uint32_t flags;             /* the ticket's flags; bit 0 of RFC 4120 is the most significant */
    uint32_t seq;               /* the client's first sequence number, or 0 */
    int32_t name_type;          /* the type of the client's name */
    int32_t service_type;       /* the type of the service's name, as the ticket has it */
    int32_t session_type;       /* the encryption type of the session key: 19 or 20 */
    int32_t subkey_type;        /* the encryption type of the client's subkey, or 0; any type */
    bool has_subkey;            /* whether the client chose a subkey */
    bool has_seq;               /* whether it chose a sequence number */
    bool wants_reply;           /* whether it asks for a reply */
} fevstunik_known;

/* The lists of an accepted request. A number never changes its meaning. If you don't know an item's
 * type, do what RFC 4120 says for that list.
 */
typedef enum fevstunik_list {
    FEVSTUNIK_LIST_ADDRESSES = 1,                   /* the ticket's addresses, which were compared with nothing */
    FEVSTUNIK_LIST_TICKET_AUTHORIZATION = 2,        /* the ticket's authorization data; each item is of type 1 (AD-IF-RELEVANT) */
    FEVSTUNIK_LIST_AUTHENTICATOR_AUTHORIZATION = 3, /* the authenticator's, likewise */
    FEVSTUNIK_LIST_CHECKSUM = 4,                    /* the authenticator's checksum, a list of one; it wasn't verified */
    FEVSTUNIK_LIST_TRANSITED = 5                    /* the realms that the ticket passed through, as it encodes them, a list of one; they weren't checked */
} fevstunik_list;

/* What a client and a service agreed on. The spans are places in the buffer of the call. */
typedef struct fevstunik_agreement {
    fevstunik_span client;         /* the client as text */
    fevstunik_span session_key;    /* the key that client and service share: 16 or 32 bytes */
    fevstunik_span service_subkey; /* the key that the service chose, if any; it may have any length */
    uint32_t service_seq;          /* the service's first sequence number, or 0 */
    int32_t name_type;             /* the type of the client's name */
    int32_t session_type;          /* the encryption type of the session key: 19 or 20 */
    int32_t service_subkey_type;   /* the encryption type of the service's subkey, or 0; any type */
    bool has_service_subkey;       /* whether the service chose a subkey */
    bool has_service_seq;          /* whether it chose a sequence number */
} fevstunik_agreement;

/* What a side chooses for its message. */
typedef struct fevstunik_choice {
    int32_t subkey_type; /* the encryption type of its subkey: 19, 20, or 0 for no subkey */
    uint32_t seq;        /* its first sequence number */
    bool has_seq;        /* whether it sends the number */
    bool wants_reply;    /* whether a client asks for a reply; a service ignores it */
} fevstunik_choice;

/* An entry of a keytab. The spans are places in the buffer of the call. */
typedef struct fevstunik_key_entry {
    fevstunik_span name; /* whose key it is, as text */
    fevstunik_span key;  /* the key's bytes, up to 65,535 */
    uint32_t timestamp;  /* when the entry was written, in seconds */
    uint32_t kvno;       /* the key's version number */
    int32_t name_type;   /* the type of the name */
    int16_t key_type;    /* the encryption type of the key; any type */
} fevstunik_key_entry;

/* What an added entry has besides its name and its key. */
typedef struct fevstunik_key_parts {
    uint32_t timestamp; /* when the entry is written, in seconds */
    uint32_t kvno;      /* the key's version number */
    int32_t name_type;  /* the type of the name */
    int16_t key_type;   /* the encryption type of the key */
} fevstunik_key_parts;

/* A credential of a cache. The spans are places in the buffer of the call. */
typedef struct fevstunik_cache_entry {
    fevstunik_span client; /* whose ticket it is, as text */
    fevstunik_span server; /* the ticket's service, as text; that of a configuration entry ends with `@X-CACHECONF:` */
    fevstunik_span key;    /* the session key */
    fevstunik_span ticket; /* the bytes of the ticket, or the value of a configuration entry */
    uint32_t authtime;     /* when the client was authenticated, in seconds */
    uint32_t starttime;    /* when the ticket becomes valid, in seconds, or 0 */
    uint32_t endtime;      /* when it expires, in seconds */
    uint32_t renew_till;   /* the end of the time in which it can be renewed, in seconds, or 0 */
    uint32_t flags;        /* the ticket's flags; bit 0 of RFC 4120 is the most significant */
    int32_t client_type;   /* the type of the client's name */
    int32_t server_type;   /* the type of the service's name */
    int16_t key_type;      /* the encryption type of the session key; any type */
    bool is_skey;          /* whether the ticket is sealed under another ticket's session key */
} fevstunik_cache_entry;

/* The owner of a cache, and the offset of its KDC's clock. The span is a place in the buffer of the
 * call.
 */
typedef struct fevstunik_owner {
    fevstunik_span name;    /* the default principal, as text */
    int32_t name_type;      /* the type of its name */
    int32_t offset_seconds; /* the KDC's clock offset in seconds, or 0 */
    int32_t offset_micros;  /* and the microseconds after them */
    bool has_offset;        /* whether the cache has an offset */
} fevstunik_owner;

/* The object identifiers by which GSS-API tokens name Kerberos. */
typedef enum fevstunik_mechanism {
    FEVSTUNIK_MECHANISM_NONE = 0,     /* no name */
    FEVSTUNIK_MECHANISM_KERBEROS = 1, /* 1.2.840.113554.1.2.2 (RFC 4121) */
    FEVSTUNIK_MECHANISM_WINDOWS = 2,  /* 1.2.840.48018.1.2.2, which Windows clients name first */
    FEVSTUNIK_MECHANISM_DRAFT = 3,    /* 1.3.5.1.5.2, which implementations of the drafts before RFC 1964 use */
    FEVSTUNIK_MECHANISM_NAMED = 100   /* the one that an earlier answer of the negotiation named */
} fevstunik_mechanism;

/* What a request, and the answer to it, is wrapped in. */
typedef struct fevstunik_wrapped {
    uint32_t mechanism;  /* the mechanism by which the token names Kerberos: KERBEROS, WINDOWS or DRAFT */
    uint32_t negotiated; /* the mechanism that a negotiation (SPNEGO) names first; NONE if there is no negotiation; NAMED in a later token */
} fevstunik_wrapped;

/* The service's side of a negotiation: all zero before its first token. */
typedef struct fevstunik_negotiation {
    uint32_t stage; /* 0 before the first token, 1 if the client was asked for its token, 2 if it is over */
    uint32_t asked; /* in stage 1: the mechanism that the client named first; else NONE */
} fevstunik_negotiation;

/* What an answer without a token says. */
typedef enum fevstunik_says {
    FEVSTUNIK_SAYS_COMPLETED = 1,  /* the client is accepted, and no reply is wanted (accept-completed) */
    FEVSTUNIK_SAYS_INCOMPLETE = 2, /* the client is to send its token (accept-incomplete) */
    FEVSTUNIK_SAYS_REJECTED = 3    /* the client is refused (reject) */
} fevstunik_says;

/* What a service says in a negotiation without a token of Kerberos. */
typedef struct fevstunik_verdict {
    uint32_t says;      /* a fevstunik_says */
    uint32_t mechanism; /* the mechanism that it names. COMPLETED names the negotiation's first one in the first answer to a client, and none later. INCOMPLETE names one, and REJECTED none: NONE */
} fevstunik_verdict;

/* What a KRB-ERROR says (RFC 4120, section 5.9.1). The spans are places in the buffer of the call.
 */
typedef struct fevstunik_krb_error {
    fevstunik_span service; /* the service as text, such as host/web@EX */
    fevstunik_span client;  /* the client as text, if the error has its name and realm */
    fevstunik_span text;    /* a text for people, if any */
    fevstunik_span data;    /* more about the error, if any */
    fevstunik_time stime;   /* the service's time */
    fevstunik_time ctime;   /* the client's time in the request, if any: the seconds, and the microseconds or 0 */
    int32_t code;           /* what went wrong (RFC 4120, section 7.5.9) */
    int32_t service_type;   /* the type of the service's name */
    bool has_client;        /* whether there is a client */
    bool has_text;          /* whether there is a text */
    bool has_data;          /* whether there are data */
    bool has_ctime;         /* whether there is the client's time */
} fevstunik_krb_error;

/* What a GSS-API client asks for. The spans are places in the buffer that the call was given. */
typedef struct fevstunik_context {
    fevstunik_span bindings;   /* the MD5 hash of the channel's bindings: 16 bytes, zeros if there are none */
    fevstunik_span delegation; /* the credentials that it delegates, a KRB-CRED, if any */
    fevstunik_span extensions; /* what is after these, which isn't looked at */
    uint32_t flags;            /* 1 delegation, 2 mutual, 4 replay, 8 sequence, 16 confidentiality, 32 integrity */
    bool has_delegation;       /* whether it delegates credentials */
} fevstunik_context;

/* What a GSS-API client asks for when it builds a request. */
typedef struct fevstunik_context_choice {
    uint32_t flags;       /* 4 replay, 8 sequence, 16 confidentiality, 32 integrity; 1 (delegation) and 2 (mutual) don't count */
    uint8_t bindings[16]; /* the MD5 hash of the channel's bindings (RFC 4121, section 4.1.1.2), or zeros if there are none */
} fevstunik_context_choice;

/* How a service refuses requests that it accepted before it was started. A number never changes its
 * meaning. There is no default: 0 is refused.
 */
typedef enum fevstunik_restart {
    FEVSTUNIK_RESTART_STARTED = 1,    /* by the moment of the start: it refuses requests from before it */
    FEVSTUNIK_RESTART_FIRST_LIFE = 2, /* there are none: no service has used any key of the keytab before, or a store of stamps has lost nothing */
    FEVSTUNIK_RESTART_SHARED = 3      /* by a store of stamps, which is asked before a client is let in, and by the moment from which it remembers */
} fevstunik_restart;

/* What a store said of the stamp of a login that waits for it. A number never changes its meaning.
 * There is no default: 0 is refused.
 */
typedef enum fevstunik_said {
    FEVSTUNIK_SAID_NEW = 1,   /* it hadn't got the stamp, and has it now */
    FEVSTUNIK_SAID_KNOWN = 2, /* it has had the stamp before */
    FEVSTUNIK_SAID_FAILED = 3 /* it didn't answer, or not in time, or can't keep the stamp */
} fevstunik_said;

/* What fevstunik_service_answer does with a client's channel bindings. A number never changes its
 * meaning.
 */
typedef enum fevstunik_bindings {
    FEVSTUNIK_BINDINGS_IGNORED = 0, /* it doesn't look at them */
    FEVSTUNIK_BINDINGS_IF_SENT = 1, /* a client that sends bindings must send those of the options */
    FEVSTUNIK_BINDINGS_REQUIRED = 2 /* each client must send those of the options */
} fevstunik_bindings;

/* What a service is made with. The fields after `limit_for_client` count for
 * fevstunik_service_answer alone. A size of 56, that of a struct without them, is valid too: they
 * are 0 then.
 */
typedef struct fevstunik_acceptor_options {
    size_t size;               /* sizeof (fevstunik_acceptor_options) */
    fevstunik_time started;    /* with _RESTART_STARTED: the service's clock at this start; with _RESTART_SHARED: from when on the store remembers, and later by the difference of the skews if another service of these keys has a larger one, or had */
    uint32_t skew;             /* by how many seconds clocks may differ: up to 86,400; 300 is usual */
    uint32_t restarts;         /* a fevstunik_restart */
    bool any_name;             /* whether each name of the keytab is served if no name is given */
    bool any_start;            /* whether a start before the year 2020 is meant */
    size_t limit;              /* the most requests that it remembers; 0 stands for 1,000,000 */
    size_t limit_for_client;   /* the most of one client; 0 stands for a tenth of the limit, but at least 1 */
    uint32_t bindings;         /* a fevstunik_bindings */
    uint32_t subkey_type;      /* the encryption type of the subkey that a reply sends: 19, 20, or 0 for no subkey */
    uint8_t bindings_hash[16]; /* the MD5 hash of the channel's bindings (RFC 4121, section 4.1.1.2); not all zero, unless they are ignored */
    bool anonymous;            /* whether anonymous clients are let in (RFC 8062) */
    bool only_realms;          /* whether only clients of the realms that fevstunik_acceptor_add_realm adds are let in */
} fevstunik_acceptor_options;

/* What a request asks for. Nothing of it is sealed, so it proves nothing. The span is a place in
 * the buffer of the call.
 */
typedef struct fevstunik_asked {
    fevstunik_span service; /* the service that its ticket is for, as text, such as host/web@EX */
    int32_t etype;          /* the encryption type that the ticket is sealed with */
    uint32_t kvno;          /* the version number of the key that it is sealed with, or 0 */
    int32_t service_type;   /* the type of the service's name */
    bool has_kvno;          /* whether the ticket has a version number */
    bool wants_reply;       /* whether the client asks for a reply */
} fevstunik_asked;

/* What a service remembers, and how much it may. */
typedef struct fevstunik_usage {
    size_t remembered;       /* how many requests are remembered */
    size_t held;             /* the same, with those that are forgotten and aren't freed yet */
    size_t bytes;            /* about how many bytes they take */
    size_t limit;            /* the most requests that it remembers */
    size_t limit_for_client; /* the most of one client */
    size_t full;             /* how many requests were answered with FEVSTUNIK_FULL */
} fevstunik_usage;

/* The two sides of a login. A number never changes its meaning. */
typedef enum fevstunik_role {
    FEVSTUNIK_ROLE_CLIENT = 1, /* the side that asked to log in */
    FEVSTUNIK_ROLE_SERVICE = 2 /* the side that let it in */
} fevstunik_role;

/* How a message stands to those that were taken before it (RFC 2743, section 1.2.3). A number never
 * changes its meaning.
 */
typedef enum fevstunik_order {
    FEVSTUNIK_ORDER_NEXT = 0,   /* it is the next one */
    FEVSTUNIK_ORDER_GAP = 1,    /* those between the next one and this one are missing */
    FEVSTUNIK_ORDER_LATE = 2,   /* it was missing until now */
    FEVSTUNIK_ORDER_REPEAT = 3, /* it was taken before */
    FEVSTUNIK_ORDER_OLD = 4     /* it is before the first one, or more than 64 before the next one, so it isn't known whether it was taken */
} fevstunik_order;

/* What both sides agreed on in a login, and how one of them writes and takes messages. A service
 * has the client's part from fevstunik_accepted_known and its own from its reply, a client has its
 * own from its request and the service's from fevstunik_finish.
 */
typedef struct fevstunik_message_options {
    uint32_t role;               /* which side this is: a fevstunik_role */
    int32_t session_type;        /* the encryption type of the session key: 19 or 20 */
    int32_t client_subkey_type;  /* that of the client's subkey, or 0 if its request has none */
    int32_t service_subkey_type; /* that of the service's subkey, or 0 if its reply has none */
    uint32_t client_seq;         /* the client's first sequence number, or 0 if its request has none */
    uint32_t service_seq;        /* the service's first sequence number, or 0 if its reply has none; if there is no reply, MIT krb5 takes the client's */
    uint16_t rotation;           /* by how many bytes sealed messages are rotated (RRC): 0, as MIT krb5 writes them, or any other number */
    bool any_order;              /* whether messages are taken in any order; otherwise only the next one is taken, and each other one refused */
    bool repeats;                /* whether, with any order, repeats are taken too, and messages that are too old to tell: then look at each one's order */
} fevstunik_message_options;

/* What is known of a message that was taken. */
typedef struct fevstunik_received {
    uint64_t number;     /* its sequence number */
    fevstunik_span text; /* the place of its text in the message; empty if the text isn't inside */
    uint32_t order;      /* how it stands to those before it: a fevstunik_order */
    bool sealed;         /* whether the text was encrypted */
} fevstunik_received;

/* A service that accepts requests: opaque, and all zero before its first use. */
typedef struct fevstunik_acceptor {
    void *opaque;
} fevstunik_acceptor;

/* A request that was accepted: opaque, and all zero before its first use. */
typedef struct fevstunik_accepted {
    void *opaque;
} fevstunik_accepted;

/* A client's login: all zero before its first use. Each client has one of its own. `accepted` is
 * what is let in: every function that reads an accepted request takes `&login.accepted`.
 */
typedef struct fevstunik_login {
    fevstunik_accepted accepted;
    void *opaque;
} fevstunik_login;

/* A keytab that was read: opaque, and all zero before its first use. */
typedef struct fevstunik_keytab {
    void *opaque;
} fevstunik_keytab;

/* A credential cache that was read: opaque, and all zero before its first use. */
typedef struct fevstunik_cache {
    void *opaque;
} fevstunik_cache;

/* A request whose reply is awaited: opaque, and all zero before its first use. */
typedef struct fevstunik_pending {
    void *opaque;
} fevstunik_pending;

/* One side's messages after a login: opaque, and all zero before its first use. */
typedef struct fevstunik_messages {
    void *opaque;
} fevstunik_messages;

/* The values that initialize handles as empty. */
#define FEVSTUNIK_ACCEPTOR_INIT {NULL}
#define FEVSTUNIK_ACCEPTED_INIT {NULL}
#define FEVSTUNIK_LOGIN_INIT {{NULL}, NULL}
#define FEVSTUNIK_KEYTAB_INIT {NULL}
#define FEVSTUNIK_CACHE_INIT {NULL}
#define FEVSTUNIK_PENDING_INIT {NULL}
#define FEVSTUNIK_MESSAGES_INIT {NULL}

/* ---- files ---- */

/* Checks that the bytes of a file are a keytab of version 0x0502. `size` is the number of its
 * entries.
 *
 * Returns FEVSTUNIK_OK, or the first that applies: FEVSTUNIK_TOO_LONG, _FILE_VERSION,
 * _FILE_TRUNCATED, _FILE_BAD_ITEM or, only if the bytes are a keytab, FEVSTUNIK_OUT_OF_MEMORY.
 *
 *     if (fevstunik_keytab_check(file, file_size).code == FEVSTUNIK_OK) ...
 */
fevstunik_answer fevstunik_keytab_check(const uint8_t *keytab, size_t keytab_size);

/* Checks that the bytes of a file are a credential cache of version 0x0503 or 0x0504. `size` is the
 * number of its credentials; configuration entries count too.
 *
 * Returns FEVSTUNIK_OK, or the first that applies: FEVSTUNIK_TOO_LONG, _FILE_VERSION, _FILE_HEADER,
 * _FILE_BAD_ITEM or, only if the bytes are a cache, FEVSTUNIK_OUT_OF_MEMORY.
 *
 *     if (fevstunik_cache_check(file, file_size).code == FEVSTUNIK_OK) ...
 */
fevstunik_answer fevstunik_cache_check(const uint8_t *cache, size_t cache_size);

/* Reads a keytab (the bytes of a file of version 0x0502), and keeps it in the handle, so that its
 * entries can be read one by one. What the handle held is freed. The file's bytes aren't needed
 * afterwards. `size` is the number of its entries.
 *
 * Returns FEVSTUNIK_OK; or leaves the handle unchanged and returns the first that applies:
 * FEVSTUNIK_TOO_LONG, _FILE_VERSION, _FILE_TRUNCATED, _FILE_BAD_ITEM or, only if the bytes are a
 * keytab, FEVSTUNIK_OUT_OF_MEMORY.
 *
 *     fevstunik_keytab keytab = FEVSTUNIK_KEYTAB_INIT;
 *     answer = fevstunik_keytab_new(&keytab, file, file_size);
 */
fevstunik_answer fevstunik_keytab_new(fevstunik_keytab *keytab, const uint8_t *file, size_t file_size);

/* Reads one entry of a keytab; `index` counts from 0. Writes the text of the entry's name and then
 * its key to the buffer, and their places and the numbers to `entry`. `entry` is written even if
 * the buffer is too short. On FEVSTUNIK_SHORT_BUFFER the places lie in the longer buffer that you
 * need: don't use them yet. The handle is unchanged.
 *
 * Returns FEVSTUNIK_OK or FEVSTUNIK_SHORT_BUFFER; or writes nothing and returns
 * FEVSTUNIK_EMPTY_HANDLE, FEVSTUNIK_NO_SUCH_ENTRY or FEVSTUNIK_OUT_OF_MEMORY.
 *
 *     for (index = 0; index < count && answer.code == FEVSTUNIK_OK; index++)
 *         answer = fevstunik_keytab_entry(&keytab, index, &entry, buffer, sizeof buffer);
 */
fevstunik_answer fevstunik_keytab_entry(fevstunik_keytab *keytab, size_t index, fevstunik_key_entry *entry, uint8_t *buffer,
                                        size_t buffer_size);

/* Frees what the handle holds. The handle is empty then, and may be used again. Calling it with an
 * empty handle has no effect. It can't fail.
 *
 *     fevstunik_keytab_free(&keytab);
 */
void fevstunik_keytab_free(fevstunik_keytab *keytab);

/* Reads a credential cache (the bytes of a file of version 0x0503 or 0x0504), and keeps it in the
 * handle, for any number of requests and to read its credentials one by one. What the handle held
 * is freed. After `kinit` or a renewal, read the file again. The file's bytes aren't needed
 * afterwards. `size` is the number of its credentials; configuration entries count too.
 *
 * Returns FEVSTUNIK_OK; or leaves the handle unchanged and returns the first that applies:
 * FEVSTUNIK_TOO_LONG, _FILE_VERSION, _FILE_HEADER, _FILE_BAD_ITEM or, only if the bytes are a
 * cache, FEVSTUNIK_OUT_OF_MEMORY.
 *
 *     fevstunik_cache cache = FEVSTUNIK_CACHE_INIT;
 *     answer = fevstunik_cache_new(&cache, file, file_size);
 */
fevstunik_answer fevstunik_cache_new(fevstunik_cache *cache, const uint8_t *file, size_t file_size);

/* Reads one credential of a cache; `index` counts from 0. Writes the client's text, the service's
 * text, the session key and the ticket to the buffer, one after the other, and their places and the
 * numbers to `credential`. `credential` is written even if the buffer is too short. On
 * FEVSTUNIK_SHORT_BUFFER the places lie in the longer buffer that you need: don't use them yet.
 * Addresses, authorization data and a second ticket aren't returned. The handle is unchanged.
 *
 * Returns FEVSTUNIK_OK or FEVSTUNIK_SHORT_BUFFER; or writes nothing and returns
 * FEVSTUNIK_EMPTY_HANDLE, FEVSTUNIK_NO_SUCH_ENTRY or FEVSTUNIK_OUT_OF_MEMORY.
 *
 *     for (index = 0; index < count && answer.code == FEVSTUNIK_OK; index++)
 *         answer = fevstunik_cache_credential(&cache, index, &entry, buffer, sizeof buffer);
 */
fevstunik_answer fevstunik_cache_credential(fevstunik_cache *cache, size_t index, fevstunik_cache_entry *credential, uint8_t *buffer,
                                            size_t buffer_size);

/* Reads the owner of a cache. Writes the default principal's text to the buffer, and its place and
 * the numbers to `owner`, with the KDC's clock offset if the cache has one. `owner` is written even
 * if the buffer is too short. On FEVSTUNIK_SHORT_BUFFER the places lie in the longer buffer that
 * you need: don't use them yet. The handle is unchanged.
 *
 * Returns FEVSTUNIK_OK or FEVSTUNIK_SHORT_BUFFER; or writes nothing and returns
 * FEVSTUNIK_EMPTY_HANDLE or FEVSTUNIK_OUT_OF_MEMORY.
 *
 *     answer = fevstunik_cache_owner(&cache, &owner, buffer, sizeof buffer);
 */
fevstunik_answer fevstunik_cache_owner(fevstunik_cache *cache, fevstunik_owner *owner, uint8_t *buffer, size_t buffer_size);

/* Frees what the handle holds. The handle is empty then, and may be used again. Calling it with an
 * empty handle has no effect. It can't fail.
 *
 *     fevstunik_cache_free(&cache);
 */
void fevstunik_cache_free(fevstunik_cache *cache);

/* Adds an entry to a keytab, and returns the bytes of the new file. `name` is the name's text.
 * `key` has the key's bytes, which may be of any type. The entry goes into the first hole that is
 * long enough, or else to the end, in place of an end word and the bytes after it
 * (docs/FORMATS.md). The bytes 05 02 are an empty keytab.
 *
 * Returns FEVSTUNIK_OK or FEVSTUNIK_SHORT_BUFFER; or writes nothing and returns the first that
 * applies: FEVSTUNIK_NOT_UTF8, _BAD_TEXT or _NO_REALM for the name; FEVSTUNIK_TOO_LONG if the name
 * has more than 65,535 parts, or a part of it or the key has more than 65,535 bytes;
 * FEVSTUNIK_TOO_LONG, _FILE_VERSION, _FILE_TRUNCATED or _FILE_BAD_ITEM for the keytab;
 * FEVSTUNIK_TOO_LONG for the new file. FEVSTUNIK_OUT_OF_MEMORY may be returned instead of any of
 * these. The parts in the example are a time, a version number, a name type and a key type.
 *
 *     fevstunik_key_parts parts = {1700000000, 4, 3, 19};
 *     answer = fevstunik_keytab_add(file, file_size, (const uint8_t *)"host/web@EX", 11, key, 16, &parts, buffer, sizeof buffer);
 */
fevstunik_answer fevstunik_keytab_add(const uint8_t *keytab, size_t keytab_size, const uint8_t *name, size_t name_size, const uint8_t *key,
                                      size_t key_size, const fevstunik_key_parts *parts, uint8_t *buffer, size_t buffer_size);

/* Removes one entry of a keytab, and returns the bytes of the new file; `index` counts from 0. The
 * entry's record becomes a hole of zeros. Nothing else changes, so the file's size stays the same.
 *
 * Returns FEVSTUNIK_OK or FEVSTUNIK_SHORT_BUFFER; or writes nothing and returns the first that
 * applies: FEVSTUNIK_TOO_LONG, _FILE_VERSION, _FILE_TRUNCATED, _FILE_BAD_ITEM or
 * FEVSTUNIK_NO_SUCH_ENTRY. FEVSTUNIK_OUT_OF_MEMORY may be returned instead of any of these.
 *
 *     answer = fevstunik_keytab_remove(file, file_size, 0, buffer, sizeof buffer);
 */
fevstunik_answer fevstunik_keytab_remove(const uint8_t *keytab, size_t keytab_size, size_t index, uint8_t *buffer, size_t buffer_size);

/* Returns the bytes of a new file with the entries of a keytab, in their order, and nothing else.
 * docs/FORMATS.md says how entries are written.
 *
 * Returns FEVSTUNIK_OK or FEVSTUNIK_SHORT_BUFFER; or writes nothing and returns the first that
 * applies: FEVSTUNIK_TOO_LONG, _FILE_VERSION, _FILE_TRUNCATED or _FILE_BAD_ITEM for the keytab;
 * FEVSTUNIK_TOO_LONG for the new file; or FEVSTUNIK_OUT_OF_MEMORY.
 *
 *     answer = fevstunik_keytab_write(file, file_size, buffer, sizeof buffer);
 */
fevstunik_answer fevstunik_keytab_write(const uint8_t *keytab, size_t keytab_size, uint8_t *buffer, size_t buffer_size);

/* ---- names ---- */

/* Checks that a text is a valid name, such as host/web@EX: components separated by `/`, then `@`
 * and a realm. Within a component or the realm, a backslash comes before each `/`, `@` and
 * backslash, and a byte that isn't a visible ASCII character is written as `\x` and two hexadecimal
 * digits in lower case. `size` is the number of components. A name has only one text.
 *
 * Returns FEVSTUNIK_OK, FEVSTUNIK_NOT_UTF8, FEVSTUNIK_BAD_TEXT with the offset in `at`, or
 * FEVSTUNIK_NO_REALM. The call allocates no memory.
 *
 *     if (fevstunik_name_check((const uint8_t *)"host/web@EX", 11).code == FEVSTUNIK_OK) ...
 */
fevstunik_answer fevstunik_name_check(const uint8_t *name, size_t name_size);

/* ---- the service's side ---- */

/* Makes a service that has seen no request, and stores it in the handle. The service uses the keys
 * of a keytab (the bytes of a file of version 0x0502). What the handle held is freed: a service
 * made in a used handle forgets what the old one has seen. The keytab's bytes aren't needed
 * afterwards.
 *
 * `service` is the text of the one name that is served, such as host/web@EX: a ticket for any other
 * name is refused with NOT_US, if no cause before it applies. The name isn't compared with the
 * keytab at the start: if the keytab has no entry of it, every ticket is refused in this way. If
 * `service_size` is 0, each name of the keytab is served, but only if `options->any_name` is true:
 * else an empty name from a configuration is refused. Name the service if the keytab has keys of
 * several names (docs/OPERATING.md, "Keys", says why).
 *
 * A service that is started again has forgotten what it accepted before. `options->restarts` says
 * how such requests are refused, and has no default. With FEVSTUNIK_RESTART_STARTED,
 * `options->started` is the service's clock at this start: the clock that `now` is read from
 * (CLOCK_REALTIME). Until its clock and the client's are both later than the start by more than the
 * skew, the service refuses requests with JUST_STARTED. So no request that was accepted before is
 * accepted again. This holds on two conditions: the start is no earlier than any moment that was
 * given before, and the skew is no smaller than it was (docs/ACCEPTANCE.md has the argument). If
 * you have the start in whole seconds, add one. A start before the year 2020 is refused, so that a
 * time since the machine was started (CLOCK_MONOTONIC) and 0 are noticed, unless
 * `options->any_start` is true.
 *
 * With FEVSTUNIK_RESTART_SHARED the service shares a store of stamps with others, and lets nobody
 * in before it was asked: fevstunik_service_answer returns FEVSTUNIK_ASK_STORE for a client that it
 * would let in, and fevstunik_login_settle decides. `options->started` is the moment from which the
 * store remembers: that of its making, if it has lost nothing since. If another service of these
 * keys has a larger skew, or had one, add the difference of the skews. All that is said of a start
 * holds of it, too, so a service that is started again over such a store has no pause. The service
 * refuses fevstunik_acceptor_accept, which asks no store.
 *
 * With FEVSTUNIK_RESTART_FIRST_LIFE the service accepts at once. Use it only if *every* key of the
 * keytab is new, so that no service has used one of them before, or over a store of stamps
 * (fevstunik_accepted_stamp) that has lost nothing (docs/OPERATING.md, "Restarts", has the exact
 * conditions).
 *
 * The service remembers at most `options->limit` requests, and at most `options->limit_for_client`
 * of one client. Past that fevstunik_acceptor_accept returns FEVSTUNIK_FULL (docs/OPERATING.md,
 * "Sizes", says how to choose the limits).
 *
 * The last five options are the terms of fevstunik_service_answer: which channel bindings a client
 * must send, whether it may be anonymous, of which realms it may be, and whether a reply sends a
 * subkey.
 *
 * `options` must point to as many bytes as `options->size` says, or to more.
 *
 * Returns FEVSTUNIK_OK; or leaves the handle unchanged and returns the first that applies:
 * FEVSTUNIK_BAD_OPTIONS if `options->size` isn't the size of the struct, or 56; FEVSTUNIK_NO_NAME;
 * FEVSTUNIK_NO_START; FEVSTUNIK_BAD_MOMENT or FEVSTUNIK_EARLY_START for the start;
 * FEVSTUNIK_BAD_SKEW; FEVSTUNIK_BAD_BINDINGS; FEVSTUNIK_KEY_TYPE for the type of the subkey;
 * FEVSTUNIK_TOO_LONG, _FILE_VERSION, _FILE_TRUNCATED or _FILE_BAD_ITEM for the keytab;
 * FEVSTUNIK_OUT_OF_MEMORY for the keytab; FEVSTUNIK_NOT_UTF8, _BAD_TEXT or _NO_REALM for the
 * service; or FEVSTUNIK_OUT_OF_MEMORY.
 *
 *     fevstunik_acceptor service = FEVSTUNIK_ACCEPTOR_INIT;
 *     fevstunik_acceptor_options options = {
 *         .size = sizeof options, .started = {time(NULL) + 1, 0}, .skew = 300, .restarts = FEVSTUNIK_RESTART_STARTED};
 *     fevstunik_answer answer = fevstunik_acceptor_new(&service, file, file_size, (const uint8_t *)"host/web@EX", 11, &options);
 */
fevstunik_answer fevstunik_acceptor_new(fevstunik_acceptor *handle, const uint8_t *keytab, size_t keytab_size, const uint8_t *service,
                                        size_t service_size, const fevstunik_acceptor_options *options);

/* Gives a service another keytab, for example with a changed key. The service keeps all else: what
 * it has seen, the latest moment, the skew and the start. So a request that was accepted under the
 * old keytab isn't accepted again. If the service is in its first life
 * (FEVSTUNIK_RESTART_FIRST_LIFE), each key that the new keytab adds has to be new, too.
 * (fevstunik_acceptor_new on a handle that holds a service forgets what that service has seen.)
 * `service` and `any_name` are as in fevstunik_acceptor_new.
 *
 * Returns FEVSTUNIK_OK; or leaves the service unchanged and returns the first that applies:
 * FEVSTUNIK_EMPTY_HANDLE; FEVSTUNIK_NO_NAME; FEVSTUNIK_TOO_LONG, _FILE_VERSION, _FILE_TRUNCATED or
 * _FILE_BAD_ITEM for the keytab; FEVSTUNIK_OUT_OF_MEMORY for the keytab; FEVSTUNIK_NOT_UTF8,
 * _BAD_TEXT or _NO_REALM for the service; or FEVSTUNIK_OUT_OF_MEMORY.
 *
 *     answer = fevstunik_acceptor_replace_keytab(&service, file, file_size, (const uint8_t *)"host/web@EX", 11, false);
 */
fevstunik_answer fevstunik_acceptor_replace_keytab(fevstunik_acceptor *handle, const uint8_t *keytab, size_t keytab_size,
                                                   const uint8_t *service, size_t service_size, bool any_name);

/* Prepares the handle for fevstunik_acceptor_accept, which keeps an accepted request in it. The
 * handle keeps nothing yet, and what it held before is freed. One handle serves for any number of
 * requests, one after the other.
 *
 * Returns FEVSTUNIK_OK; or leaves the handle unchanged and returns FEVSTUNIK_OUT_OF_MEMORY.
 *
 *     fevstunik_accepted accepted = FEVSTUNIK_ACCEPTED_INIT;
 *     if (fevstunik_accepted_new(&accepted).code == FEVSTUNIK_OK) ...
 */
fevstunik_answer fevstunik_accepted_new(fevstunik_accepted *accepted);

/* Decides whether a request (the bytes of an AP-REQ) is accepted at `now`, a moment of the
 * service's clock. Remembers what it needs to recognize a repeat. Time doesn't go back: the latest
 * moment given so far is the one that counts. A moment that is far ahead makes the service refuse
 * right requests as SKEW until its clock gets there (docs/OPERATING.md, "Clocks").
 *
 * Keeps an accepted request in the handle `accepted`, which fevstunik_accepted_new prepared, until
 * the next call with that handle. fevstunik_accepted_known reads it, and fevstunik_accepted_reply
 * replies to it. What was kept there before is freed. If the call returns anything but
 * FEVSTUNIK_OK, nothing is kept there. If threads share a service, give each an accepted handle of
 * its own: then reading what was accepted needs no lock.
 *
 * The service keeps the ticket that it opened last, sealed and opened, with its session key, even
 * if the request was refused: a later request with the same ticket takes less time.
 *
 * fevstunik_error builds an error for the client from the answer's code, and needs no lock. The
 * service also keeps the cause of a refusal until the next call of fevstunik_acceptor_accept that
 * returns anything but FEVSTUNIK_EMPTY_HANDLE. fevstunik_acceptor_error builds the error from it.
 *
 * Returns FEVSTUNIK_OK, or the first that applies: FEVSTUNIK_BAD_MOMENT; FEVSTUNIK_EMPTY_HANDLE if
 * either handle is empty; FEVSTUNIK_SHARED if the service shares a store of stamps; or a cause from
 * FEVSTUNIK_MESSAGE_TYPE to FEVSTUNIK_AUTHORIZATION, FEVSTUNIK_FULL or FEVSTUNIK_OUT_OF_MEMORY.
 * FEVSTUNIK_FULL means that the request can't be remembered, because a limit is reached: it isn't
 * decided, and may be sent again later. FEVSTUNIK_EMPTY_HANDLE leaves the service unchanged.
 * FEVSTUNIK_BAD_MOMENT, FEVSTUNIK_SHARED, FEVSTUNIK_FULL and FEVSTUNIK_OUT_OF_MEMORY leave what is
 * remembered and the latest moment unchanged.
 *
 *     fevstunik_time now = {1700000101, 0};
 *     if (fevstunik_acceptor_accept(&service, &accepted, request, request_size, &now).code == FEVSTUNIK_OK) ...
 */
fevstunik_answer fevstunik_acceptor_accept(fevstunik_acceptor *handle, fevstunik_accepted *accepted, const uint8_t *request,
                                           size_t request_size, const fevstunik_time *now);

/* Reads what was accepted. Writes the client's text, the session key, the client's subkey and the
 * service's text to the buffer, one after the other, and their places and the numbers to `known`.
 * `known` is written even if the buffer is too short. On FEVSTUNIK_SHORT_BUFFER the places lie in
 * the longer buffer that you need: don't use them yet.
 *
 * The request is remembered by `service`, `client`, `ctime` and `cusec`. (The types of the names
 * don't count. A name without components has the same text as a name with a single empty component,
 * though they are two names.) The ticket's addresses weren't compared with anything:
 * fevstunik_accepted_item returns them, the authorization data and the checksum.
 *
 * Returns FEVSTUNIK_OK or FEVSTUNIK_SHORT_BUFFER; or writes nothing and returns
 * FEVSTUNIK_EMPTY_HANDLE, FEVSTUNIK_NOTHING_THERE or FEVSTUNIK_OUT_OF_MEMORY.
 *
 *     fevstunik_known known;
 *     uint8_t buffer[4096];
 *     fevstunik_answer answer = fevstunik_accepted_known(&accepted, &known, buffer, sizeof buffer);
 *     if (answer.code == FEVSTUNIK_OK)
 *         printf("%.*s\n", (int)known.client.size, (const char *)buffer + known.client.at);
 */
fevstunik_answer fevstunik_accepted_known(fevstunik_accepted *accepted, fevstunik_known *known, uint8_t *buffer, size_t buffer_size);

/* Writes the stamp of the accepted request to the buffer: the service, the client and the client's
 * time as one string of bytes. Requests have the same stamp if and only if they are of the same
 * service, client and time. `skew` is the largest skew of all instances, in seconds. `keep_until`
 * is the client's time plus twice `skew`. It is written even if the buffer is too short.
 *
 * Use the stamp if several instances of a service share a store. Let the client in only if the
 * store adds the stamp, in one step, and says that it was new. The store keeps it until
 * `keep_until`, rounded up. After its answer read the clock again, and refuse the request if the
 * clock is later than the request's time by more than the skew. docs/OPERATING.md, "Several
 * instances", has all rules.
 *
 * Returns FEVSTUNIK_OK or FEVSTUNIK_SHORT_BUFFER; or writes nothing and returns
 * FEVSTUNIK_EMPTY_HANDLE, FEVSTUNIK_NOTHING_THERE, FEVSTUNIK_BAD_SKEW (more than 86,400 seconds),
 * FEVSTUNIK_BAD_MOMENT (`keep_until` would be after the year 9999: refuse the client) or
 * FEVSTUNIK_OUT_OF_MEMORY.
 *
 *     fevstunik_time keep_until;
 *     answer = fevstunik_accepted_stamp(&accepted, 300, &keep_until, buffer, sizeof buffer);
 */
fevstunik_answer fevstunik_accepted_stamp(fevstunik_accepted *accepted, uint32_t skew, fevstunik_time *keep_until, uint8_t *buffer,
                                          size_t buffer_size);

/* Returns the starttime of the accepted request's ticket, if it has one: the ticket is valid from
 * then on. A ticket without one is valid from its `authtime` on. The call allocates no memory.
 *
 * Returns FEVSTUNIK_OK; or writes nothing and returns FEVSTUNIK_EMPTY_HANDLE, or
 * FEVSTUNIK_NOTHING_THERE if nothing was accepted or the ticket doesn't say.
 *
 *     fevstunik_time start;
 *     answer = fevstunik_accepted_start(&accepted, &start);
 */
fevstunik_answer fevstunik_accepted_start(fevstunik_accepted *accepted, fevstunik_time *start);

/* Returns in `size` how many messages each side has sent in the login itself: 1 if the client's
 * list of mechanisms was checked, since each side has sent its MIC then, and otherwise 0. The call
 * allocates no memory.
 *
 * Returns FEVSTUNIK_OK, FEVSTUNIK_EMPTY_HANDLE or FEVSTUNIK_NOTHING_THERE.
 *
 *     bool after_list = fevstunik_accepted_sent(&login.accepted).size == 1;
 */
fevstunik_answer fevstunik_accepted_sent(fevstunik_accepted *accepted);

/* Counts the items of a list of the accepted request. `list` is a fevstunik_list, and `size` is the
 * number of its items. A list can be present and empty. The call allocates no memory.
 *
 * Returns FEVSTUNIK_OK, FEVSTUNIK_EMPTY_HANDLE, FEVSTUNIK_NOTHING_THERE, or FEVSTUNIK_NO_SUCH_ENTRY
 * if the request doesn't have the list.
 *
 *     answer = fevstunik_accepted_count(&accepted, FEVSTUNIK_LIST_TICKET_AUTHORIZATION);
 */
fevstunik_answer fevstunik_accepted_count(fevstunik_accepted *accepted, uint32_t list);

/* Reads one item of a list of the accepted request; `index` counts from 0. Writes the item's type
 * to `kind` and its bytes to the buffer. The type is that of an address (RFC 4120, section 7.5.3),
 * of authorization data (section 7.5.4), of a checksum (section 7.5.6) or of the encoding of realms
 * (section 7.5.5). `kind` is written even if the buffer is too short. The call allocates no memory.
 *
 * Returns FEVSTUNIK_OK or FEVSTUNIK_SHORT_BUFFER; or writes nothing and returns
 * FEVSTUNIK_EMPTY_HANDLE, FEVSTUNIK_NOTHING_THERE, or FEVSTUNIK_NO_SUCH_ENTRY if the request
 * doesn't have the list or the list doesn't have the item.
 *
 *     answer = fevstunik_accepted_item(&accepted, FEVSTUNIK_LIST_CHECKSUM, 0, &kind, buffer, sizeof buffer);
 */
fevstunik_answer fevstunik_accepted_item(fevstunik_accepted *accepted, uint32_t list, size_t index, int32_t *kind, uint8_t *buffer,
                                         size_t buffer_size);

/* Builds the reply (the bytes of an AP-REP) to what was accepted. Call it if `wants_reply` is true;
 * it doesn't check that itself. `confounder` is 16 random bytes, new for each call. `subkey` has
 * the bytes of the subkey whose type is in `choice`. If that type is 0, they are ignored.
 *
 * Returns FEVSTUNIK_OK or FEVSTUNIK_SHORT_BUFFER; or writes nothing and returns the first that
 * applies: FEVSTUNIK_EMPTY_HANDLE; FEVSTUNIK_NOTHING_THERE; FEVSTUNIK_BAD_CONFOUNDER;
 * FEVSTUNIK_KEY_TYPE or _KEY_LENGTH for the subkey; or FEVSTUNIK_OUT_OF_MEMORY. A reply has fewer
 * than 256 bytes.
 *
 *     fevstunik_choice choice = {0, 0, false, false};
 *     uint8_t reply[256];
 *     answer = fevstunik_accepted_reply(&accepted, confounder, 16, &choice, NULL, 0, reply, sizeof reply);
 */
fevstunik_answer fevstunik_accepted_reply(fevstunik_accepted *accepted, const uint8_t *confounder, size_t confounder_size,
                                          const fevstunik_choice *choice, const uint8_t *subkey, size_t subkey_size, uint8_t *buffer,
                                          size_t buffer_size);

/* Frees what the handle holds. The handle is empty then, and may be prepared again. Calling it with
 * an empty handle has no effect. It can't fail.
 *
 *     fevstunik_accepted_free(&accepted);
 */
void fevstunik_accepted_free(fevstunik_accepted *accepted);

/* Builds the error (the bytes of a KRB-ERROR) that says why the last call of
 * fevstunik_acceptor_accept refused a request. `service` has the service's name as text, such as
 * host/web@EX. `name_type` is the type of that name (RFC 4120, section 6.2; 3 for a service on a
 * host). `now` is the service's time. The error contains these and the refusal's code, and nothing
 * else. It isn't sealed: anyone can write such an error. If threads share the service, use
 * fevstunik_error: another thread's request may be refused between the two calls.
 *
 * Returns FEVSTUNIK_OK or FEVSTUNIK_SHORT_BUFFER; or writes nothing and returns the first that
 * applies: FEVSTUNIK_EMPTY_HANDLE; FEVSTUNIK_NOTHING_THERE; FEVSTUNIK_NOT_UTF8, _BAD_TEXT or
 * _NO_REALM for the service; FEVSTUNIK_BAD_MOMENT; FEVSTUNIK_NO_CODE; FEVSTUNIK_TOO_LONG; or
 * FEVSTUNIK_OUT_OF_MEMORY.
 *
 *     if (fevstunik_acceptor_accept(&service, &accepted, request, request_size, &now).code != FEVSTUNIK_OK)
 *         answer = fevstunik_acceptor_error(&service, (const uint8_t *)"host/web@EX", 11, 3, &now, buffer, sizeof buffer);
 */
fevstunik_answer fevstunik_acceptor_error(fevstunik_acceptor *handle, const uint8_t *service, size_t service_size, int32_t name_type,
                                          const fevstunik_time *now, uint8_t *buffer, size_t buffer_size);

/* Builds the error (the bytes of a KRB-ERROR) for a cause from the code that
 * fevstunik_acceptor_accept returned. It needs no handle, so another request's cause can't get into
 * the error. `service`, `name_type` and `now` are as for fevstunik_acceptor_error.
 *
 * Returns FEVSTUNIK_OK or FEVSTUNIK_SHORT_BUFFER; or writes nothing and returns the first that
 * applies: FEVSTUNIK_NO_CODE if `code` isn't the code of a cause; FEVSTUNIK_NOT_UTF8, _BAD_TEXT or
 * _NO_REALM for the service; FEVSTUNIK_BAD_MOMENT; FEVSTUNIK_TOO_LONG; or FEVSTUNIK_OUT_OF_MEMORY.
 *
 *     answer = fevstunik_error(answer.code, (const uint8_t *)"host/web@EX", 11, 3, &now, buffer, sizeof buffer);
 */
fevstunik_answer fevstunik_error(uint32_t code, const uint8_t *service, size_t service_size, int32_t name_type, const fevstunik_time *now,
                                 uint8_t *buffer, size_t buffer_size);

/* Returns the number of requests that are remembered, or 0 if the handle is empty. It can't fail.
 *
 *     printf("%zu remembered\n", fevstunik_acceptor_count(&service));
 */
size_t fevstunik_acceptor_count(fevstunik_acceptor *handle);

/* Reads how much the service remembers, and its limits. It allocates no memory.
 *
 * Returns FEVSTUNIK_OK; or writes nothing and returns FEVSTUNIK_EMPTY_HANDLE.
 *
 *     fevstunik_usage usage;
 *     if (fevstunik_acceptor_usage(&service, &usage).code == FEVSTUNIK_OK)
 *         printf("%zu of %zu remembered\n", usage.remembered, usage.limit);
 */
fevstunik_answer fevstunik_acceptor_usage(fevstunik_acceptor *handle, fevstunik_usage *usage);

/* Reads the latest moment by which fevstunik_acceptor_accept or fevstunik_service_answer decided on
 * a request so far. The service decides by it. Calls that decided on no request (FULL,
 * OUT_OF_MEMORY, BAD_MOMENT, EMPTY_HANDLE, SHARED, BAD_RANDOM, and bytes that hold no request)
 * don't count.
 *
 * Returns FEVSTUNIK_OK; or writes nothing and returns FEVSTUNIK_EMPTY_HANDLE or
 * FEVSTUNIK_NOTHING_THERE.
 *
 *     fevstunik_time latest;
 *     if (fevstunik_acceptor_latest(&service, &latest).code == FEVSTUNIK_OK) ...
 */
fevstunik_answer fevstunik_acceptor_latest(fevstunik_acceptor *handle, fevstunik_time *latest);

/* Adds a realm to those of which fevstunik_service_answer lets clients in. `realm` has the realm's
 * bytes, such as EX, without escapes. Make the service with `only_realms`: then it lets in no
 * client until a realm is added. Otherwise it lets in clients of any realm until one is added. A
 * KDC has to have checked the realms between a client's and the service's: the library doesn't.
 *
 * Returns FEVSTUNIK_OK; or leaves the service unchanged and returns FEVSTUNIK_EMPTY_HANDLE or
 * FEVSTUNIK_OUT_OF_MEMORY.
 *
 *     answer = fevstunik_acceptor_add_realm(&service, (const uint8_t *)"EX", 2);
 */
fevstunik_answer fevstunik_acceptor_add_realm(fevstunik_acceptor *handle, const uint8_t *realm, size_t realm_size);

/* Gives a service other channel bindings, for example when its certificate is renewed. `bindings`
 * is a fevstunik_bindings, and `hash` the 16 bytes of the options' `bindings_hash`, which aren't
 * looked at with FEVSTUNIK_BINDINGS_IGNORED. The service keeps all else. The next call of
 * fevstunik_service_answer compares with the new hash: a client of a connection that was opened
 * before still sends the old one.
 *
 * Returns FEVSTUNIK_OK; or leaves the service unchanged and returns FEVSTUNIK_EMPTY_HANDLE, or
 * FEVSTUNIK_BAD_BINDINGS if there is no such rule, or the rule compares and `hash` isn't 16 bytes
 * or is all zero: sixteen zeros say that a client has no bindings.
 *
 *     answer = fevstunik_acceptor_replace_bindings(&service, FEVSTUNIK_BINDINGS_IF_SENT, hash, 16);
 */
fevstunik_answer fevstunik_acceptor_replace_bindings(fevstunik_acceptor *handle, uint32_t bindings, const uint8_t *hash, size_t hash_size);

/* Frees what the handle holds. The handle is empty then, and may be used again. Calling it with an
 * empty handle has no effect. It can't fail.
 *
 *     fevstunik_acceptor_free(&service);
 */
void fevstunik_acceptor_free(fevstunik_acceptor *handle);

/* ---- a login in one call ---- */

/* Lets a client in, or says why not. `input` is what the client sent: a request (the bytes of an
 * AP-REQ), a Kerberos token or a token of a negotiation (GSS-API and SPNEGO); the first bytes say
 * which. The call opens it, decides about the request as fevstunik_acceptor_accept does, looks at
 * the service's terms (`options` of fevstunik_acceptor_new), and writes what goes back to the
 * client to `out`, wrapped as the client wrapped its request. Unless the code is
 * FEVSTUNIK_SHORT_BUFFER, send these `size` bytes, whatever the code is; if there are none, nothing
 * goes back.
 *  - FEVSTUNIK_OK: the client is let in. `&login->accepted` holds what is known of it:
 *    fevstunik_accepted_known reads it. The bytes are the reply, if the client asks for one; else
 *    what a negotiation says without one.
 *  - FEVSTUNIK_GO_ON: a negotiation goes on. Send the bytes, and make the call with the same login
 *    for the client's next message, which may be the third one.
 *  - FEVSTUNIK_ASK_STORE, if the service shares a store of stamps (FEVSTUNIK_RESTART_SHARED): the
 *    client isn't let in yet, nothing of it can be read, and there are no bytes to send.
 *    fevstunik_login_stamp returns what to ask the store, and fevstunik_login_settle decides by its
 *    answer. With such a service, this call returns FEVSTUNIK_OK only for the last message of a
 *    client whose stamp the store has taken, and which shows its list of mechanisms by it.
 *  - Any other code but FEVSTUNIK_SHORT_BUFFER: the client isn't let in, and nothing of it can be
 *    read. The bytes are an error (KRB-ERROR) for a client that asks for a reply, else a
 *    negotiation's reject, if it is one; a reject, if the client hasn't shown its list of
 *    mechanisms. If memory runs out, the code is FEVSTUNIK_FULL, or the error would be too long,
 *    there may be none: then close the connection, so that the client doesn't wait.
 * FEVSTUNIK_OUT_OF_MEMORY leaves what the service remembers as it was, unless memory ran out after
 * the request was accepted: then the request is remembered, and the same one is refused as
 * FEVSTUNIK_REPEAT. In both cases the login takes no other message, unless nothing was decided:
 * fevstunik_login_answer then returns FEVSTUNIK_NOTHING_THERE, or FEVSTUNIK_EMPTY_HANDLE for a new
 * login, and the call may be made again.
 *
 * A client whose negotiation names another mechanism first, and Kerberos after it, is asked for its
 * token of Kerberos and for the MIC of its list of mechanisms, which shows that nobody has changed
 * the list on its way (RFC 4178, section 5). It isn't let in without that. The service's own MIC
 * goes back, too. fevstunik_messages_of_accepted goes on after both.
 *
 * `login` is a new handle for each client. A login that is decided takes no other token: it returns
 * FEVSTUNIK_NEGOTIATION_OVER. Nor does one that waits for a store: it stops waiting, and its client
 * can't be let in by this request. `random` has random bytes, new for each login: 16, then those of
 * the subkey if `subkey_type` of the options isn't 0 (16 for type 19, 32 for type 20). Pass the
 * same bytes if the login takes more messages: one of them is answered by a reply, which is made of
 * these bytes. A login that goes on has no end of its own: free it if the client's next message
 * doesn't come in time.
 *
 * If the buffer is too short for the bytes, the code is FEVSTUNIK_SHORT_BUFFER, `size` is the
 * number of bytes that are needed, and `out` is unchanged; but all is decided, so don't make the
 * call again. fevstunik_login_answer returns the code and the bytes with a longer buffer. `out` may
 * be NULL if its size is 0. 1,024 bytes are enough but for very long names, which an error repeats.
 *
 * If threads share the service, put a lock around this call; reading what was accepted needs none.
 *
 * Returns FEVSTUNIK_OK, FEVSTUNIK_GO_ON or FEVSTUNIK_ASK_STORE; a cause from FEVSTUNIK_MESSAGE_TYPE
 * to FEVSTUNIK_CHANNEL_BINDINGS; FEVSTUNIK_FULL or FEVSTUNIK_OUT_OF_MEMORY if the request can't be
 * remembered or answered; FEVSTUNIK_LIST_KEY_TYPE, _LIST_MIC_MISSING, _LIST_MIC_WRONG or
 * _LIST_MIC_OTHER_KEY if the client hasn't shown its list of mechanisms; FEVSTUNIK_NEGOTIATION_OVER
 * or one of the codes from FEVSTUNIK_NOT_A_TOKEN to FEVSTUNIK_NESTED_NEGOTIATION if the bytes hold
 * no request; or FEVSTUNIK_SHORT_BUFFER. Or decides nothing, leaves the service and the negotiation
 * unchanged, and returns the first that applies: FEVSTUNIK_BAD_MOMENT; FEVSTUNIK_EMPTY_HANDLE for
 * the service; FEVSTUNIK_BAD_RANDOM; FEVSTUNIK_OUT_OF_MEMORY.
 *
 *     fevstunik_login login = FEVSTUNIK_LOGIN_INIT;
 *     answer = fevstunik_service_answer(&service, &login, input, input_size, &now, random, 16, out, sizeof out);
 */
fevstunik_answer fevstunik_service_answer(fevstunik_acceptor *service, fevstunik_login *login, const uint8_t *input, size_t input_size,
                                          const fevstunik_time *now, const uint8_t *random, size_t random_size, uint8_t *out,
                                          size_t out_size);

/* Returns what the last fevstunik_service_answer or fevstunik_login_settle with this login decided,
 * and writes the bytes that go back to the client: with a long enough buffer, the code and the
 * bytes are those of that call. It decides nothing, and may be repeated. The login is unchanged.
 *
 * Returns FEVSTUNIK_SHORT_BUFFER; FEVSTUNIK_EMPTY_HANDLE; FEVSTUNIK_NOTHING_THERE if nothing was
 * decided by that call, or the login waits for a store; or the code that was decided: FEVSTUNIK_OK,
 * FEVSTUNIK_GO_ON, a cause from FEVSTUNIK_MESSAGE_TYPE to FEVSTUNIK_CHANNEL_BINDINGS,
 * FEVSTUNIK_STORE_FAILED, one of the codes from FEVSTUNIK_LIST_MIC_MISSING to
 * FEVSTUNIK_LIST_KEY_TYPE, FEVSTUNIK_FULL, FEVSTUNIK_OUT_OF_MEMORY, FEVSTUNIK_NEGOTIATION_OVER or
 * one of the codes from FEVSTUNIK_NOT_A_TOKEN to FEVSTUNIK_NESTED_NEGOTIATION.
 *
 *     if (answer.code == FEVSTUNIK_SHORT_BUFFER)
 *         answer = fevstunik_login_answer(&login, longer, answer.size);
 */
fevstunik_answer fevstunik_login_answer(fevstunik_login *login, uint8_t *out, size_t out_size);

/* Returns what to ask the store of stamps for a login that waits for it: fevstunik_service_answer
 * returned FEVSTUNIK_ASK_STORE. Writes the stamp of the request to the buffer: the service, the
 * client and the client's time as one string of bytes. Requests have the same stamp if and only if
 * they are of the same service, client and time. `keep_until` is the client's time plus twice the
 * service's skew, the last moment, by the store's clock, at which the store must still have the
 * stamp. It is written even if the buffer is too short. If another service with a larger skew uses
 * the store, keep the stamp longer, by twice the difference.
 *
 * The store adds the stamp unless it has it, in one step, and says whether it was new. If this call
 * fails, settle with FEVSTUNIK_SAID_FAILED. The login is unchanged. Nothing of the service is used:
 * if threads share it, this call needs no lock.
 *
 * Returns FEVSTUNIK_OK or FEVSTUNIK_SHORT_BUFFER; or writes nothing and returns
 * FEVSTUNIK_EMPTY_HANDLE; FEVSTUNIK_NOT_WAITING if the login doesn't wait for a store;
 * FEVSTUNIK_BAD_MOMENT (`keep_until` would be after the year 9999); or FEVSTUNIK_OUT_OF_MEMORY.
 *
 *     fevstunik_time keep_until;
 *     uint8_t stamp[1024];
 *     if (answer.code == FEVSTUNIK_ASK_STORE)
 *         answer = fevstunik_login_stamp(&login, &keep_until, stamp, sizeof stamp);
 */
fevstunik_answer fevstunik_login_stamp(fevstunik_login *login, fevstunik_time *keep_until, uint8_t *buffer, size_t buffer_size);

/* Decides about a login that waits for a store of stamps, by what the store said of its stamp, and
 * writes what goes back to the client to `out`, wrapped as the client wrapped its request. `said`
 * is a fevstunik_said. `now` is the service's clock, read after the store has answered: not the
 * moment that fevstunik_service_answer was given. A login is settled once.
 *  - FEVSTUNIK_OK: the stamp is new, and the request isn't too late. The client is let in, as by
 *    fevstunik_service_answer.
 *  - FEVSTUNIK_SKEW: the stamp is new, but `now` is later than the client's time by more than the
 *    skew.
 *  - FEVSTUNIK_REPEAT: the store has had the stamp before.
 *  - FEVSTUNIK_STORE_FAILED: the store has failed. Say so if it doesn't answer in time, and never
 *    use an answer that comes later. The client may try again with a new request.
 *  - FEVSTUNIK_GO_ON: the stamp is new, and the client is asked for the MIC of its list of
 *    mechanisms. Send the bytes, and give its next message to fevstunik_service_answer with the
 *    same login. The store isn't asked again.
 *  - A code from FEVSTUNIK_LIST_MIC_MISSING to FEVSTUNIK_LIST_KEY_TYPE: the stamp is new, but the
 *    client hasn't shown its list of mechanisms.
 * Unless the code is FEVSTUNIK_SHORT_BUFFER, send the `size` bytes, whatever the code is; if there
 * are none, nothing goes back. If the buffer is too short, all is decided, as for
 * fevstunik_service_answer: fevstunik_login_answer returns the code and the bytes with a longer
 * buffer. The reply is made with the random bytes that fevstunik_service_answer was given.
 *
 * If the code is FEVSTUNIK_OUT_OF_MEMORY, the login may still wait: then fevstunik_login_answer
 * returns FEVSTUNIK_NOTHING_THERE, and the call may be repeated with the same `said`. Don't ask the
 * store again: it would say that it knows the stamp.
 *
 * Nothing of the service is used: if threads share it, this call needs no lock, and the service may
 * be freed meanwhile.
 *
 * Returns FEVSTUNIK_OK, FEVSTUNIK_GO_ON, FEVSTUNIK_SKEW, FEVSTUNIK_REPEAT or
 * FEVSTUNIK_STORE_FAILED; one of the codes from FEVSTUNIK_LIST_MIC_MISSING to
 * FEVSTUNIK_LIST_KEY_TYPE if the client hasn't shown its list of mechanisms;
 * FEVSTUNIK_OUT_OF_MEMORY if the reply can't be made; or FEVSTUNIK_SHORT_BUFFER. Or decides
 * nothing, leaves the login as it was, and returns the first that applies: FEVSTUNIK_BAD_SAID;
 * FEVSTUNIK_BAD_MOMENT; FEVSTUNIK_EMPTY_HANDLE; FEVSTUNIK_NOT_WAITING if the login doesn't wait for
 * a store, for example because it is settled; FEVSTUNIK_OUT_OF_MEMORY.
 *
 *     fevstunik_time after_the_answer = clock_now();
 *     answer = fevstunik_login_settle(&login, is_new ? FEVSTUNIK_SAID_NEW : FEVSTUNIK_SAID_KNOWN, &after_the_answer, out, sizeof out);
 */
fevstunik_answer fevstunik_login_settle(fevstunik_login *login, uint32_t said, const fevstunik_time *now, uint8_t *out, size_t out_size);

/* Reads what the request asked for that the last fevstunik_service_answer or fevstunik_login_settle
 * with this login refused, as far as it could be read, for a log. Writes the service's text to the
 * buffer, and its place and the numbers to `asked`. `asked` is written even if the buffer is too
 * short. The login is unchanged.
 *
 * Returns FEVSTUNIK_OK or FEVSTUNIK_SHORT_BUFFER; or writes nothing and returns
 * FEVSTUNIK_EMPTY_HANDLE; FEVSTUNIK_NOTHING_THERE if no request was refused, or what it asked for
 * isn't known; or FEVSTUNIK_OUT_OF_MEMORY.
 *
 *     fevstunik_asked asked;
 *     answer = fevstunik_login_asked(&login, &asked, buffer, sizeof buffer);
 */
fevstunik_answer fevstunik_login_asked(fevstunik_login *login, fevstunik_asked *asked, uint8_t *buffer, size_t buffer_size);

/* Frees what the handle holds, also what was accepted. The handle is empty then, and may be used
 * for another client. Calling it with an empty handle has no effect. It can't fail.
 *
 *     fevstunik_login_free(&login);
 */
void fevstunik_login_free(fevstunik_login *login);

/* Reads what a request (the bytes of an AP-REQ) asks for, without any key, for a log. Writes the
 * service's text to the buffer, and its place and the numbers to `asked`. `asked` is written even
 * if the buffer is too short.
 *
 * Returns FEVSTUNIK_OK or FEVSTUNIK_SHORT_BUFFER; or writes nothing and returns
 * FEVSTUNIK_NOTHING_THERE if the bytes aren't a request, or FEVSTUNIK_OUT_OF_MEMORY.
 *
 *     fevstunik_asked asked;
 *     answer = fevstunik_request_asks(request, request_size, &asked, buffer, sizeof buffer);
 */
fevstunik_answer fevstunik_request_asks(const uint8_t *request, size_t request_size, fevstunik_asked *asked, uint8_t *buffer,
                                        size_t buffer_size);

/* ---- the client's side ---- */

/* Builds a request (the bytes of an AP-REQ) for a service from the first credential of a cache that
 * fits. A credential fits if it is a ticket of the default principal for the service, has a usable
 * session key, and ends after `at`, the time of the client's clock. `service` has the service's
 * name as text, such as host/web@EX. `confounder` is 16 random bytes, new for each request (a
 * repeat for a longer buffer keeps it). `subkey` has the bytes of the subkey whose type is in
 * `choice`. If that type is 0, they are ignored.
 *
 * Keeps what is needed to read the reply in the handle `pending`, even if the buffer is too short.
 * What that handle held is freed. The cache's handle keeps the keys that were derived, so later
 * requests with the same credential take less time.
 *
 * If the buffer was too short, make the same call again with a longer one, and leave all other
 * arguments as they were. Never make two different requests with the same moment.
 *
 * Returns FEVSTUNIK_OK or FEVSTUNIK_SHORT_BUFFER; or writes nothing, leaves `pending` unchanged,
 * and returns the first that applies: FEVSTUNIK_EMPTY_HANDLE if `cache` is empty;
 * FEVSTUNIK_NOT_UTF8, _BAD_TEXT or _NO_REALM for the service; FEVSTUNIK_BAD_MOMENT;
 * FEVSTUNIK_BAD_CONFOUNDER; FEVSTUNIK_KEY_TYPE or _KEY_LENGTH; FEVSTUNIK_NO_CREDENTIAL,
 * _NO_USABLE_KEY, _CREDENTIAL_EXPIRED, _BAD_TICKET or _TOO_LONG; or FEVSTUNIK_OUT_OF_MEMORY.
 *
 *     fevstunik_pending pending = FEVSTUNIK_PENDING_INIT;
 *     fevstunik_choice choice = {0, 0, false, true};
 *     answer = fevstunik_request(&cache, &pending, (const uint8_t *)"host/web@EX", 11, &now, confounder, 16, &choice, NULL, 0,
 *                                buffer, sizeof buffer);
 */
fevstunik_answer fevstunik_request(fevstunik_cache *cache, fevstunik_pending *pending, const uint8_t *service, size_t service_size,
                                   const fevstunik_time *at, const uint8_t *confounder, size_t confounder_size,
                                   const fevstunik_choice *choice, const uint8_t *subkey, size_t subkey_size, uint8_t *buffer,
                                   size_t buffer_size);

/* Builds a request as fevstunik_request does, for a GSS-API client: the authenticator has a
 * checksum of type 0x8003 (RFC 4121, section 4.1.1), which says what `context` says. Its flag 2
 * (mutual) is set if and only if the request asks for a reply (`choice->wants_reply`), and its flag
 * 1 (delegation) is never set, whatever `context->flags` says. Such a request also needs a sequence
 * number (`choice->has_seq`): 30 random bits, say. The call doesn't check it. Pass the request to
 * fevstunik_token_request.
 *
 * Returns FEVSTUNIK_OK or FEVSTUNIK_SHORT_BUFFER; or writes nothing, leaves `pending` unchanged,
 * and returns the first that applies: FEVSTUNIK_EMPTY_HANDLE if `cache` is empty;
 * FEVSTUNIK_NOT_UTF8, _BAD_TEXT or _NO_REALM for the service; FEVSTUNIK_BAD_MOMENT;
 * FEVSTUNIK_BAD_CONFOUNDER; FEVSTUNIK_KEY_TYPE or _KEY_LENGTH; FEVSTUNIK_NO_CREDENTIAL,
 * _NO_USABLE_KEY, _CREDENTIAL_EXPIRED, _BAD_TICKET or _TOO_LONG; or FEVSTUNIK_OUT_OF_MEMORY.
 *
 *     fevstunik_choice choice = {0, number, true, true};
 *     fevstunik_context_choice context = {0, {0}};
 *     answer = fevstunik_context_request(&cache, &pending, (const uint8_t *)"host/web@EX", 11, &now, confounder, 16, &choice, NULL, 0,
 *                                        &context, buffer, sizeof buffer);
 */
fevstunik_answer fevstunik_context_request(fevstunik_cache *cache, fevstunik_pending *pending, const uint8_t *service, size_t service_size,
                                           const fevstunik_time *at, const uint8_t *confounder, size_t confounder_size,
                                           const fevstunik_choice *choice, const uint8_t *subkey, size_t subkey_size,
                                           const fevstunik_context_choice *context, uint8_t *buffer, size_t buffer_size);

/* Reads the reply (the bytes of an AP-REP) to the request that is kept in the handle, and returns
 * what both sides agree on. Writes the client's text, the session key and the service's subkey to
 * the buffer, one after the other, and their places and the numbers to `agreement`. `agreement` is
 * written even if the buffer is too short. On FEVSTUNIK_SHORT_BUFFER the places lie in the longer
 * buffer that you need: don't use them yet. The handle is unchanged, so another reply may be read.
 *
 * Returns FEVSTUNIK_OK or FEVSTUNIK_SHORT_BUFFER; or writes nothing and returns the first that
 * applies: FEVSTUNIK_EMPTY_HANDLE, FEVSTUNIK_REPLY_TYPE, _REPLY_MALFORMED, _REPLY_INTEGRITY,
 * _REPLY_MISMATCH or FEVSTUNIK_OUT_OF_MEMORY.
 *
 *     fevstunik_agreement agreement;
 *     answer = fevstunik_finish(&pending, reply, reply_size, &agreement, buffer, sizeof buffer);
 */
fevstunik_answer fevstunik_finish(fevstunik_pending *pending, const uint8_t *reply, size_t reply_size, fevstunik_agreement *agreement,
                                  uint8_t *buffer, size_t buffer_size);

/* Frees what the handle holds. The handle is empty then, and may be used again. Calling it with an
 * empty handle has no effect. It can't fail.
 *
 *     fevstunik_pending_free(&pending);
 */
void fevstunik_pending_free(fevstunik_pending *pending);

/* ---- texts (RFC 8009, sections 5 and 6) ---- */

/* Seals a plain text under a key (16 bytes for type 19, 32 for type 20) for a usage (RFC 4120,
 * section 7.5.1; those from 1024 to 2047 are for applications). `confounder` is 16 random bytes,
 * new for each call. The sealed text is 32 bytes (type 19) or 40 bytes (type 20) longer than the
 * plain text. The buffer must not overlap the plain text: the call can't seal in place. It
 * allocates no memory. A sealed text can be sent again, to either side, as long as the key is used:
 * put a number into each text, and use a usage of its own for each direction.
 *
 * Returns FEVSTUNIK_OK or FEVSTUNIK_SHORT_BUFFER; or writes nothing and returns the first that
 * applies: FEVSTUNIK_KEY_TYPE, FEVSTUNIK_KEY_LENGTH or FEVSTUNIK_BAD_CONFOUNDER.
 *
 *     answer = fevstunik_seal(19, key, 16, 1024, confounder, 16, text, text_size, buffer, sizeof buffer);
 */
fevstunik_answer fevstunik_seal(int32_t key_type, const uint8_t *key, size_t key_size, uint32_t usage, const uint8_t *confounder,
                                size_t confounder_size, const uint8_t *plain, size_t plain_size, uint8_t *buffer, size_t buffer_size);

/* Opens a text that was sealed under a key for a usage, and returns the plain text. The buffer must
 * not overlap the sealed text: the call can't open in place. It allocates no memory.
 *
 * Returns FEVSTUNIK_OK or FEVSTUNIK_SHORT_BUFFER; or writes nothing and returns the first that
 * applies: FEVSTUNIK_KEY_TYPE, FEVSTUNIK_KEY_LENGTH, FEVSTUNIK_TEXT_SHORT or
 * FEVSTUNIK_TEXT_INTEGRITY.
 *
 *     answer = fevstunik_open(19, key, 16, 1024, sealed, sealed_size, buffer, sizeof buffer);
 */
fevstunik_answer fevstunik_open(int32_t key_type, const uint8_t *key, size_t key_size, uint32_t usage, const uint8_t *text,
                                size_t text_size, uint8_t *buffer, size_t buffer_size);

/* Returns the checksum of a text under a key for a usage: 16 bytes (type 19) or 24 (type 20). The
 * call allocates no memory.
 *
 * Returns FEVSTUNIK_OK or FEVSTUNIK_SHORT_BUFFER; or writes nothing and returns FEVSTUNIK_KEY_TYPE
 * or FEVSTUNIK_KEY_LENGTH.
 *
 *     uint8_t tag[24];
 *     answer = fevstunik_checksum(20, key, 32, 1025, text, text_size, tag, sizeof tag);
 */
fevstunik_answer fevstunik_checksum(int32_t key_type, const uint8_t *key, size_t key_size, uint32_t usage, const uint8_t *text,
                                    size_t text_size, uint8_t *buffer, size_t buffer_size);

/* Checks that a tag is the whole checksum of a text under a key for a usage. The call allocates no
 * memory.
 *
 * Returns FEVSTUNIK_OK if the tag is the checksum, FEVSTUNIK_TEXT_INTEGRITY if it isn't, or
 * FEVSTUNIK_KEY_TYPE or FEVSTUNIK_KEY_LENGTH.
 *
 *     if (fevstunik_checksum_check(20, key, 32, 1025, text, text_size, tag, 24).code == FEVSTUNIK_OK) ...
 */
fevstunik_answer fevstunik_checksum_check(int32_t key_type, const uint8_t *key, size_t key_size, uint32_t usage, const uint8_t *text,
                                          size_t text_size, const uint8_t *tag, size_t tag_size);

/* ---- GSS-API tokens, in which web clients, ssh and Windows send a request ---- */

/* Opens the first token of a client, and returns the request. The token is a Kerberos token alone
 * (RFC 4121, section 4.1), or a negotiation (SPNEGO; RFC 4178, section 4.2.1) whose first mechanism
 * is Kerberos. `wrapped` is filled on FEVSTUNIK_OK and FEVSTUNIK_SHORT_BUFFER: pass it to the call
 * that wraps the answer. A client may also begin a negotiation without a token: the call returns
 * FEVSTUNIK_TOKEN_EMPTY then, and fevstunik_negotiation_take asks the client for it. The buffer
 * must not overlap the token. The call allocates no memory.
 *
 * Returns FEVSTUNIK_OK or FEVSTUNIK_SHORT_BUFFER; or writes nothing and returns one of the codes
 * from FEVSTUNIK_NOT_A_TOKEN to FEVSTUNIK_NESTED_NEGOTIATION.
 *
 *     fevstunik_wrapped wrapped;
 *     answer = fevstunik_token_open(token, token_size, &wrapped, request, sizeof request);
 */
fevstunik_answer fevstunik_token_open(const uint8_t *token, size_t token_size, fevstunik_wrapped *wrapped, uint8_t *buffer,
                                      size_t buffer_size);

/* Returns the first token of a client for a request. Build the request with
 * fevstunik_context_request: RFC 4121, section 4.1.1, requires the checksum of type 0x8003. A
 * service of this library accepts a request without one, but others may refuse it, or not reply.
 *
 * Returns FEVSTUNIK_OK or FEVSTUNIK_SHORT_BUFFER; or writes nothing and returns
 * FEVSTUNIK_BAD_MECHANISM, FEVSTUNIK_TOO_LONG (the token would have more than 1,048,576 bytes) or
 * FEVSTUNIK_OUT_OF_MEMORY.
 *
 *     const fevstunik_wrapped wrapped = {FEVSTUNIK_MECHANISM_KERBEROS, FEVSTUNIK_MECHANISM_KERBEROS};
 *     answer = fevstunik_token_request(&wrapped, request, request_size, buffer, sizeof buffer);
 */
fevstunik_answer fevstunik_token_request(const fevstunik_wrapped *wrapped, const uint8_t *request, size_t request_size, uint8_t *buffer,
                                         size_t buffer_size);

/* Returns the token that answers a client with a reply. In a negotiation it says that the login is
 * complete.
 *
 * Returns FEVSTUNIK_OK or FEVSTUNIK_SHORT_BUFFER; or writes nothing and returns
 * FEVSTUNIK_BAD_MECHANISM, FEVSTUNIK_TOO_LONG or FEVSTUNIK_OUT_OF_MEMORY.
 *
 *     answer = fevstunik_token_reply(&wrapped, reply, reply_size, buffer, sizeof buffer);
 */
fevstunik_answer fevstunik_token_reply(const fevstunik_wrapped *wrapped, const uint8_t *reply, size_t reply_size, uint8_t *buffer,
                                       size_t buffer_size);

/* Returns the token that answers a client with a KRB-ERROR. In a negotiation it says that the login
 * is rejected.
 *
 * Returns FEVSTUNIK_OK or FEVSTUNIK_SHORT_BUFFER; or writes nothing and returns
 * FEVSTUNIK_BAD_MECHANISM, FEVSTUNIK_TOO_LONG or FEVSTUNIK_OUT_OF_MEMORY.
 *
 *     answer = fevstunik_token_error(&wrapped, error, error_size, buffer, sizeof buffer);
 */
fevstunik_answer fevstunik_token_error(const fevstunik_wrapped *wrapped, const uint8_t *error, size_t error_size, uint8_t *buffer,
                                       size_t buffer_size);

/* Opens a service's answer to a client's first token, and returns the reply or the KRB-ERROR.
 * `is_error` says which; it is set on FEVSTUNIK_OK and FEVSTUNIK_SHORT_BUFFER. An answer in a
 * negotiation may have neither, for example if the request asked for no reply. Then the call
 * returns FEVSTUNIK_TOKEN_EMPTY or FEVSTUNIK_TOKEN_MALFORMED, though the service may have let the
 * client in: fevstunik_verdict_read says what it means. The call allocates no memory.
 *
 * Returns FEVSTUNIK_OK or FEVSTUNIK_SHORT_BUFFER; or writes nothing and returns
 * FEVSTUNIK_NOT_A_TOKEN, _TOKEN_MALFORMED, _TOKEN_EMPTY, _TOKEN_ID or _TOKEN_UNFRAMED, or one of
 * the codes of other mechanisms from FEVSTUNIK_OTHER_MECHANISM to FEVSTUNIK_NESTED_NEGOTIATION.
 *
 *     bool is_error;
 *     answer = fevstunik_token_answer(token, token_size, &is_error, reply, sizeof reply);
 */
fevstunik_answer fevstunik_token_answer(const uint8_t *token, size_t token_size, bool *is_error, uint8_t *buffer, size_t buffer_size);

/* Takes the next token of a client, from the first on. If it holds a request, the request is
 * written to the buffer, and `wrapped` says how its answer is wrapped. If it begins a negotiation
 * whose first mechanism is Kerberos and holds no request, `wrapped->mechanism` is
 * FEVSTUNIK_MECHANISM_NONE, and the buffer has the answer that asks for it (22 bytes at most): send
 * it, and take the client's next token. A negotiation has at most two such rounds. One whose first
 * mechanism is another is refused, also if Kerberos is in its list: a change of the list would be
 * found only by a mechListMIC, which fevstunik_service_answer makes and checks, and this call
 * doesn't. `negotiation` is all zero before the first token. The call changes it, unless it returns
 * FEVSTUNIK_SHORT_BUFFER, FEVSTUNIK_BAD_NEGOTIATION or FEVSTUNIK_OUT_OF_MEMORY: then call again
 * with the same token. `wrapped` is filled on FEVSTUNIK_OK and FEVSTUNIK_SHORT_BUFFER. The buffer
 * must not overlap the token.
 *
 * Returns FEVSTUNIK_OK or FEVSTUNIK_SHORT_BUFFER; or writes nothing to the buffer and returns one
 * of the codes from FEVSTUNIK_NOT_A_TOKEN to FEVSTUNIK_NESTED_NEGOTIATION,
 * FEVSTUNIK_NEGOTIATION_OVER, FEVSTUNIK_BAD_NEGOTIATION or FEVSTUNIK_OUT_OF_MEMORY.
 *
 *     fevstunik_negotiation negotiation = {0, 0};
 *     answer = fevstunik_negotiation_take(&negotiation, token, token_size, &wrapped, request, sizeof request);
 */
fevstunik_answer fevstunik_negotiation_take(fevstunik_negotiation *negotiation, const uint8_t *token, size_t token_size,
                                            fevstunik_wrapped *wrapped, uint8_t *buffer, size_t buffer_size);

/* Reads a KRB-ERROR, as fevstunik_token_answer returns it. The texts and the data are written to
 * the buffer. `found` is filled on FEVSTUNIK_OK and FEVSTUNIK_SHORT_BUFFER: on the latter the
 * places lie in the longer buffer that you need. Nobody has signed a KRB-ERROR: what it says may be
 * forged. If the code is 37 (KRB_AP_ERR_SKEW), `stime` less the client's clock is by how much the
 * clocks differ. If that is less than the skew, the service has just started, or its clock was
 * ahead before.
 *
 * Returns FEVSTUNIK_OK or FEVSTUNIK_SHORT_BUFFER; or writes nothing and returns
 * FEVSTUNIK_ERROR_MALFORMED or FEVSTUNIK_OUT_OF_MEMORY.
 *
 *     fevstunik_krb_error found;
 *     answer = fevstunik_krb_error_read(error, error_size, &found, buffer, sizeof buffer);
 */
fevstunik_answer fevstunik_krb_error_read(const uint8_t *error, size_t error_size, fevstunik_krb_error *found, uint8_t *buffer,
                                          size_t buffer_size);

/* Returns the answer of a negotiation that holds no reply and no error: accept-completed for a
 * client that asked for no reply, and reject for one that is refused without a KRB-ERROR. MIT's
 * client needs the first to complete, and no client the second.
 *
 * Returns FEVSTUNIK_OK or FEVSTUNIK_SHORT_BUFFER; or writes nothing and returns
 * FEVSTUNIK_BAD_VERDICT or FEVSTUNIK_OUT_OF_MEMORY.
 *
 *     const fevstunik_verdict verdict = {FEVSTUNIK_SAYS_COMPLETED, FEVSTUNIK_MECHANISM_KERBEROS};
 *     answer = fevstunik_verdict_token(&verdict, buffer, sizeof buffer);
 */
fevstunik_answer fevstunik_verdict_token(const fevstunik_verdict *verdict, uint8_t *buffer, size_t buffer_size);

/* Reads a service's answer in a negotiation that holds no reply and no error. The call allocates no
 * memory.
 *
 * Returns FEVSTUNIK_OK; or writes nothing and returns FEVSTUNIK_NOTHING_THERE if the bytes aren't
 * such an answer. fevstunik_token_answer says what they are then.
 *
 *     answer = fevstunik_verdict_read(token, token_size, &verdict);
 */
fevstunik_answer fevstunik_verdict_read(const uint8_t *token, size_t token_size, fevstunik_verdict *verdict);

/* Reads what a GSS-API client asks for, in the authenticator's checksum of type 0x8003 (32771; RFC
 * 4121, section 4.1.1), as `fevstunik_accepted_item` returns it. Check the item's type first: the
 * call can't. The bindings, the delegation and the extensions are written to the buffer. `context`
 * is filled on FEVSTUNIK_OK and FEVSTUNIK_SHORT_BUFFER: on the latter the places lie in the longer
 * buffer that you need. The call compares the bindings with nothing: if you know your channel's
 * bindings, compare these bytes with their hash, which is the MD5 of the structure in RFC 4121,
 * section 4.1.1.2, not of the bindings alone. 16 zeros mean that the client bound nothing; decide
 * whether you accept that.
 *
 * Returns FEVSTUNIK_OK or FEVSTUNIK_SHORT_BUFFER; or writes nothing and returns
 * FEVSTUNIK_CONTEXT_TRUNCATED, FEVSTUNIK_CONTEXT_BINDINGS, FEVSTUNIK_CONTEXT_DELEGATION or
 * FEVSTUNIK_OUT_OF_MEMORY.
 *
 *     fevstunik_context context;
 *     answer = fevstunik_context_read(checksum, checksum_size, &context, buffer, sizeof buffer);
 */
fevstunik_answer fevstunik_context_read(const uint8_t *checksum, size_t checksum_size, fevstunik_context *context, uint8_t *buffer,
                                        size_t buffer_size);

/* Returns the hash of a channel's bindings (RFC 4121, section 4.1.1.2): 16 bytes, for the field
 * `bindings_hash` of a service's options, for fevstunik_acceptor_replace_bindings, and for the
 * field `bindings` of a client's choice. `bindings` has the application's data. For a TLS channel
 * these are `tls-server-end-point:` and then the hash of the server's certificate (RFC 5929,
 * section 4.1): its SHA-256, unless it is signed with SHA-384 or SHA-512: then that hash. The
 * bindings have no addresses. The call allocates no memory.
 *
 * Returns FEVSTUNIK_OK or FEVSTUNIK_SHORT_BUFFER; or writes nothing and returns FEVSTUNIK_TOO_LONG
 * if the data have 4,294,967,296 bytes or more.
 *
 *     answer = fevstunik_bindings_hash(bindings, bindings_size, options.bindings_hash, sizeof options.bindings_hash);
 */
fevstunik_answer fevstunik_bindings_hash(const uint8_t *bindings, size_t bindings_size, uint8_t *buffer, size_t buffer_size);

/* ---- messages after a login ---- */

/* Begins the messages of one side after a login: MIC and Wrap tokens of the GSS-API (RFC 4121,
 * section 4.2). They are protected by the service's subkey if it has one, else by the client's if
 * it has one, else by the session key. A subkey whose type is 0 is none, and its bytes aren't read.
 * What the handle held is freed. Begin the messages of a login once: others of the same login begin
 * again at the first numbers, and take what was taken before.
 *
 * Returns FEVSTUNIK_OK; or leaves the handle unchanged and returns the first that applies:
 * FEVSTUNIK_BAD_ROLE; for the session key, the client's subkey and the service's, in this order,
 * FEVSTUNIK_KEY_TYPE or FEVSTUNIK_KEY_LENGTH; FEVSTUNIK_OUT_OF_MEMORY.
 *
 *     fevstunik_messages messages = FEVSTUNIK_MESSAGES_INIT;
 *     fevstunik_message_options agreed = {.role = FEVSTUNIK_ROLE_CLIENT, .session_type = both.session_type,
 *         .client_subkey_type = choice.subkey_type, .client_seq = choice.seq,
 *         .service_subkey_type = both.service_subkey_type, .service_seq = both.service_seq};
 *     answer = fevstunik_messages_new(&messages, &agreed, bytes + both.session_key.at, both.session_key.size, subkey, subkey_size,
 *         bytes + both.service_subkey.at, both.service_subkey.size);
 */
fevstunik_answer fevstunik_messages_new(fevstunik_messages *messages, const fevstunik_message_options *options, const uint8_t *session_key,
                                        size_t session_key_size, const uint8_t *client_subkey, size_t client_subkey_size,
                                        const uint8_t *service_subkey, size_t service_subkey_size);

/* Begins the messages of one side as fevstunik_messages_new does, after a login in which each side
 * has sent its first message: the MIC of the client's list of mechanisms (RFC 4178, section 5). The
 * numbers of `options` are the first ones, those of the MICs, and the messages go on with the next
 * ones.
 *
 * Returns FEVSTUNIK_OK; or leaves the handle unchanged and returns the first that applies:
 * FEVSTUNIK_BAD_ROLE; for the session key, the client's subkey and the service's, in this order,
 * FEVSTUNIK_KEY_TYPE or FEVSTUNIK_KEY_LENGTH; FEVSTUNIK_OUT_OF_MEMORY.
 *
 *     answer = fevstunik_messages_after_list(&messages, &agreed, bytes + both.session_key.at, both.session_key.size, subkey, subkey_size,
 *         bytes + both.service_subkey.at, both.service_subkey.size);
 */
fevstunik_answer fevstunik_messages_after_list(fevstunik_messages *messages, const fevstunik_message_options *options,
                                               const uint8_t *session_key, size_t session_key_size, const uint8_t *client_subkey,
                                               size_t client_subkey_size, const uint8_t *service_subkey, size_t service_subkey_size);

/* Begins the service's messages to a client that was let in, as fevstunik_messages_new does.
 * `choice` and `subkey` are what the reply has: those of fevstunik_accepted_reply; or, after
 * fevstunik_service_answer, a choice with the type of the service's subkeys and no number, and the
 * random bytes after the first 16 that were passed to fevstunik_service_answer, the same for each
 * message of the login: keep them until this call, also over fevstunik_login_settle. If the
 * client's list of mechanisms was checked, the messages go on after the MICs of both sides. The
 * choice and the subkey don't count if the client asked for no reply: then both sides count from
 * the client's first number, as MIT krb5 does. With `any_order` repeats are refused still.
 * `accepted` is unchanged. Begin the messages of a login once.
 *
 * Returns FEVSTUNIK_OK; or leaves the handle unchanged and returns the first that applies:
 * FEVSTUNIK_EMPTY_HANDLE or FEVSTUNIK_NOTHING_THERE (of `accepted`); for the client's subkey and
 * the service's, in this order, FEVSTUNIK_KEY_TYPE or FEVSTUNIK_KEY_LENGTH;
 * FEVSTUNIK_OUT_OF_MEMORY.
 *
 *     fevstunik_choice choice = {.subkey_type = 20};
 *     answer = fevstunik_messages_of_accepted(&messages, &login.accepted, &choice, random + 16, 32, false);
 */
fevstunik_answer fevstunik_messages_of_accepted(fevstunik_messages *messages, fevstunik_accepted *accepted, const fevstunik_choice *choice,
                                                const uint8_t *subkey, size_t subkey_size, bool any_order);

/* Writes the MIC token of a text to the buffer, with this side's next number: 32 bytes (type 19) or
 * 40 (type 20). The other side checks with it that the text is unchanged. The text is sent beside
 * it. The call allocates no memory.
 *
 * Returns FEVSTUNIK_OK; or changes nothing and returns the first that applies:
 * FEVSTUNIK_EMPTY_HANDLE, FEVSTUNIK_NUMBERS_USED_UP or FEVSTUNIK_SHORT_BUFFER.
 *
 *     answer = fevstunik_messages_mic(&messages, text, text_size, token, sizeof token);
 */
fevstunik_answer fevstunik_messages_mic(fevstunik_messages *messages, const uint8_t *text, size_t text_size, uint8_t *buffer,
                                        size_t buffer_size);

/* Checks that a token is the other side's MIC token of a text, and takes it. `order` says how it
 * stands to those before it. The call allocates no memory.
 *
 * Returns FEVSTUNIK_OK; or changes nothing and returns the first that applies:
 * FEVSTUNIK_EMPTY_HANDLE, FEVSTUNIK_MESSAGE_DEFECTIVE, _MESSAGE_DIRECTION, _MESSAGE_OTHER_KEY,
 * _MESSAGE_INTEGRITY, FEVSTUNIK_MESSAGE_GAP (without `any_order`), or, unless both `any_order` and
 * `repeats` are true, FEVSTUNIK_MESSAGE_REPEAT or _MESSAGE_OLD.
 *
 *     answer = fevstunik_messages_verify(&messages, text, text_size, token, token_size, &received);
 */
fevstunik_answer fevstunik_messages_verify(fevstunik_messages *messages, const uint8_t *text, size_t text_size, const uint8_t *token,
                                           size_t token_size, fevstunik_received *received);

/* Writes the Wrap token of a text to the buffer, with this side's next number. Sealed it has 64
 * bytes (type 19) or 72 (type 20) more than the text, and otherwise the text in plain and 32 or 40
 * bytes more. The confounder is 16 random bytes, new for each call; a message in plain doesn't
 * contain it, and the call wants it all the same. The call allocates no memory.
 *
 * Returns FEVSTUNIK_OK; or changes nothing and returns the first that applies:
 * FEVSTUNIK_BAD_CONFOUNDER, FEVSTUNIK_EMPTY_HANDLE, FEVSTUNIK_NUMBERS_USED_UP or
 * FEVSTUNIK_SHORT_BUFFER.
 *
 *     answer = fevstunik_messages_wrap(&messages, true, random, 16, text, text_size, buffer, sizeof buffer);
 */
fevstunik_answer fevstunik_messages_wrap(fevstunik_messages *messages, bool sealed, const uint8_t *confounder, size_t confounder_size,
                                         const uint8_t *text, size_t text_size, uint8_t *buffer, size_t buffer_size);

/* Opens a Wrap token of the other side in place, and takes it. `order` says how it stands to those
 * before it. The token's first 16 bytes stay. What stands around the text after them is
 * unspecified. The call allocates no memory.
 *
 * Returns FEVSTUNIK_OK; or leaves the handle and `received` unchanged and returns the first that
 * applies: FEVSTUNIK_EMPTY_HANDLE, FEVSTUNIK_MESSAGE_DEFECTIVE, _MESSAGE_DIRECTION,
 * _MESSAGE_OTHER_KEY, _MESSAGE_INTEGRITY, FEVSTUNIK_MESSAGE_GAP (without `any_order`), or, unless
 * both `any_order` and `repeats` are true, FEVSTUNIK_MESSAGE_REPEAT or _MESSAGE_OLD. The last four
 * leave zeros after the token's first 16 bytes, and the others leave the token unchanged.
 *
 *     answer = fevstunik_messages_unwrap(&messages, token, token_size, &received);
 *     if (answer.code == FEVSTUNIK_OK) fwrite(token + received.text.at, 1, received.text.size, stdout);
 */
fevstunik_answer fevstunik_messages_unwrap(fevstunik_messages *messages, uint8_t *token, size_t token_size, fevstunik_received *received);

/* Returns in `size` how long a text may be at the most so that its Wrap token has at most so many
 * bytes. The handle is unchanged.
 *
 * Returns FEVSTUNIK_OK, FEVSTUNIK_EMPTY_HANDLE, or FEVSTUNIK_TOO_LONG if even the token of an empty
 * text is longer.
 *
 *     size_t longest = fevstunik_messages_limit(&messages, true, 65536).size;
 */
fevstunik_answer fevstunik_messages_limit(fevstunik_messages *messages, bool sealed, size_t size);

/* Frees what the handle holds. The handle is empty then, and may be used again. Calling it with an
 * empty handle has no effect. It can't fail.
 *
 *     fevstunik_messages_free(&messages);
 */
void fevstunik_messages_free(fevstunik_messages *messages);

#ifdef __cplusplus
}
#endif

#endif
