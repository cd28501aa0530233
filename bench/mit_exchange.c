/* Times MIT krb5's krb5_rd_req with a replay cache, for bench/stores.py.
 *
 *   mit_exchange remember KEYTAB CACHE COUNT      prints nanoseconds a call
 *
 * Requests are for the first credential of the cache, at the moment that the clock shows. The keytab is in memory. Each request is looked up and
 * kept in the replay cache that KRB5RCACHENAME names, and a repeat has to be refused at the end.
 */
#include <errno.h>
#include <krb5.h>
#include <stdio.h>
#include <stdlib.h>
#include <string.h>
#include <time.h>

static krb5_context context;

static double now(void)
{
    struct timespec t;
    clock_gettime(CLOCK_MONOTONIC, &t);
    return t.tv_sec * 1e9 + t.tv_nsec;
}

static void must(krb5_error_code code, const char *what)
{
    if (code) {
        fprintf(stderr, "mit_exchange: %s: %s\n", what, krb5_get_error_message(context, code));
        exit(1);
    }
}

static krb5_creds first_credential(const char *name)
{
    krb5_ccache cache;
    krb5_cc_cursor cursor;
    krb5_creds credential;
    must(krb5_cc_resolve(context, name, &cache), "the cache");
    must(krb5_cc_start_seq_get(context, cache, &cursor), "the cache");
    must(krb5_cc_next_cred(context, cache, &cursor, &credential), "a credential");
    must(krb5_cc_end_seq_get(context, cache, &cursor), "the cache");
    return credential;
}

static krb5_keytab keytab_in_memory(const char *name)
{
    krb5_keytab file, memory;
    krb5_kt_cursor cursor;
    krb5_keytab_entry entry;
    must(krb5_kt_resolve(context, name, &file), "the keytab");
    must(krb5_kt_resolve(context, "MEMORY:bench", &memory), "a keytab in memory");
    must(krb5_kt_start_seq_get(context, file, &cursor), "the keytab");
    while (krb5_kt_next_entry(context, file, &entry, &cursor) == 0)
        must(krb5_kt_add_entry(context, memory, &entry), "an entry");
    must(krb5_kt_end_seq_get(context, file, &cursor), "the keytab");
    return memory;
}

static krb5_auth_context state_with(krb5_flags flags)
{
    krb5_auth_context state;
    must(krb5_auth_con_init(context, &state), "a context");
    must(krb5_auth_con_setflags(context, state, flags), "flags");
    return state;
}

static void make(krb5_creds *credential, krb5_data *made, long count)
{
    krb5_auth_context state = state_with(0);
    for (long i = 0; i < count; i++)
        must(krb5_mk_req_extended(context, &state, 0, NULL, credential, &made[i]), "a request");
}

static krb5_error_code read_request(krb5_keytab keytab, krb5_creds *credential, const krb5_data *request)
{
    /* one that was used holds a key, and would read a request of user to user */
    krb5_auth_context state = state_with(KRB5_AUTH_CONTEXT_DO_TIME);
    krb5_ticket *ticket = NULL;
    krb5_error_code code = krb5_rd_req(context, &state, request, credential->server, keytab, NULL, &ticket);
    krb5_free_ticket(context, ticket);
    krb5_auth_con_free(context, state);
    return code;
}

static double accept(krb5_keytab keytab, krb5_creds *credential, long count)
{
    krb5_data *requests = calloc(count, sizeof *requests);
    make(credential, requests, count);
    double start = now();
    for (long i = 0; i < count; i++)
        must(read_request(keytab, credential, &requests[i]), "a call");
    double took = (now() - start) / count;
    if (read_request(keytab, credential, &requests[0]) != KRB5KRB_AP_ERR_REPEAT)
        must(EINVAL, "a repeat that isn't refused");
    return took;
}

int main(int argc, char **argv)
{
    if (argc != 5 || strcmp(argv[1], "remember") != 0)
        return 2;
    must(krb5_init_context(&context), "a context");
    krb5_creds credential = first_credential(argv[3]);
    printf("%.1f\n", accept(keytab_in_memory(argv[2]), &credential, atol(argv[4])));
    return 0;
}
