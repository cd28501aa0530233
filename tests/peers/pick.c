/*
 * Picks keys from a keytab as MIT krb5's or Heimdal's library does (the latter where HEIMDAL is defined).
 *
 *     pick KEYTAB
 *
 * It reads lines `name etype kvno`, with 0 for the highest version number, and prints for each the entry that krb5_kt_get_entry gives:
 * `kvno etype timestamp`, or `none`.
 */
#include "peer.h"

static void pick(krb5_keytab keytab, const char *name, krb5_enctype etype, krb5_kvno kvno)
{
    krb5_principal principal;
    krb5_keytab_entry entry;
    must(krb5_parse_name(context, name, &principal), name);
    if (krb5_kt_get_entry(context, keytab, principal, kvno, etype, &entry)) {
        printf("none\n");
        return;
    }
#ifdef HEIMDAL
    int found = entry.keyblock.keytype;
#else
    int found = entry.key.enctype;
#endif
    printf("%u %d %lu\n", (unsigned)entry.vno, found, (unsigned long)(uint32_t)entry.timestamp);
}

int main(int count, char **words)
{
    krb5_keytab keytab;
    if (count != 2)
        return 2;
    must(krb5_init_context(&context), "krb5_init_context");
    must(krb5_kt_resolve(context, words[1], &keytab), words[1]);
    for (char *line; (line = next_line());) {
        char *name = strtok(line, " "), *etype = strtok(NULL, " "), *kvno = strtok(NULL, " ");
        if (!name || !etype || !kvno)
            must(EINVAL, "a line");
        pick(keytab, name, atoi(etype), (krb5_kvno)strtoul(kvno, NULL, 10));
    }
    return 0;
}
