/* What the client and the service over MIT krb5 need beside the example's messages: keys that seal, open and sum, and a name. */
#ifndef MIT_H
#define MIT_H

#include "../peers/peer.h"
#include "wire.h"

static krb5_data data_of(const void *at, size_t size)
{
    krb5_data data = {0};

    data.data = (char *)at;
    data.length = (unsigned)size;
    return data;
}

static krb5_principal principal_of(const char *text)
{
    krb5_principal name;

    must(krb5_parse_name(context, text, &name), text);
    return name;
}

/* A key of its own, of one that a state holds. */
static krb5_keyblock *copied(const krb5_keyblock *key)
{
    krb5_keyblock *copy;

    must(krb5_copy_keyblock(context, key, &copy), "a key");
    return copy;
}

/* The checksum that goes with the type of a key (RFC 8009, section 6). */
static krb5_checksum receipt_of(const krb5_keyblock *key, const krb5_data *text)
{
    krb5_checksum tag;

    must(krb5_c_make_checksum(context, 0, key, RECEIPT_USAGE, text, &tag), "a receipt");
    return tag;
}

/* The code of RFC 4120, section 7.5.9, or 60 for an error that has none. */
static long code_of(krb5_error_code fault)
{
    long code = (long)fault - (long)KRB5KDC_ERR_NONE;

    return code >= 0 && code <= 127 ? code : 60;
}

#endif
