/* Times MIT krb5's reading and writing of messages: mit_messages MESSAGE decode|encode HEX COUNT prints nanoseconds a call, with the freeing of what it answered. krb5.h has no prototypes of most of these calls. */
#include <krb5.h>
#include <stdio.h>
#include <stdlib.h>
#include <string.h>
#include <time.h>

krb5_error_code decode_krb5_ap_req(const krb5_data *bytes, krb5_ap_req **made);
krb5_error_code decode_krb5_ticket(const krb5_data *bytes, krb5_ticket **made);
krb5_error_code decode_krb5_enc_tkt_part(const krb5_data *bytes, krb5_enc_tkt_part **made);
krb5_error_code encode_krb5_ap_req(const krb5_ap_req *message, krb5_data **made);
krb5_error_code encode_krb5_ticket(const krb5_ticket *message, krb5_data **made);
krb5_error_code encode_krb5_enc_tkt_part(const krb5_enc_tkt_part *message, krb5_data **made);
krb5_error_code decode_krb5_authenticator(const krb5_data *bytes, krb5_authenticator **made);
krb5_error_code decode_krb5_ap_rep(const krb5_data *bytes, krb5_ap_rep **made);
krb5_error_code decode_krb5_ap_rep_enc_part(const krb5_data *bytes, krb5_ap_rep_enc_part **made);
krb5_error_code decode_krb5_error(const krb5_data *bytes, krb5_error **made);
krb5_error_code encode_krb5_authenticator(const krb5_authenticator *message, krb5_data **made);
krb5_error_code encode_krb5_ap_rep(const krb5_ap_rep *message, krb5_data **made);
krb5_error_code encode_krb5_ap_rep_enc_part(const krb5_ap_rep_enc_part *message, krb5_data **made);
krb5_error_code encode_krb5_error(const krb5_error *message, krb5_data **made);
void krb5_free_ap_rep(krb5_context context, krb5_ap_rep *message);
void krb5_free_ap_req(krb5_context context, krb5_ap_req *message);
void krb5_free_enc_tkt_part(krb5_context context, krb5_enc_tkt_part *message);

static double now(void)
{
    struct timespec t;
    clock_gettime(CLOCK_PROCESS_CPUTIME_ID, &t);
    return t.tv_sec * 1e9 + t.tv_nsec;
}

static void must(int is_well, const char *what)
{
    if (!is_well) {
        fprintf(stderr, "mit_messages: %s\n", what);
        exit(1);
    }
}

static krb5_data from_hex(const char *text)
{
    size_t size = strlen(text) / 2;
    unsigned char *bytes = malloc(size);
    for (size_t i = 0; i < size; i++) {
        unsigned byte;
        must(sscanf(text + 2 * i, "%2x", &byte) == 1, "no hex");
        bytes[i] = byte;
    }
    return (krb5_data){.length = size, .data = (char *)bytes};
}

/* A function for each type of message. It checks that the bytes come back, and then times one of the ways; the sum of what
   was read or written is used. In the reading each turn reads other bytes: the last one is of an OCTET STRING. */
#define TIMED(NAME, TYPE, DECODE, ENCODE, FREE, FIELD)                                              \
    static double NAME(krb5_context context, krb5_data bytes, int encodes, long count, long *sum)   \
    {                                                                                               \
        TYPE *message, *again;                                                                      \
        krb5_data *made;                                                                            \
        must(!DECODE(&bytes, &message) && !ENCODE(message, &made), "no message");                   \
        must(made->length == bytes.length && !memcmp(made->data, bytes.data, made->length), "other bytes"); \
        krb5_free_data(context, made);                                                              \
        double start = now();                                                                       \
        for (long i = 0; i < count; i++) {                                                          \
            if (encodes) {                                                                          \
                must(!ENCODE(message, &made), "not written");                                       \
                *sum += made->data[made->length - 1];                                               \
                krb5_free_data(context, made);                                                      \
            } else {                                                                                \
                bytes.data[bytes.length - 1] = i;                                                   \
                must(!DECODE(&bytes, &again), "not read");                                          \
                *sum += again->FIELD;                                                               \
                FREE(context, again);                                                               \
            }                                                                                       \
        }                                                                                           \
        return now() - start;                                                                       \
    }

TIMED(ap_req, krb5_ap_req, decode_krb5_ap_req, encode_krb5_ap_req, krb5_free_ap_req, authenticator.ciphertext.data[0])
TIMED(ticket, krb5_ticket, decode_krb5_ticket, encode_krb5_ticket, krb5_free_ticket, enc_part.ciphertext.data[0])
TIMED(enc_ticket, krb5_enc_tkt_part, decode_krb5_enc_tkt_part, encode_krb5_enc_tkt_part, krb5_free_enc_tkt_part, times.endtime)

TIMED(authenticator, krb5_authenticator, decode_krb5_authenticator, encode_krb5_authenticator, krb5_free_authenticator, subkey->contents[15])
TIMED(ap_rep, krb5_ap_rep, decode_krb5_ap_rep, encode_krb5_ap_rep, krb5_free_ap_rep, enc_part.ciphertext.data[0])
TIMED(enc_ap_rep, krb5_ap_rep_enc_part, decode_krb5_ap_rep_enc_part, encode_krb5_ap_rep_enc_part, krb5_free_ap_rep_enc_part,
      subkey->contents[15])
TIMED(error, krb5_error, decode_krb5_error, encode_krb5_error, krb5_free_error, e_data.data[0])

/* The messages, by the words for them. */
static const struct message {
    const char *word;
    double (*time)(krb5_context context, krb5_data bytes, int encodes, long count, long *sum);
} messages[] = {
    {"ap-req", ap_req}, {"ticket", ticket}, {"enc-ticket", enc_ticket}, {"authenticator", authenticator},
    {"ap-rep", ap_rep}, {"enc-ap-rep", enc_ap_rep}, {"error", error},
};

int main(int argc, char **argv)
{
    if (argc != 5)
        return 2;
    krb5_context context;
    must(!krb5_init_context(&context), "no context");
    long count = atol(argv[4]), sum = 0;
    for (size_t at = 0; at < sizeof messages / sizeof *messages; at++)
        if (!strcmp(argv[1], messages[at].word)) {
            double took = messages[at].time(context, from_hex(argv[3]), !strcmp(argv[2], "encode"), count, &sum);
            printf("%.1f %ld\n", took / count, sum);
            return 0;
        }
    return 2;
}
