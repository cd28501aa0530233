/* Times sealing and opening, by the library for C and by MIT krb5.
 *
 *   seal ours|theirs seal|open TYPE SIZE COUNT    prints the nanoseconds of processor time of each call
 *
 * The calls are fevstunik_seal and fevstunik_open, krb5_c_encrypt and krb5_c_decrypt, on a plain text of SIZE bytes. Both are made once before,
 * so that all memory has been used.
 */
#include <krb5.h>

#include "fevstunik.h"
#include "measure.h"

enum { USAGE = 1024, MORE = 64 };

static uint8_t key[32];
static const uint8_t confounder[16];
static int type;
static struct bytes plain, sealed;
static krb5_context context;

static size_t key_size(void)
{
    return type == 19 ? 16 : 32;
}

static void our_seal(void)
{
    fevstunik_answer answer = fevstunik_seal(type, key, key_size(), USAGE, confounder, sizeof confounder, plain.at, plain.size, sealed.at,
                                             plain.size + MORE);
    must(answer.code == FEVSTUNIK_OK, "fevstunik_seal", answer.code);
    sealed.size = answer.size;
}

static void our_open(void)
{
    fevstunik_answer answer = fevstunik_open(type, key, key_size(), USAGE, sealed.at, sealed.size, plain.at, plain.size + MORE);
    must(answer.code == FEVSTUNIK_OK && answer.size == plain.size, "fevstunik_open", answer.code);
}

static krb5_keyblock keyblock(void)
{
    return (krb5_keyblock){.enctype = type, .length = key_size(), .contents = key};
}

static void their_seal(void)
{
    krb5_keyblock block = keyblock();
    krb5_data in = {.length = plain.size, .data = (char *)plain.at};
    must(krb5_c_encrypt_length(context, type, plain.size, &sealed.size) == 0, "krb5_c_encrypt_length", 0);
    krb5_enc_data out = {.enctype = type, .ciphertext = {.length = sealed.size, .data = (char *)sealed.at}};
    must(krb5_c_encrypt(context, &block, USAGE, NULL, &in, &out) == 0, "krb5_c_encrypt", 0);
}

static void their_open(void)
{
    krb5_keyblock block = keyblock();
    krb5_enc_data in = {.enctype = type, .ciphertext = {.length = sealed.size, .data = (char *)sealed.at}};
    krb5_data out = {.length = sealed.size, .data = (char *)plain.at};
    must(krb5_c_decrypt(context, &block, USAGE, NULL, &in, &out) == 0, "krb5_c_decrypt", 0);
}

int main(int argc, char **argv)
{
    if (argc != 6)
        return 2;
    int is_ours = strcmp(argv[1], "ours") == 0, opens = strcmp(argv[2], "open") == 0;
    void (*sealing)(void) = is_ours ? our_seal : their_seal, (*opening)(void) = is_ours ? our_open : their_open;
    type = atoi(argv[3]);
    plain.size = strtoul(argv[4], NULL, 10);
    long count = atol(argv[5]);
    plain.at = calloc(1, plain.size + MORE), sealed.at = malloc(plain.size + MORE);
    must(plain.at != NULL && sealed.at != NULL && (is_ours || krb5_init_context(&context) == 0), "room", 0);
    sealing();
    opening();
    double began = processor_time();
    for (long i = 0; i < count; i++)
        (opens ? opening : sealing)();
    tell(began, count);
    return 0;
}
