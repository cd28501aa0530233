/* Times AES of libcrypto on single blocks, each the last one's ciphertext: aes_blocks encrypt|decrypt BITS COUNT prints nanoseconds
   a block. With OPENSSL_ia32cap=~0x200000200000000 in the environment it does without AES-NI. */
#include <openssl/evp.h>
#include <stdio.h>
#include <stdlib.h>
#include <string.h>
#include <time.h>

static double now(void)
{
    struct timespec t;
    clock_gettime(CLOCK_MONOTONIC, &t);
    return t.tv_sec * 1e9 + t.tv_nsec;
}

int main(int argc, char **argv)
{
    if (argc != 4)
        return 2;
    int encrypts = !strcmp(argv[1], "encrypt");
    long count = atol(argv[3]);
    unsigned char key[32], block[32] = {0};
    for (int i = 0; i < 32; i++)
        key[i] = i;
    EVP_CIPHER_CTX *context = EVP_CIPHER_CTX_new();
    const EVP_CIPHER *cipher = atoi(argv[2]) == 128 ? EVP_aes_128_ecb() : EVP_aes_256_ecb();
    if (!context || !EVP_CipherInit_ex(context, cipher, NULL, key, NULL, encrypts) || !EVP_CIPHER_CTX_set_padding(context, 0))
        return 1;
    int size;
    double start = now();
    for (long i = 0; i < count; i++)
        if (!EVP_CipherUpdate(context, block, &size, block, 16))
            return 1;
    printf("%.2f\n", (now() - start) / count);
    return block[0] == block[1] && block[0] == block[2] && block[0] == block[3] ? 1 : 0;
}
