/* What both peers need: hexadecimal texts, a clock that is handed in, and refusals by their code. */
#include <errno.h>
#include <stdio.h>
#include <stdlib.h>
#include <string.h>
#include <krb5.h>

#define LINE_MAX_BYTES (4 * 1024 * 1024)

static krb5_context context;

/* Ends the program where something went wrong that no case asks for. */
static void must(krb5_error_code fault, const char *what)
{
    if (!fault)
        return;
    fprintf(stderr, "%s: %s\n", what, krb5_get_error_message(context, fault));
    exit(1);
}

/* A refusal's number: up to 127 the code of RFC 4120, section 7.5.9; above it a number of the library's own. */
static void print_refused(krb5_error_code fault)
{
    printf("refused %ld %s\n", (long)fault - (long)KRB5KDC_ERR_NONE, krb5_get_error_message(context, fault));
}

static void print_hex(const krb5_data *bytes)
{
    const unsigned char *at = (const unsigned char *)bytes->data;
    for (size_t i = 0; i < bytes->length; i++)
        printf("%02x", at[i]);
}

/* The bytes of a text of hexadecimal digits; "-" stands for none. */
static krb5_data from_hex(const char *text)
{
    krb5_data bytes = {0};
    size_t count = text[0] == '-' ? 0 : strlen(text) / 2;
    unsigned char *made = malloc(count + 1);
    for (size_t i = 0; i < count; i++) {
        unsigned value;
        if (sscanf(text + 2 * i, "%2x", &value) != 1)
            must(EINVAL, "hexadecimal digits");
        made[i] = (unsigned char)value;
    }
    bytes.length = count;
    bytes.data = (void *)made;
    return bytes;
}

static void set_clock(const char *seconds, const char *micros)
{
    must(krb5_set_real_time(context, atoi(seconds), atoi(micros)), "the clock");
}

/* The next line of standard input without its end, or NULL. */
static char *next_line(void)
{
    static char line[LINE_MAX_BYTES];
    if (!fgets(line, sizeof line, stdin))
        return NULL;
    line[strcspn(line, "\n")] = 0;
    return line;
}

static int has_word(int count, char **words, const char *wanted)
{
    for (int i = 0; i < count; i++)
        if (strcmp(words[i], wanted) == 0)
            return 1;
    return 0;
}
