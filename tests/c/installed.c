/* Accepts one request by the installed library: installed KEYTAB SERVICE REQUEST, with the request in hexadecimal digits. It prints what
 * the request's client is, or why it is refused. */
#include <fevstunik.h>
#include <stdio.h>
#include <string.h>

static uint8_t keytab[65536], request[65536], buffer[4096];

static size_t digits(const char *text)
{
    size_t size = 0;
    unsigned byte;
    while (size < sizeof request && sscanf(text + 2 * size, "%2x", &byte) == 1)
        request[size++] = (uint8_t)byte;
    return size;
}

int main(int count, char **words)
{
    fevstunik_acceptor service = FEVSTUNIK_ACCEPTOR_INIT;
    fevstunik_accepted accepted = FEVSTUNIK_ACCEPTED_INIT;
    fevstunik_time now = {1700000101, 0};
    fevstunik_known known;
    if (count != 4)
        return 2;
    FILE *file = fopen(words[1], "rb");
    if (!file)
        return 2;
    size_t size = fread(keytab, 1, sizeof keytab, file);
    fclose(file);
    fevstunik_acceptor_options options = {.size = sizeof options, .skew = 300, .restarts = FEVSTUNIK_RESTART_FIRST_LIFE};
    fevstunik_answer answer =
        fevstunik_acceptor_new(&service, keytab, size, (const uint8_t *)words[2], strlen(words[2]), &options);
    if (answer.code == FEVSTUNIK_OK)
        answer = fevstunik_accepted_new(&accepted);
    if (answer.code == FEVSTUNIK_OK)
        answer = fevstunik_acceptor_accept(&service, &accepted, request, digits(words[3]), &now);
    if (answer.code == FEVSTUNIK_OK)
        answer = fevstunik_accepted_known(&accepted, &known, buffer, sizeof buffer);
    if (answer.code == FEVSTUNIK_OK)
        printf("%.*s\n", (int)known.client.size, (const char *)buffer + known.client.at);
    else
        printf("%s\n", fevstunik_code_name(answer.code));
    fevstunik_accepted_free(&accepted);
    fevstunik_acceptor_free(&service);
    return 0;
}
