/* The messages of both sides after a login: each text that one side writes is what the other one reads, with keys of both types, with and without
 * subkeys, sealed and in plain; and each fault that the header names, with ample memory. The arguments are the file of the keytab, and in hex a
 * request that asks for no reply, one for a reply with a subkey of type 20 and a number, and one whose subkey is of an unknown type. */
#include "checks.h"
#include "made.h"

#define ROOM (1048576 + 72)

static const uint8_t keys[3][32] = {{1, 2, 3}, {4, 5, 6}, {7, 8, 9}}, confounder[16] = {42};
static uint8_t text[1048576], token[ROOM], kept[ROOM];
static fevstunik_messages client, service;
static fevstunik_received received;
static struct bytes keytab;

static size_t size_of(int32_t type)
{
    return type == 0 ? 0 : type == 19 ? 16 : 32;
}

static fevstunik_message_options agreed(uint32_t role, int32_t session, int32_t client_subkey, int32_t service_subkey)
{
    fevstunik_message_options it = {0, 0, 0, 0, 7, 4294967295u, 0, false, false};

    it.role = role;
    it.session_type = session;
    it.client_subkey_type = client_subkey;
    it.service_subkey_type = service_subkey;
    return it;
}

static fevstunik_answer begun(fevstunik_messages *messages, fevstunik_message_options it)
{
    return fevstunik_messages_new(messages, &it, keys[0], size_of(it.session_type), keys[1], size_of(it.client_subkey_type), keys[2],
                                  size_of(it.service_subkey_type));
}

static void both_begin(fevstunik_message_options it)
{
    it.role = FEVSTUNIK_ROLE_CLIENT;
    is_answer("a client begins", begun(&client, it), FEVSTUNIK_OK, 0, 0, 0);
    it.role = FEVSTUNIK_ROLE_SERVICE;
    is_answer("a service begins", begun(&service, it), FEVSTUNIK_OK, 0, 0, 0);
}

static fevstunik_answer wrapped(fevstunik_messages *from, bool sealed, size_t size)
{
    return fevstunik_messages_wrap(from, sealed, confounder, 16, text, size, token, sizeof token);
}

/* One side writes a text, and the other one reads it. */
static void sent(fevstunik_messages *from, fevstunik_messages *to, bool sealed, size_t size, size_t tag, uint64_t number)
{
    size_t more = sealed ? 48 + tag : 16 + tag, place = sealed ? 32 : 16;

    is_answer("wrap", wrapped(from, sealed, size), FEVSTUNIK_OK, 0, 0, size + more);
    is("the text is in plain", size > 0 && memcmp(token + 16, text, size) == 0, !sealed && size > 0);
    is_answer("unwrap", fevstunik_messages_unwrap(to, token, size + more, &received), FEVSTUNIK_OK, 0, 0, 0);
    is("the number", received.number == number, 1);
    is("the order", received.order, FEVSTUNIK_ORDER_NEXT);
    is("whether it was sealed", received.sealed, sealed);
    is("the text's place", (long long)received.text.at, (long long)place);
    is("the text's size", (long long)received.text.size, (long long)size);
    is_bytes("the text", token + received.text.at, text, size);
    is_answer("the limit", fevstunik_messages_limit(from, sealed, size + more), FEVSTUNIK_OK, 0, 0, size);
}

static void checked(fevstunik_messages *from, fevstunik_messages *to, size_t size, size_t tag, uint64_t number)
{
    is_answer("mic", fevstunik_messages_mic(from, text, size, token, sizeof token), FEVSTUNIK_OK, 0, 0, 16 + tag);
    is_answer("verify", fevstunik_messages_verify(to, text, size, token, 16 + tag, &received), FEVSTUNIK_OK, 0, 0, 0);
    is("the number of a MIC", received.number == number && received.order == FEVSTUNIK_ORDER_NEXT && !received.sealed, 1);
    is("a MIC has no text", received.text.at == 0 && received.text.size == 0, 1);
}

static void all_sizes(fevstunik_message_options it, int32_t counts)
{
    static const size_t sizes[] = {0, 1, 15, 16, 17, 1000};
    size_t tag = counts == 19 ? 16 : 24, at;
    uint64_t number = 7, back = 4294967295u;

    both_begin(it);
    for (at = 0; at < sizeof sizes / sizeof *sizes; at++) {
        sent(&client, &service, true, sizes[at], tag, number++);
        sent(&service, &client, false, sizes[at], tag, back++);
        sent(&client, &service, false, sizes[at], tag, number++);
        sent(&service, &client, true, sizes[at], tag, back++);
        checked(&client, &service, sizes[at], tag, number++);
        checked(&service, &client, sizes[at], tag, back++);
    }
}

static void exchanges(void)
{
    static const int32_t types[] = {0, 19, 20};
    int32_t session, mine, theirs;
    fevstunik_message_options it;

    for (session = 19; session <= 20; session++)
        for (mine = 0; mine < 3; mine++)
            for (theirs = 0; theirs < 3; theirs++)
                all_sizes(agreed(0, session, types[mine], types[theirs]),
                          types[theirs] ? types[theirs] : types[mine] ? types[mine] : session);
    both_begin(agreed(0, 19, 0, 0));
    sent(&client, &service, true, sizeof text, 16, 7);
    sent(&client, &service, false, 70000, 16, 8);
    checked(&service, &client, 70000, 16, 4294967295u);
    it = agreed(0, 20, 0, 0);
    it.rotation = 28;
    both_begin(it);
    is_answer("a rotated message", wrapped(&client, true, 100), FEVSTUNIK_OK, 0, 0, 172);
    is("its rotation", token[7], 28);
    is_answer("is read", fevstunik_messages_unwrap(&service, token, 172, &received), FEVSTUNIK_OK, 0, 0, 0);
    is_bytes("its text", token + received.text.at, text, 100);
}

/* No side begins, and what the handle holds stays. */
static void unbegun(const char *what, unsigned code, fevstunik_message_options it)
{
    is_answer(what, begun(&service, it), code, 0, 0, 0);
    is_answer("the old one stays", wrapped(&client, true, 5), FEVSTUNIK_OK, 0, 0, 69);
    is_answer("and goes on", fevstunik_messages_unwrap(&service, token, 69, &received), FEVSTUNIK_OK, 0, 0, 0);
}

static void beginnings(void)
{
    fevstunik_message_options it = agreed(FEVSTUNIK_ROLE_CLIENT, 19, 0, 0);

    both_begin(it);
    unbegun("no role", FEVSTUNIK_BAD_ROLE, agreed(0, 18, 18, 18));
    unbegun("no such role", FEVSTUNIK_BAD_ROLE, agreed(3, 19, 0, 0));
    unbegun("a session key of another type", FEVSTUNIK_KEY_TYPE, agreed(1, 18, 18, 18));
    unbegun("no session key", FEVSTUNIK_KEY_TYPE, agreed(2, 0, 0, 0));
    unbegun("a client's subkey of another type", FEVSTUNIK_KEY_TYPE, agreed(1, 19, 18, 0));
    unbegun("a service's subkey of another type", FEVSTUNIK_KEY_TYPE, agreed(1, 19, 20, -1));
    is_answer("a short session key", fevstunik_messages_new(&service, &it, keys[0], 15, NULL, 0, NULL, 0), FEVSTUNIK_KEY_LENGTH, 0, 0, 0);
    it.service_subkey_type = 20;
    is_answer("a short subkey", fevstunik_messages_new(&service, &it, keys[0], 16, NULL, 0, keys[1], 31), FEVSTUNIK_KEY_LENGTH, 0, 0, 0);
    is_answer("the same after a list", fevstunik_messages_after_list(&service, &it, keys[0], 16, NULL, 0, keys[1], 31), FEVSTUNIK_KEY_LENGTH, 0, 0, 0);
    it.client_subkey_type = 18;
    is_answer("another type", fevstunik_messages_after_list(&service, &it, keys[0], 16, keys[1], 16, NULL, 0), FEVSTUNIK_KEY_TYPE, 0, 0, 0);
    it.role = 3;
    is_answer("no role", fevstunik_messages_after_list(&service, &it, keys[0], 16, NULL, 0, NULL, 0), FEVSTUNIK_BAD_ROLE, 0, 0, 0);
}

/* A token that isn't taken: nothing is told, and the side goes on. */
static void not_opened(const char *what, unsigned code, size_t size, int is_zeroed)
{
    static const uint8_t zeros[ROOM];
    uint8_t before[200];
    fevstunik_received was = {1, {2, 3}, 4, true};

    memcpy(before, token, size);
    received = was;
    is_answer(what, fevstunik_messages_unwrap(&service, token, size, &received), code, 0, 0, 0);
    is("nothing is told", received.number == 1 && received.text.at == 2 && received.text.size == 3 && received.order == 4 && received.sealed, 1);
    if (is_zeroed) {
        is_bytes("the header stays", token, before, 16);
        is_bytes("the rest is zero", token + 16, zeros, size - 16);
    } else
        is_bytes("the token stays", token, before, size);
}

static void not_verified(const char *what, unsigned code, const uint8_t *mic, size_t size)
{
    is_answer(what, fevstunik_messages_verify(&service, text, 5, mic, size, &received), code, 0, 0, 0);
}

static void openings(void)
{
    both_begin(agreed(0, 19, 0, 0));
    is_answer("a message", wrapped(&client, true, 5), FEVSTUNIK_OK, 0, 0, 69);
    memcpy(kept, token, 69);
    not_opened("a beginning of it", FEVSTUNIK_MESSAGE_DEFECTIVE, 15, 0);
    not_opened("no token", FEVSTUNIK_MESSAGE_DEFECTIVE, 0, 0);
    token[68] ^= 1;
    not_opened("a changed one", FEVSTUNIK_MESSAGE_INTEGRITY, 69, 1);
    memcpy(token, kept, 69);
    token[2] ^= 4;
    not_opened("one under another key", FEVSTUNIK_MESSAGE_OTHER_KEY, 69, 0);
    is_answer("the service's own", wrapped(&service, true, 5), FEVSTUNIK_OK, 0, 0, 69);
    not_opened("is sent back", FEVSTUNIK_MESSAGE_DIRECTION, 69, 0);
    is_answer("one after it", wrapped(&client, false, 5), FEVSTUNIK_OK, 0, 0, 37);
    not_opened("comes first", FEVSTUNIK_MESSAGE_GAP, 37, 1);
    memcpy(token, kept, 69);
    is_answer("the message", fevstunik_messages_unwrap(&service, token, 69, &received), FEVSTUNIK_OK, 0, 0, 0);
    memcpy(token, kept, 69);
    not_opened("again", FEVSTUNIK_MESSAGE_REPEAT, 69, 1);
}

static void verifications(void)
{
    uint8_t mic[32];

    both_begin(agreed(0, 19, 0, 0));
    is_answer("a MIC", fevstunik_messages_mic(&client, text, 5, mic, 32), FEVSTUNIK_OK, 0, 0, 32);
    not_verified("no MIC", FEVSTUNIK_MESSAGE_DEFECTIVE, mic, 15);
    mic[31] ^= 1;
    not_verified("a changed MIC", FEVSTUNIK_MESSAGE_INTEGRITY, mic, 32);
    mic[31] ^= 1;
    not_verified("a beginning of a MIC", FEVSTUNIK_MESSAGE_INTEGRITY, mic, 31);
    is_answer("of another text", fevstunik_messages_verify(&service, text, 4, mic, 32, &received), FEVSTUNIK_MESSAGE_INTEGRITY, 0, 0, 0);
    mic[2] ^= 4;
    not_verified("a MIC under another key", FEVSTUNIK_MESSAGE_OTHER_KEY, mic, 32);
    mic[2] ^= 4;
    is_answer("sent back", fevstunik_messages_verify(&client, text, 5, mic, 32, &received), FEVSTUNIK_MESSAGE_DIRECTION, 0, 0, 0);
    is_answer("the MIC", fevstunik_messages_verify(&service, text, 5, mic, 32, &received), FEVSTUNIK_OK, 0, 0, 0);
    not_verified("the MIC again", FEVSTUNIK_MESSAGE_REPEAT, mic, 32);
    is_answer("one more", fevstunik_messages_mic(&client, text, 5, mic, 32), FEVSTUNIK_OK, 0, 0, 32);
    is_answer("and one", fevstunik_messages_mic(&client, text, 5, mic, 32), FEVSTUNIK_OK, 0, 0, 32);
    not_verified("a later MIC", FEVSTUNIK_MESSAGE_GAP, mic, 32);
}

/* Takes the kept tokens in an order, each of 37 bytes. */
static fevstunik_answer taken(size_t at)
{
    memcpy(token, kept + 37 * at, 37);
    return fevstunik_messages_unwrap(&service, token, 37, &received);
}

static void orders(void)
{
    fevstunik_message_options it = agreed(0, 19, 0, 0);
    size_t at;

    it.any_order = true;
    it.repeats = true;
    both_begin(it);
    for (at = 0; at < 70; at++) {
        wrapped(&client, false, 5);
        memcpy(kept + 37 * at, token, 37);
    }
    is("after a gap", taken(68).code == FEVSTUNIK_OK && received.order == FEVSTUNIK_ORDER_GAP && received.number == 75, 1);
    is("late", taken(5).code == FEVSTUNIK_OK && received.order == FEVSTUNIK_ORDER_LATE, 1);
    is("a repeat", taken(5).code == FEVSTUNIK_OK && received.order == FEVSTUNIK_ORDER_REPEAT, 1);
    is("too old", taken(0).code == FEVSTUNIK_OK && received.order == FEVSTUNIK_ORDER_OLD, 1);
    is("the next one", taken(69).code == FEVSTUNIK_OK && received.order == FEVSTUNIK_ORDER_NEXT, 1);
    it.repeats = false;
    it.role = FEVSTUNIK_ROLE_SERVICE;
    is_answer("a service that takes no repeats", begun(&service, it), FEVSTUNIK_OK, 0, 0, 0);
    is("after a gap", taken(68).code == FEVSTUNIK_OK && received.order == FEVSTUNIK_ORDER_GAP, 1);
    is("late", taken(5).code == FEVSTUNIK_OK && received.order == FEVSTUNIK_ORDER_LATE, 1);
    is_answer("a repeat", taken(5), FEVSTUNIK_MESSAGE_REPEAT, 0, 0, 0);
    is_answer("too old", taken(0), FEVSTUNIK_MESSAGE_OLD, 0, 0, 0);
    is("the next one", taken(69).code == FEVSTUNIK_OK && received.order == FEVSTUNIK_ORDER_NEXT, 1);
}

/* With order asked for: a later side has to begin with other numbers, so that a message is late or old without one that was taken before. */
static void refused_orders(void)
{
    fevstunik_message_options it = agreed(0, 19, 0, 0);
    uint8_t mic[32];

    both_begin(it);
    it.role = FEVSTUNIK_ROLE_SERVICE;
    it.client_seq = 8;
    is_answer("a service that awaits a later number", begun(&service, it), FEVSTUNIK_OK, 0, 0, 0);
    is_answer("the first", fevstunik_messages_mic(&client, text, 5, mic, 32), FEVSTUNIK_OK, 0, 0, 32);
    not_verified("a MIC before the first", FEVSTUNIK_MESSAGE_OLD, mic, 32);
    is_answer("a message", wrapped(&client, false, 5), FEVSTUNIK_OK, 0, 0, 37);
    is_answer("is the next one", fevstunik_messages_unwrap(&service, token, 37, &received), FEVSTUNIK_OK, 0, 0, 0);
    it.client_seq = 9;
    is_answer("a service that awaits another", begun(&service, it), FEVSTUNIK_OK, 0, 0, 0);
    is_answer("a message of before", wrapped(&client, false, 5), FEVSTUNIK_OK, 0, 0, 37);
    is_answer("is taken", fevstunik_messages_unwrap(&service, token, 37, &received), FEVSTUNIK_OK, 0, 0, 0);
    it.client_seq = 100;
    is_answer("a service that awaits a much later number", begun(&service, it), FEVSTUNIK_OK, 0, 0, 0);
    is_answer("a message before the first", wrapped(&client, false, 5), FEVSTUNIK_OK, 0, 0, 37);
    not_opened("is too old", FEVSTUNIK_MESSAGE_OLD, 37, 1);
}

static void short_buffers(void)
{
    static const uint8_t filled[ROOM] = {0};

    both_begin(agreed(0, 20, 0, 0));
    memset(token, 0, sizeof token);
    is_answer("no room to wrap", fevstunik_messages_wrap(&client, true, confounder, 16, text, 5, token, 76), FEVSTUNIK_SHORT_BUFFER, 0, 0, 77);
    is_answer("no room at all", fevstunik_messages_wrap(&client, false, confounder, 16, text, 5, NULL, 0), FEVSTUNIK_SHORT_BUFFER, 0, 0, 45);
    is_answer("no room for a MIC", fevstunik_messages_mic(&client, text, 5, token, 39), FEVSTUNIK_SHORT_BUFFER, 0, 0, 40);
    is_bytes("nothing is written", token, filled, sizeof token);
    sent(&client, &service, true, 5, 24, 7);
    is_answer("a short confounder", fevstunik_messages_wrap(&client, false, confounder, 15, text, 5, token, 100), FEVSTUNIK_BAD_CONFOUNDER, 0, 0, 0);
    is_answer("the least", fevstunik_messages_limit(&client, true, 72), FEVSTUNIK_OK, 0, 0, 0);
    is_answer("no text fits", fevstunik_messages_limit(&client, true, 71), FEVSTUNIK_TOO_LONG, 0, 0, 0);
    is_answer("no text fits in plain", fevstunik_messages_limit(&client, false, 39), FEVSTUNIK_TOO_LONG, 0, 0, 0);
}

static void empty_handles(void)
{
    fevstunik_messages_free(&client);
    fevstunik_messages_free(&client);
    fevstunik_messages_free(&service);
    is("both are empty", client.opaque == NULL && service.opaque == NULL, 1);
    is_answer("wrap", wrapped(&client, true, 5), FEVSTUNIK_EMPTY_HANDLE, 0, 0, 0);
    is_answer("mic", fevstunik_messages_mic(&client, text, 5, token, 40), FEVSTUNIK_EMPTY_HANDLE, 0, 0, 0);
    is_answer("limit", fevstunik_messages_limit(&client, true, 100), FEVSTUNIK_EMPTY_HANDLE, 0, 0, 0);
    not_verified("verify", FEVSTUNIK_EMPTY_HANDLE, token, 32);
    not_opened("unwrap", FEVSTUNIK_EMPTY_HANDLE, 37, 0);
}

/* What a new service accepts, or nothing. */
static fevstunik_known accepted_of(fevstunik_accepted *accepted, const char *hex, uint8_t *bytes)
{
    static const fevstunik_time now = {1700000100, 5};
    static struct bytes request;
    fevstunik_acceptor acceptor = FEVSTUNIK_ACCEPTOR_INIT;
    fevstunik_known known;

    from_hex(&request, hex);
    first_life(&acceptor, keytab.at, keytab.size, 300, WEB);
    is_answer("accepted", fevstunik_acceptor_accept(&acceptor, accepted, request.at, request.size, &now), FEVSTUNIK_OK, 0, 0, 0);
    is("known", fevstunik_accepted_known(accepted, &known, bytes, 4096).code, FEVSTUNIK_OK);
    fevstunik_acceptor_free(&acceptor);
    return known;
}

/* The client's side, by what the service knows of it and chooses. */
static fevstunik_answer client_begins(const fevstunik_known *known, const uint8_t *bytes, int32_t type, uint32_t seq)
{
    fevstunik_message_options it = {.role = FEVSTUNIK_ROLE_CLIENT};

    it.session_type = known->session_type;
    it.client_subkey_type = known->subkey_type;
    it.client_seq = known->seq;
    it.service_subkey_type = type;
    it.service_seq = seq;
    return fevstunik_messages_new(&client, &it, bytes + known->session_key.at, known->session_key.size, bytes + known->subkey.at,
                                  known->subkey.size, keys[2], size_of(type));
}

/* A service begins by the request that it accepted, and its messages are the client's. */
static void begun_for(fevstunik_accepted *accepted, const char *hex, fevstunik_choice choice, int32_t type, uint32_t seq, int32_t counts)
{
    static uint8_t bytes[4096];
    fevstunik_known known = accepted_of(accepted, hex, bytes);
    size_t tag = counts == 19 ? 16 : 24;

    is_answer("a service begins for it", fevstunik_messages_of_accepted(&service, accepted, &choice, keys[2], size_of(choice.subkey_type), false),
              FEVSTUNIK_OK, 0, 0, 0);
    is_answer("its client begins", client_begins(&known, bytes, type, seq), FEVSTUNIK_OK, 0, 0, 0);
    sent(&client, &service, true, 100, tag, known.seq);
    sent(&service, &client, true, 100, tag, seq);
}

static void by_what_was_accepted(char **words)
{
    static uint8_t bytes[4096];
    fevstunik_accepted accepted = FEVSTUNIK_ACCEPTED_INIT;
    fevstunik_choice none = {0, 0, false, false}, chosen = {20, 9, true, false}, wrong = {18, 0, false, false};

    both_begin(agreed(0, 19, 0, 0));
    is_answer("empty", fevstunik_messages_of_accepted(&service, &accepted, &none, NULL, 0, false), FEVSTUNIK_EMPTY_HANDLE, 0, 0, 0);
    is("ready", fevstunik_accepted_new(&accepted).code, FEVSTUNIK_OK);
    is_answer("nothing", fevstunik_messages_of_accepted(&service, &accepted, &none, NULL, 0, false), FEVSTUNIK_NOTHING_THERE, 0, 0, 0);
    sent(&client, &service, true, 5, 16, 7);
    begun_for(&accepted, words[3], none, 0, 0, 20);
    begun_for(&accepted, words[3], chosen, 20, 9, 20);
    is_answer("a subkey of another type", fevstunik_messages_of_accepted(&service, &accepted, &wrong, keys[2], 16, false), FEVSTUNIK_KEY_TYPE,
              0, 0, 0);
    is_answer("a short subkey", fevstunik_messages_of_accepted(&service, &accepted, &chosen, keys[2], 31, false), FEVSTUNIK_KEY_LENGTH, 0, 0, 0);
    begun_for(&accepted, words[2], chosen, 0, 0, 19);
    (void)accepted_of(&accepted, words[4], bytes);
    is_answer("the client's is unknown", fevstunik_messages_of_accepted(&service, &accepted, &chosen, keys[2], 31, false), FEVSTUNIK_KEY_TYPE,
              0, 0, 0);
    fevstunik_accepted_free(&accepted);
}

int main(int count, char **words)
{
    size_t at;

    if (count != 5)
        return 2;
    from_file(&keytab, words[1]);

    for (at = 0; at < sizeof text; at++)
        text[at] = (uint8_t)(at * 7 + at / 251);
    exchanges();
    by_what_was_accepted(words);
    beginnings();
    openings();
    verifications();
    orders();
    refused_orders();
    short_buffers();
    empty_handles();
    printf("%d passed, %d failed\n", passed, failed);
    return failed != 0;
}
