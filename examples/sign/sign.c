/* A client and a server that go on after a login, as SSH and LDAP do: each proves by a MIC that it has seen the same session, and then they
 * send sealed lines, over TCP on the loopback.
 *
 *     sign serve KEYTAB NAME         NAME as host/web@EX; it prints its port, and serves one client: each line comes back as `CLIENT: LINE`
 *     sign ask CACHE NAME PORT       sends the lines of standard input, and prints what comes back
 *
 * sign.py is the same in Python; either may talk to the other one. `serve` refuses logins in the first five minutes after it was started:
 * `sign serve KEYTAB NAME first` doesn't, and is only for a keytab whose keys are all new. */
#include "../service/sources.h"

#define TYPE 20
#define SIZE 32

/* One end of a connection: where the other one is, this side's messages, and the session: both messages of the login. */
struct end {
    int peer;
    fevstunik_messages messages;
    struct bytes session;
};

static void fail(const char *what, fevstunik_answer answer)
{
    fprintf(stderr, "sign: %s: %s\n", what, fevstunik_code_text(answer.code));
    exit(1);
}

static void needs(const char *what, fevstunik_answer answer)
{
    if (answer.code != FEVSTUNIK_OK)
        fail(what, answer);
}

static void add(struct bytes *to, const struct bytes *more)
{
    if (more->size > MOST - to->size)
        give_up("session");
    memcpy(to->at + to->size, more->at, more->size);
    to->size += more->size;
}

/* Proves that this side has seen the session. */
static void sign(struct end *end)
{
    uint8_t token[64];
    fevstunik_answer answer =
        fevstunik_messages_mic(&end->messages, end->session.at, end->session.size, token, sizeof token);

    needs("mic", answer);
    if (!transmit(end->peer, token, answer.size))
        give_up("send");
}

/* Checks that the other side has seen the same one. */
static void check(struct end *end)
{
    static struct bytes token;
    fevstunik_received received;

    if (!receive(end->peer, &token))
        give_up("receive");
    needs("the other side's MIC", fevstunik_messages_verify(&end->messages, end->session.at, end->session.size,
                                                            token.at, token.size, &received));
}

static void say(struct end *end, const char *line, size_t size)
{
    static uint8_t token[MOST];
    uint8_t confounder[16];
    fevstunik_answer answer;

    draw(confounder, sizeof confounder);
    answer = fevstunik_messages_wrap(&end->messages, true, confounder, 16, (const uint8_t *)line, size, token, MOST);
    needs("wrap", answer);
    if (!transmit(end->peer, token, answer.size))
        give_up("send");
}

/* Reads a line into `token`, and returns where it is; or an empty place if the other side has hung up. */
static fevstunik_span hear(struct end *end, struct bytes *token)
{
    fevstunik_received received;
    fevstunik_span none = {0, 0};

    if (!receive(end->peer, token))
        return none;
    needs("a line", fevstunik_messages_unwrap(&end->messages, token->at, token->size, &received));
    if (!received.sealed) {
        fprintf(stderr, "sign: a line comes in plain\n");
        exit(1);
    }
    return received.text;
}

/* Lets a client in that asks for a reply, and sends it. */
static void let_in(struct end *end, fevstunik_acceptor *service, fevstunik_login *login, fevstunik_known *known,
                   uint8_t *bytes)
{
    static struct bytes input, output;
    uint8_t random[16 + SIZE];
    fevstunik_choice choice = {.subkey_type = TYPE};
    fevstunik_time now = clock_now();
    fevstunik_answer answer;

    if (!receive(end->peer, &input))
        give_up("receive");
    draw(random, sizeof random);
    answer =
        fevstunik_service_answer(service, login, input.at, input.size, &now, random, sizeof random, output.at, MOST);
    output.size = answer.size;
    needs("login", answer);
    needs("known", fevstunik_accepted_known(&login->accepted, known, bytes, 4096));
    if (!known->wants_reply || !transmit(end->peer, output.at, output.size))
        give_up("reply");
    add(&end->session, &input);
    add(&end->session, &output);
    answer = fevstunik_messages_of_accepted(&end->messages, &login->accepted, &choice, random + 16, SIZE, false);
    needs("messages", answer);
    explicit_bzero(random, sizeof random);
}

static void serve(struct end *end, fevstunik_acceptor *service)
{
    static struct bytes token;
    static char line[MOST + 4096];
    static uint8_t bytes[4096];
    fevstunik_login login = FEVSTUNIK_LOGIN_INIT;
    fevstunik_known known;
    fevstunik_span text;

    let_in(end, service, &login, &known, bytes);
    check(end);
    sign(end);
    while ((text = hear(end, &token)).at > 0) {
        int size = snprintf(line, sizeof line, "%.*s: %.*s", (int)known.client.size, (char *)bytes + known.client.at,
                            (int)text.size, (char *)token.at + text.at);

        say(end, line, (size_t)size);
    }
    explicit_bzero(bytes, sizeof bytes);
    fevstunik_login_free(&login);
}

static int serve_one(char **words, int is_first)
{
    static struct end end;
    fevstunik_acceptor service = FEVSTUNIK_ACCEPTOR_INIT;
    fevstunik_acceptor_options options = {.size = sizeof options, .skew = 300, .subkey_type = TYPE};
    size_t size;
    uint8_t *keytab = whole_file(words[2], &size);

    if (keytab == NULL)
        give_up(words[2]);
    options.started = clock_now();
    options.restarts = is_first ? FEVSTUNIK_RESTART_FIRST_LIFE : FEVSTUNIK_RESTART_STARTED;
    needs("keytab", fevstunik_acceptor_new(&service, keytab, size, (uint8_t *)words[3], strlen(words[3]), &options));
    explicit_bzero(keytab, size);
    free(keytab);
    end.peer = accept_from(listen_on_any());
    serve(&end, &service);
    fevstunik_messages_free(&end.messages);
    fevstunik_acceptor_free(&service);
    return 0;
}

/* What the client chooses, and what both agree on then. */
struct login {
    fevstunik_choice choice;
    uint8_t subkey[SIZE];
    fevstunik_agreement agreement;
    uint8_t bytes[4096];
};

/* Begins the client's messages: with its own part of the login, and the service's. */
static void begin_asking(struct end *end, const struct login *login)
{
    const fevstunik_agreement *both = &login->agreement;
    fevstunik_message_options agreed = {.role = FEVSTUNIK_ROLE_CLIENT, .client_subkey_type = TYPE};

    agreed.client_seq = login->choice.seq;
    agreed.session_type = both->session_type;
    agreed.service_subkey_type = both->service_subkey_type;
    agreed.service_seq = both->service_seq;
    needs("messages", fevstunik_messages_new(&end->messages, &agreed, login->bytes + both->session_key.at,
                                             both->session_key.size, login->subkey, SIZE,
                                             login->bytes + both->service_subkey.at, both->service_subkey.size));
}

/* Logs in with a subkey and a first number of its own. */
static void log_in(struct end *end, fevstunik_cache *cache, const char *name)
{
    static struct bytes request, reply;
    static struct login login = {.choice = {TYPE, 7, true, true}};
    uint8_t confounder[16];
    fevstunik_pending pending = FEVSTUNIK_PENDING_INIT;
    fevstunik_time now = clock_now();
    fevstunik_answer answer;

    draw(confounder, sizeof confounder);
    draw(login.subkey, SIZE);
    answer = fevstunik_request(cache, &pending, (const uint8_t *)name, strlen(name), &now, confounder, 16,
                               &login.choice, login.subkey, SIZE, request.at, MOST);
    needs("request", answer);
    request.size = answer.size;
    if (!transmit(end->peer, request.at, request.size) || !receive(end->peer, &reply))
        give_up("login");
    answer = fevstunik_finish(&pending, reply.at, reply.size, &login.agreement, login.bytes, sizeof login.bytes);
    needs("reply", answer);
    begin_asking(end, &login);
    add(&end->session, &request);
    add(&end->session, &reply);
    explicit_bzero(&login, sizeof login);
    fevstunik_pending_free(&pending);
}

static int ask(char **words)
{
    static struct end end;
    static struct bytes token;
    static char line[4096];
    fevstunik_cache cache = FEVSTUNIK_CACHE_INIT;
    fevstunik_span text;

    size_t size;
    uint8_t *file = whole_file(words[2], &size);

    if (file == NULL)
        give_up(words[2]);
    needs("cache", fevstunik_cache_new(&cache, file, size));
    explicit_bzero(file, size);
    free(file);
    end.peer = connect_to(atoi(words[4]));
    log_in(&end, &cache, words[3]);
    fevstunik_cache_free(&cache);
    sign(&end);
    check(&end);
    while (fgets(line, sizeof line, stdin) != NULL) {
        say(&end, line, strcspn(line, "\n"));
        text = hear(&end, &token);
        if (text.at == 0)
            give_up("the other side");
        printf("%.*s\n", (int)text.size, (char *)token.at + text.at);
    }
    fevstunik_messages_free(&end.messages);
    close(end.peer);
    return 0;
}

int main(int count, char **words)
{
    if (count == 5 && strcmp(words[1], "ask") == 0)
        return ask(words);
    if ((count == 4 || (count == 5 && strcmp(words[4], "first") == 0)) && strcmp(words[1], "serve") == 0)
        return serve_one(words, count == 5);
    fprintf(stderr, "sign serve KEYTAB NAME [first] | sign ask CACHE NAME PORT\n");
    return 2;
}
