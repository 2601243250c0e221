// The header for C++17, stunp.hpp: a check of ICE that is written, signed, read and verified, and
// the endpoints. tests/examples.sh compares what it prints.
#include "stunp.hpp"
#include <cstdio>

static const std::array<uint8_t, STUNP_ID_LENGTH> first_id{1}, second_id{2}, third_id{3};
static const stunp::address home{{192, 0, 2, 1}, 32853, 4};

static void show(const char *what, const char *said) { std::printf("%s: %s\n", what, said); }

static const char *name_of(stunp::algorithm algorithm) {
    return algorithm == STUNP_SHA1 ? "HMAC-SHA1" : "HMAC-SHA256";
}

static const char *name_or_refusal(const stunp::verdict &verdict) {
    return verdict ? name_of(verdict.algorithm()) : verdict.text();
}

// ---- A check of ICE.

static void read(stunp::view bytes) {
    stunp::message message{bytes};
    const auto header = message.header();
    if (!header) return show("no message", header.text());
    std::printf("method %u, %zu bytes, FINGERPRINT %s\n", header->method, (*header).length,
                message.has_right_fingerprint() ? "right" : "not right");
    for (auto attribute : message)
        std::printf("  0x%04x of %zu bytes\n", attribute.type, attribute.value.size());
    auto name = message.find(STUNP_USERNAME);
    if (name) show("USERNAME", std::string(name->text()).c_str());
    const auto priority = message.find_number(STUNP_PRIORITY, 4);
    if (priority) std::printf("PRIORITY: %llx\n", static_cast<unsigned long long>(*priority));
    show("as 8 bytes", message.find_number(STUNP_PRIORITY, 8).text());
    show("REALM", message.find(STUNP_REALM).text());
    show("under the password", name_or_refusal(message.verify("password")));
    show("under no password", name_or_refusal(message.verify(std::string_view{})));
}

static void write_and_read() {
    stunp::writer check(STUNP_REQUEST, STUNP_BINDING, first_id);
    check.add(STUNP_USERNAME, "evtj:h6vY").add_number(STUNP_PRIORITY, 0x6e0001ff, 4);
    check.add(STUNP_USE_CANDIDATE, {}).sign(STUNP_SHA1, "password").fingerprint();
    auto written = check.finish();
    if (!written) return show("not written", written.text());
    read(*written);
    read({written->data(), written->size() - 1});
    show("once more", check.add(STUNP_SOFTWARE, "too late").finish().text());
    // One of a temporary owns its bytes.
    auto whole = stunp::writer(STUNP_REQUEST, STUNP_BINDING, first_id)
                     .add(STUNP_USERNAME, "evtj:h6vY").add_number(STUNP_PRIORITY, 0x6e0001ff, 4)
                     .add(STUNP_USE_CANDIDATE, {}).sign(STUNP_SHA1, "password").fingerprint()
                     .finish();
    show("of a temporary", whole && *whole == written->copy() ? "the same" : "another");
    auto error = stunp::writer(STUNP_ERROR, STUNP_BINDING, first_id).add_error(299, "").finish();
    show("an error of a temporary", error.text());
    static_assert(std::is_same_v<decltype(*whole), stunp::bytes &>);
    static_assert(!std::is_constructible_v<stunp::message, stunp::bytes>);
}

// ---- The endpoints.

// What a datagram comes to, in a word and a number.
static void say(const stunp::result<stunp::endpoint::received> &got) {
    if (!got) return show("error", got.text());
    if (got->answer()) std::printf("answer: %u\n", got->told().code);
    if (got->request()) show("request of", std::string(got->user()).c_str());
    if (got->indication()) show("indication of", std::string(got->user()).c_str());
    if (got->response()) std::printf("response: %u\n", got->response()->method);
    if (got->lookup())
        show("look-up of", got->lookup()->is_hash ? "a hash" : std::string(got->user()).c_str());
    if (got->dropped()) show("dropped", got->dropped());
}

// The key of the user whom these servers have.
static stunp::bytes key_of_user() {
    return *stunp::long_term_key(STUNP_SHA256, "name", "realm", "password");
}

// A request that the user signs by what a 401 says, or a plain one without a 401.
static stunp::bytes request_of(const stunp::bytes &challenge, uint32_t method) {
    stunp::writer request(STUNP_REQUEST, method, first_id);
    if (!challenge.empty()) {
        stunp::message message{challenge};
        request.add(STUNP_USERHASH, *stunp::userhash("name", "realm"));
        for (uint16_t type : {STUNP_REALM, STUNP_NONCE, STUNP_PASSWORD_ALGORITHMS})
            request.add(type, *message.find(type));
        const std::array<uint8_t, 4> sha256{0, 2, 0, 0};
        request.add(STUNP_PASSWORD_ALGORITHM, sha256).sign(STUNP_SHA256, key_of_user());
    }
    return request.finish()->copy();
}

// Whether a response is signed by the user's key.
static stunp::verdict judge(stunp::view response) {
    return stunp::message{response}.verify(key_of_user());
}

static void long_term_server() {
    static const uint8_t secret[32] = {1};
    auto settings = STUNP_INIT(stunp::endpoint::settings);
    settings.realm = "realm", settings.secret = secret, settings.answers_binding = true;
    auto server = stunp::endpoint::server::make(settings);
    if (!server) return show("no server", server.text());
    auto users = stunp::endpoint::users::make(*server);
    if (!users || !users->add("name", "password")) return show("no", "memory");
    auto got = server->receive(*users, request_of({}, STUNP_BINDING), home, 1700000000);
    say(got);
    auto challenge = got->answer()->copy();
    auto request = request_of(challenge, STUNP_BINDING);
    got = server->receive(*users, request, home, 1700000000);
    say(got);
    show("the client", name_or_refusal(judge(*got->answer())));
    say(server->identify(request, home, 1700000000));
    auto found = STUNP_INIT(stunp_found_user);
    found.name = "name", found.name_length = 4, found.password = "password";
    say(server->resume(&found, request, home, 1700000000));
    say(server->resume(nullptr, request, home, 1700000000));
    auto cause = server->cause_for(nullptr, request, home, 1700000000);
    show("cause", stunp_cause_text(cause.number()));
    cause = server->cause(*users, request_of({}, STUNP_BINDING), home, 1700000000);
    show("cause", stunp_cause_text(cause.number()));
    show("cause", stunp_cause_text(server->cause(*users, request, home, ~0ull).number()));
    stunp::endpoint::received kept;
    auto why = stunp_cause();
    auto kind = server->receive_with_cause(kept, why, *users, request_of({}, STUNP_BINDING),
                                           home, 1700000000);
    show("beside an answer", kind && kept.answer() ? stunp_cause_text(why) : kind.text());
    got = server->receive(*users, request_of(challenge, STUNP_ALLOCATE), home, 1700000000);
    say(got);
    const stunp_reply &reply = *got->request();
    auto answer = stunp::endpoint::success(reply).add_number(STUNP_LIFETIME, 600, 4).sign(reply)
                      .finish();
    show("the client", name_or_refusal(judge(*answer)));
    show("a late error", stunp::endpoint::error(reply, 299, "").sign(reply).finish().text());
    if (!users->remove("name")) return show("not", "removed");
    say(server->receive(*users, request, home, 1700000000));
    say(server->receive(request, home)); // no users
}

static void other_servers() {
    auto settings = STUNP_INIT(stunp::endpoint::settings);
    settings.credentials = STUNP_NO_CREDENTIALS;
    auto open = stunp::endpoint::server::make(settings);
    settings.credentials = STUNP_SHORT_TERM;
    auto session = stunp::endpoint::server::make(settings);
    if (!open || !session) return show("no", "memory");
    say(open->receive(request_of({}, STUNP_BINDING), home));
    say(open->receive("no message", home));
    // A 420 that lists many attributes wants more room than most answers.
    stunp::writer many(STUNP_REQUEST, STUNP_BINDING, first_id, 8192);
    for (uint32_t type = 0x4000; type < 0x4600; type++) many.add(type, {});
    auto got = open->receive(*many.finish(), home);
    std::printf("an answer of %zu bytes\n", got->answer()->size());
    show("users of an open server", stunp::endpoint::users::make(*open).text());
    auto users = stunp::endpoint::users::make(*session);
    if (!users || !users->add("name", "password")) return show("no", "memory");
    stunp::writer request(STUNP_REQUEST, STUNP_BINDING, second_id);
    request.add(STUNP_USERNAME, "name").sign(STUNP_SHA256, "password");
    say(session->receive(*users, *request.finish(), home, 0));
    stunp::writer indication(STUNP_INDICATION, STUNP_BINDING, third_id);
    say(session->receive(*users, *indication.finish(), home, 0));
    auto moved = std::move(*session);
    say(session->receive(*users, *request.finish(), home, 0));
    say(moved.receive(*users, *request.finish(), home, 0));
    static_assert(!std::is_copy_constructible_v<stunp::endpoint::server>);
    static_assert(!std::is_copy_constructible_v<stunp::endpoint::users>);
    static_assert(!std::is_copy_constructible_v<stunp::endpoint::received>);
    static_assert(!std::is_copy_constructible_v<stunp::ice::checker>);
}

// Whether the response to a request verifies under a password.
static bool is_signed_by(const stunp::result<stunp::endpoint::received> &got,
                         const std::string &password) {
    const stunp_reply *reply = got ? got->request() : nullptr;
    if (reply == nullptr) return false;
    auto answer = stunp::endpoint::success(*reply).sign(*reply).finish();
    return stunp_is_signed(answer->data(), answer->size(), stunp::view(password).data(),
                           password.size());
}

// A key that is longer than a block of HMAC is hashed (RFC 2104, section 2).
static void long_passwords() {
    auto settings = STUNP_INIT(stunp::endpoint::settings);
    settings.credentials = STUNP_SHORT_TERM;
    auto session = stunp::endpoint::server::make(settings);
    if (!session) return show("no", "memory");
    auto users = stunp::endpoint::users::make(*session);
    if (!users) return show("no", "memory");
    for (size_t length : {64, 65, 256})
        for (auto algorithm : {STUNP_SHA1, STUNP_SHA256}) {
            const std::string password(length, 'p');
            auto found = STUNP_INIT(stunp_found_user);
            found.name = "name", found.name_length = 4, found.password = password.c_str();
            if (!users->add("name", password)) return show("not", "added");
            stunp::writer request(STUNP_REQUEST, STUNP_BINDING, second_id);
            request.add(STUNP_USERNAME, "name").sign(algorithm, password);
            auto bytes = request.finish();
            std::printf("a password of %zu bytes: %d, looked up: %d\n", length,
                        is_signed_by(session->receive(*users, *bytes, home, 0), password),
                        is_signed_by(session->resume(&found, *bytes, home, 0), password));
        }
    show("an empty password", users->add("name", "").text());
}

// A client whose requests a server answers, until one ends.
static void ask_until_answered(stunp::endpoint::client &client,
                               const stunp::endpoint::server &server,
                               const stunp::endpoint::users &users) {
    for (;;) {
        auto next = client.poll(0);
        if (!next) return show("no poll", next.text());
        if (next->wait()) return show("nothing", "is outstanding");
        if (auto ended = next->ended()) {
            std::printf("request %u: %s, %zu bytes\n", unsigned(ended->request),
                        stunp_result_text(ended->result), next->datagram.size());
            return;
        }
        auto got = server.receive(users, *next->transmit(), home, 1700000000);
        say(got);
        auto answer = stunp::bytes();
        if (got->answer()) answer = got->answer()->copy();
        else if (auto reply = got->request())
            answer = *stunp::endpoint::success(*reply)
                          .add_address(STUNP_XOR_RELAYED_ADDRESS, home).sign(*reply).finish();
        auto kind = client.receive(answer, home, 0);
        std::printf("the client: %d\n", kind ? *kind : -1);
    }
}

static void client_with_a_user() {
    static const uint8_t secret[32] = {1}, seed[32] = {2};
    static const uint16_t types[] = {STUNP_LIFETIME, STUNP_XOR_PEER_ADDRESS};
    auto settings = STUNP_INIT(stunp::endpoint::settings);
    settings.realm = "realm", settings.secret = secret;
    settings.understood = types, settings.understood_count = 2;
    auto own = STUNP_INIT(stunp::endpoint::client_settings);
    own.server = home, own.seed = seed, own.name = "name", own.password = "password";
    auto server = stunp::endpoint::server::make(settings);
    auto client = stunp::endpoint::client::make(own);
    if (!server || !client) return show("no", "memory");
    auto users = stunp::endpoint::users::make(*server);
    if (!users || !users->add("name", "password")) return show("no", "memory");
    auto body = stunp::endpoint::body().add_number(STUNP_LIFETIME, 600, 4).add_peer(home);
    if (!client->request(STUNP_ALLOCATE, body, 0)) return show("not", "asked");
    ask_until_answered(*client, *server, *users);
    auto moved = std::move(*client);
    show("what is left", client->request(STUNP_BINDING, 0).text());
    show("its own", moved.request(STUNP_BINDING, body.add(STUNP_REALM, "realm"), 0).text());
    auto options = STUNP_INIT(stunp_request_options);
    options.is_unsigned = true, options.from.length = 3;
    show("from nowhere", moved.request(STUNP_BINDING, nullptr, options, 0).text());
    options.from.length = 0;
    show("its own", moved.request(STUNP_BINDING, body, options, 0).text());
    auto number = moved.request(STUNP_BINDING, 0);
    auto dropped = moved.dropped(*number);
    std::printf("%u dropped, cancelled: %d\n", (*dropped)->count, *moved.cancel(*number));
    show("not outstanding", moved.dropped(*number)->has_value() ? "dropped" : "nothing");
    ask_until_answered(moved, *server, *users);
    ask_until_answered(moved, *server, *users);
    static_assert(!std::is_copy_constructible_v<stunp::endpoint::client>);
    static_assert(!std::is_copy_constructible_v<stunp::endpoint::body>);
}

static void data_on_a_channel() {
    auto item = stunp::build_channel_data(0x4001, "hello", true);
    if (!item) return show("no", item.text());
    auto read = stunp::read_channel_data(*item);
    if (!read) return show("not", read.text());
    std::printf("channel %x: %.*s of %d bytes\n", unsigned(read->channel), int(read->data.size()),
                read->data.text().data(), int(item->size()));
    show("no channel", stunp::build_channel_data(0x3fff, "").text());
    show("no data", stunp::read_channel_data("@").text());
    uint8_t out[8]; // an array of bytes of C may be written to
    auto length = stunp::ask(stunp_build_channel_data, 0x4001u, "hello", false, out, sizeof out);
    show("no room", length.text());
    auto body = stunp::endpoint::body().add_requested_transport(17).add_channel_number(0x4001);
    stunp::bytes bytes(20);
    int64_t begun = stunp_begin(STUNP_REQUEST, STUNP_CHANNEL_BIND, item->data(), 12, bytes.data(),
                                bytes.size());
    bytes.insert(bytes.end(), body.get()->bytes, body.get()->bytes + body.get()->length);
    bytes[3] = uint8_t(body.get()->length);
    stunp::message message(bytes);
    std::printf("begun: %d, channel %x, protocol %d\n", int(begun),
                unsigned(*message.channel_number()), int(*message.requested_transport()));
}

static void check_a_pair() {
    auto settings = STUNP_INIT(stunp::ice::settings);
    settings.name = "evtj", settings.peer_name = "h6vY";
    settings.password = settings.peer_password = "VOkJxbRl1RmTxUk/WvJxBt";
    settings.tie_breaker = 2, settings.is_controlling = true;
    auto one = stunp::ice::checker::make(settings);
    std::swap(settings.name, settings.peer_name);
    settings.tie_breaker = 1, settings.is_controlling = false;
    auto other = stunp::ice::checker::make(settings);
    if (!one || !other) return show("no", "memory");
    const auto check = one->write(first_id, home, 0x6e0001ff, true);
    if (!check) return show("no check", check.text());
    auto answered = other->receive(check->datagram, home, nullptr);
    if (!answered) return show("no answer", answered.text());
    std::printf("ICE: %u, nominated: %d\n", answered->told.outcome, answered->told.nominated);
    auto ended = one->receive(answered->answer, home, &check->stored);
    std::printf("ICE: %u, port %u\n", ended->told.outcome, ended->told.mapped.port);
    show("controls", *one->is_controlling() && !*other->is_controlling() ? "one" : "both");
    const auto cost = stunp::endpoint::body().add_number(0xc057, 0x10032, 4);
    const auto further = one->write(first_id, home, 0x6e0001ff, true, cost);
    if (!further) return show("no check", further.text());
    std::printf("ICE: %d more bytes\n", int(further->datagram.size() - check->datagram.size()));
    show("no role", stunp::ice::checker().set_role(true).text());
    show("controls", one->set_role(false) && !*one->is_controlling() ? "none" : "one");
}

// ---- Handles.

static void move_handles() {
    static const uint8_t secret[32] = {1};
    auto settings = STUNP_INIT(stunp::endpoint::settings);
    settings.realm = "realm", settings.secret = secret;
    auto made = stunp::endpoint::server::make(settings);
    stunp::endpoint::server server = std::move(*made), other;
    other = std::move(server);
    // A call that the header has not, with texts as they are.
    auto users_of = [](stunp::endpoint::server &of) {
        auto users = stunp::endpoint::users::make(of);
        if (!users) return users.text();
        return stunp::ask(stunp_endpoint_users_add, users->get(), "bob", "word").text();
    };
    show("the server", users_of(other));
    show("what is left", users_of(server));
    settings.realm = "\xff";
    show("a server of no text", stunp::endpoint::server::make(settings).text());
    settings.realm = "";
    show("an empty realm", stunp::endpoint::server::make(settings).text());
}

// A value that was moved has nothing of the other one.
static void move_values() {
    static const uint8_t secret[32] = {1};
    auto body = stunp::endpoint::body().add_number(STUNP_LIFETIME, 600, 4);
    auto of_body = std::move(body);
    body.add_number(STUNP_LIFETIME, 600, 4);
    std::printf("a body: %zu bytes, what is left: %zu, %s\n", of_body.get()->length,
                body.get()->length, stunp_strerror(body.get()->refusal));
    stunp::writer request(STUNP_REQUEST, STUNP_BINDING, first_id);
    auto of_request = std::move(request);
    request.fingerprint();
    auto bytes = of_request.finish();
    std::printf("a request: %zu bytes, what is left: %s\n", bytes->size(), request.finish().text());
    auto settings = STUNP_INIT(stunp::endpoint::settings);
    settings.realm = "realm", settings.secret = secret, settings.answers_binding = true;
    auto server = stunp::endpoint::server::make(settings);
    if (!server) return show("no", server.text());
    auto users = stunp::endpoint::users::make(*server);
    stunp::endpoint::received got;
    if (!users || !server->receive(got, *users, *bytes, home, 0)) return show("not", "judged");
    auto of_received = std::move(got);
    std::printf("an answer: %d, what is left: %d\n", of_received.answer() != nullptr,
                got.answer() != nullptr);
}

int main() {
    write_and_read();
    long_term_server();
    other_servers();
    long_passwords();
    client_with_a_user();
    data_on_a_channel();
    check_a_pair();
    move_handles();
    move_values();
}
