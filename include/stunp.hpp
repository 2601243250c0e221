// stunp.hpp: stunp.h and stunp_endpoint.h for C++17, with handles that free themselves, messages
// that store their own length, views as arguments, and results that own what they return. The
// endpoints are in the namespaces stunp::endpoint and stunp::ice.
//
// The code of this header is compiled into your program. It only passes messages on: the library
// judges them. Nothing throws, except std::bad_alloc if a vector or a string of this header cannot
// allocate. To make a call that this header does not wrap, use `ask`:
//
//     stunp::ask(stunp_endpoint_users_remove, users.get(), name)
//
// Pass a text, a vector or an array of bytes as one argument, in place of a pointer and a length.
#ifndef STUNP_HPP
#define STUNP_HPP

#include "stunp_endpoint.h"
#include <array>
#include <cassert>
#include <optional>
#include <string>
#include <string_view>
#include <tuple>
#include <type_traits>
#include <utility>
#include <vector>

// The result of the call points to this argument, so clang warns if the argument is a temporary
// (-Wdangling).
#if defined __has_cpp_attribute
#if __has_cpp_attribute(clang::lifetimebound)
#define STUNP_POINTED_TO [[clang::lifetimebound]]
#endif
#endif
#ifndef STUNP_POINTED_TO
#define STUNP_POINTED_TO
#endif

namespace stunp {

using bytes = std::vector<uint8_t>;

// The bytes of a text, a vector or an array that a call reads. A view does not own them. So make a
// view of a temporary only as an argument of a call: `stunp::view v = std::string(..)` points to a
// text that no longer exists. Clang warns about this, but GCC does not.
class view {
    const uint8_t *first_;
    size_t size_;

  public:
    view(const uint8_t *first, size_t size) : first_(first), size_(size) {}
    view(std::string_view text STUNP_POINTED_TO)
        : view(reinterpret_cast<const uint8_t *>(text.data()), text.size()) {}
    view(const char *text = "") : view(std::string_view(text)) {}
    view(const std::string &text STUNP_POINTED_TO) : view(std::string_view(text)) {}
    view(const bytes &of STUNP_POINTED_TO) : view(of.data(), of.size()) {}
    template <size_t N>
    view(const std::array<uint8_t, N> &of STUNP_POINTED_TO) : view(of.data(), N) {}
    template <size_t N> view(const uint8_t (&of STUNP_POINTED_TO)[N]) : view(of, N) {}
    const uint8_t *data() const { return first_; }
    size_t size() const { return size_; }
    std::string_view text() const { return {reinterpret_cast<const char *>(first_), size_}; }
    bytes copy() const { return bytes(first_, first_ + size_); }
};

// A pointer to the bytes of a view. It converts to the type that a C call takes for a text, a key
// or a value.
struct pointer {
    const uint8_t *first;
    operator const uint8_t *() const { return first; }
    operator const char *() const { return reinterpret_cast<const char *>(first); }
    operator const void *() const { return first; }
};

// Makes a C call, and passes each view as a pointer and a length. A C array of bytes is passed as a
// pointer alone, because it may be an output.
template <class T> auto spread(T &one) {
    if constexpr (std::is_convertible_v<const T &, view>
                  && !std::is_same_v<std::remove_cv_t<std::remove_extent_t<T>>, uint8_t>) {
        view all(one);
        return std::make_tuple(pointer{all.data()}, all.size());
    } else {
        return std::make_tuple(one);
    }
}
template <class Call, class... Arguments> auto call(Call of, Arguments &&...arguments) {
    return std::apply(of, std::tuple_cat(spread(arguments)...));
}

// A value, or the error of a call: a negative number with a text. Test the result before you use
// the value: if there is no value, `*` and `->` stop the program (assert), or with NDEBUG give a
// value in its initial state.
template <class T = int64_t> class [[nodiscard]] result {
    int64_t answer_;
    T value_;

  public:
    explicit result(int64_t answer, T value = T{})
        : answer_(answer), value_(answer < 0 ? T{} : std::move(value)) {}
    explicit operator bool() const { return answer_ >= 0; }
    T &operator*() & { return assert(answer_ >= 0), value_; }
    const T &operator*() const & { return assert(answer_ >= 0), value_; }
    T operator*() && { return assert(answer_ >= 0), std::move(value_); }
    T *operator->() { return assert(answer_ >= 0), &value_; }
    const T *operator->() const { return assert(answer_ >= 0), &value_; }
    int64_t number() const { return answer_; }
    const char *text() const { return stunp_strerror(answer_); }
};

// The verdict of a signature check: true if the message is authentic.
class [[nodiscard]] verdict {
    int64_t answer_;

  public:
    explicit verdict(int64_t answer) : answer_(answer) {}
    explicit operator bool() const { return answer_ > 0; }
    stunp_algorithm algorithm() const { return stunp_algorithm(answer_); } // if the verdict is true
    int64_t number() const { return answer_; }
    const char *text() const { return stunp_strerror(answer_); }
};

// Makes a C call. The value of the result is the number that the call returns.
template <class T = int64_t, class Call, class... Rest>
result<T> ask(Call of, Rest &&...arguments) {
    int64_t answer = call(of, arguments...);
    return result<T>(answer, answer < 0 ? T{} : T(answer));
}

using address = stunp_address;
using algorithm = stunp_algorithm;
constexpr uint32_t both = uint32_t(STUNP_SHA1) | uint32_t(STUNP_SHA256);

// ---- Keys

// Derives the long-term key of a user, which you may store in place of the password
// (stunp_long_term_key).
inline result<bytes> long_term_key(algorithm by, view name, view realm, view password) {
    bytes key(by == STUNP_SHA256 ? STUNP_SHA256_KEY_LENGTH : STUNP_SHA1_KEY_LENGTH);
    int64_t length = call(stunp_long_term_key, by, name, realm, password, key.data(), key.size());
    return result<bytes>(length, std::move(key));
}

// Makes the hash with which a message may name a user (stunp_userhash).
inline result<bytes> userhash(view name, view realm) {
    bytes hash(STUNP_USERHASH_LENGTH);
    int64_t length = call(stunp_userhash, name, realm, hash.data(), hash.size());
    return result<bytes>(length, std::move(hash));
}

// A user from a database, for one call: with a password, or with stored keys, one of which may be
// empty.
struct user { view name, password; };
struct stored_user { view name, sha1, sha256; };

// ---- Handles. They can be moved, but not copied. Every call on an empty handle fails. A server
// and users of stunp::endpoint may be const.

template <class H, void (*Clear)(H *)> class handle {
    H handle_{};

  public:
    handle() = default;
    handle(handle &&other) noexcept : handle_(std::exchange(other.handle_, H{})) {}
    handle &operator=(handle &&other) noexcept { return std::swap(handle_, other.handle_), *this; }
    ~handle() { Clear(&handle_); }
    H *get() { return &handle_; }
    const H *get() const { return &handle_; }
};

// ---- A message to write. After an error the other calls do nothing, so it is enough to test the
// result of `finish` at the end. On a variable, `finish` returns a view of the message; on a
// temporary, it returns the bytes themselves:
//
//     auto request = stunp::writer(STUNP_REQUEST, STUNP_BINDING, id).fingerprint().finish();
//
// A writer can be moved, but not copied. A writer that was moved from has no room.
class writer {
    bytes bytes_;
    stunp_writer out_;
    template <class Call, class... Rest> writer &then(Call write, const Rest &...rest) {
        call(write, &out_, rest...);
        return *this;
    }

  public:
    writer(stunp_message_class of, uint32_t method, view id, size_t room = 2048) : bytes_(room) {
        int64_t begun = call(stunp_begin, of, method, id, bytes_.data(), room);
        out_ = stunp_write_on(begun, bytes_.data(), room);
    }
    writer(writer &&other) noexcept
        : bytes_(std::move(other.bytes_)),
          out_(std::exchange(other.out_, stunp_write_on(STUNP_BUFFER_TOO_SMALL, nullptr, 0))) {}

    writer &add(uint32_t type, view value) & { return then(stunp_write_bytes, type, value); }
    writer &add_number(uint32_t type, uint64_t number, size_t size) & {
        return then(stunp_write_number, type, number, size);
    }
    writer &add_address(uint32_t type, const address &at) & {
        return then(stunp_write_xor_address, type, view(at.octets, at.length), at.port);
    }
    writer &add_error(uint32_t code, const char *why) & {
        if (out_.refusal == 0) stunp_write_error(&out_, code, why);
        return *this;
    }
    writer &sign(algorithm by, view key) & { return then(stunp_write_integrity, by, key); }
    // Ends the answer to an accepted request (stunp_reply_finish), which may also add FINGERPRINT.
    writer &sign(const stunp_reply &by) & {
        if (stunp_reply_finish(&by, &out_) < 0) return *this; // `finish` has the error
        return *this;
    }
    writer &fingerprint() & { return then(stunp_write_fingerprint); }
    result<view> finish() const & {
        return result<view>(stunp_written(&out_), view(bytes_.data(), out_.length));
    }
    result<view> finish() const && = delete; // the view would outlive the bytes

    // Like the calls above, but for a temporary, which they return as a temporary.
    writer &&add(uint32_t type, view value) && { return std::move(add(type, value)); }
    writer &&add_number(uint32_t type, uint64_t number, size_t size) && {
        return std::move(add_number(type, number, size));
    }
    writer &&add_address(uint32_t type, const address &at) && {
        return std::move(add_address(type, at));
    }
    writer &&add_error(uint32_t code, const char *why) && {
        return std::move(add_error(code, why));
    }
    template <class... By> writer &&sign(By &&...by) && {
        return std::move(static_cast<writer &>(*this).sign(std::forward<By>(by)...));
    }
    writer &&fingerprint() && { return std::move(fingerprint()); }
    result<bytes> finish() && {
        bytes_.resize(out_.length);
        return result<bytes>(stunp_written(&out_), std::move(bytes_));
    }
};

// ---- A message to read. `for (auto attribute : message)` goes over the visible attributes. A
// message does not own its bytes, so it cannot be made from a temporary vector or string.

struct attribute { uint16_t type; view value; };
class message {
    view bytes_;

  public:
    message(view of) : bytes_(of) {}
    message(const uint8_t *first, size_t size) : bytes_(first, size) {}
    message(bytes &&) = delete;
    message(std::string &&) = delete;

    // Reads the header of a whole message.
    result<stunp_header> header() const {
        stunp_header header{};
        int64_t answer = call(stunp_parse, bytes_);
        if (answer == 0) answer = call(stunp_read_header, bytes_, &header);
        return result<stunp_header>(answer, header);
    }
    result<view> find(uint32_t type) const {
        size_t length = 0;
        int64_t at = call(stunp_find, bytes_, type, &length);
        return result<view>(at, view(bytes_.data() + (at < 0 ? 0 : at), length));
    }
    // Reads a number of exactly `size` bytes.
    result<uint64_t> find_number(uint32_t type, int64_t size) const {
        uint64_t number = 0;
        int64_t read = call(stunp_find_number, bytes_, type, &number);
        if (read >= 0 && read != size) read = STUNP_MALFORMED_ATTRIBUTE;
        return result<uint64_t>(read, number);
    }
    // Reads an address that is XORed.
    result<address> find_address(uint32_t type) const {
        address out{};
        int64_t octets =
            call(stunp_find_xor_address, bytes_, type, &out.octets[0], size_t{16}, &out.port);
        out.length = octets == 4 ? 4 : 16;
        return result<address>(octets, out);
    }
    result<> error_code() const { return ask(stunp_error_code, bytes_); }
    result<> channel_number() const { return ask(stunp_channel_number, bytes_); }
    result<> requested_transport() const { return ask(stunp_requested_transport, bytes_); }
    bool has_right_fingerprint() const { return call(stunp_has_right_fingerprint, bytes_); }
    verdict verify(view key) const { return verdict(call(stunp_verify, bytes_, key)); }

    struct iterator {
        view bytes;
        stunp_cursor cursor{};
        uint16_t type = 0;
        size_t length = 0;
        int64_t place = 0;
        iterator &operator++() {
            return place = call(stunp_walk, bytes, &cursor, &type, &length), *this;
        }
        attribute operator*() const { return {type, {bytes.data() + place, length}}; }
        bool operator!=(std::nullptr_t) const { return place > 0; }
    };
    iterator begin() const { return ++iterator{bytes_}; }
    std::nullptr_t end() const { return nullptr; }
};

// ---- Data on a channel of TURN (RFC 8656, section 12.4)

// ChannelData that was read. The struct does not own the data.
struct channel_data { uint16_t channel; view data; };

// Writes a ChannelData message (stunp_build_channel_data). Over TCP pass true for `is_padded`.
inline result<bytes> build_channel_data(uint32_t channel, view data, bool is_padded = false) {
    bytes item(4 + (data.size() + 3) / 4 * 4);
    int64_t length = call(stunp_build_channel_data, channel, data, is_padded, item.data(),
                          item.size());
    item.resize(length < 0 ? 0 : size_t(length));
    return result<bytes>(length, std::move(item));
}

// Reads a ChannelData message from a datagram, or from a frame that stunp_next_turn_frame has
// found in a stream.
inline result<channel_data> read_channel_data(view item) {
    uint16_t channel = 0;
    size_t length = 0;
    int64_t at = call(stunp_read_channel_data, item, &channel, &length);
    return result<channel_data>(at, {channel, {item.data() + (at < 0 ? 0 : at), length}});
}

// ---- Servers and clients (stunp_endpoint.h)

namespace endpoint {

using settings = stunp_endpoint_server_settings; // from STUNP_INIT(stunp::endpoint::settings)
using client_settings = stunp_endpoint_client_settings; // also from STUNP_INIT
struct users;
class server;

// The outcome of a datagram. Once a call has judged a datagram, exactly one of `answer`, `request`,
// `indication`, `response`, `lookup` and `dropped` is not null. Before that, all of them are null.
// A `received` contains a key of the user, which its destructor wipes. To avoid an allocation for
// each datagram, pass the same `received` to the calls again.
class received {
    stunp_received told_ = STUNP_INIT(stunp_received);
    bytes buffer_;
    view answer_;
    friend class server;

    // Makes a call, and repeats it with more room if the answer needs more room.
    template <class Judge> result<stunp_kind> judged(Judge judge) {
        if (buffer_.size() < 2048) buffer_.resize(2048);
        int64_t kind = judge(buffer_.data(), buffer_.size(), &told_);
        if (kind == STUNP_BUFFER_TOO_SMALL) {
            buffer_.resize(told_.needed);
            kind = judge(buffer_.data(), buffer_.size(), &told_);
        }
        answer_ = view(buffer_.data(), kind == STUNP_ANSWER ? told_.length : 0);
        return result<stunp_kind>(kind, kind < 0 ? STUNP_FAILED : stunp_kind(kind));
    }
    template <class Judge> static result<received> of(Judge judge) {
        received got;
        int64_t kind = got.judged(judge).number();
        return result<received>(kind, std::move(got));
    }
    const stunp_received *if_is(stunp_kind kind) const {
        return told_.kind == kind ? &told_ : nullptr;
    }

  public:
    received() { told_.kind = STUNP_FAILED; }
    received(received &&other) noexcept : received() { *this = std::move(other); }
    received &operator=(received &&other) noexcept {
        std::swap(told_, other.told_), std::swap(answer_, other.answer_);
        buffer_.swap(other.buffer_);
        return *this;
    }
    ~received() { stunp_reply_wipe(&told_.reply); }

    // The answer: send it to the address that the datagram came from. `told().code` is the code of
    // an error.
    const view *answer() const { return if_is(STUNP_ANSWER) ? &answer_ : nullptr; }
    // The accepted request: answer it, now or later (`success` and `error` below).
    const stunp_reply *request() const { return if_is(STUNP_IS_REQUEST) ? &told_.reply : nullptr; }
    const stunp_received *indication() const { return if_is(STUNP_IS_INDICATION); }
    const stunp_received *response() const { return if_is(STUNP_IS_RESPONSE); }
    // The request that waits for its user: look the user up, and call `resume`.
    const stunp_received *lookup() const { return if_is(STUNP_LOOKUP); }
    const char *dropped() const {
        return if_is(STUNP_DROPPED) ? stunp_drop_text(told_.why) : nullptr;
    }
    // The user who has signed the message, or, for a request that waits for its user, the user whom
    // it names.
    std::string_view user() const { return view(told_.name, told_.name_length).text(); }
    const stunp_received &told() const { return told_; }
};

class server : public handle<stunp_endpoint_server, stunp_endpoint_server_clear> {
    auto judge(const stunp_endpoint_users *by, view datagram, const address &from,
               uint64_t unix_seconds) const {
        return [=, &from](uint8_t *out, size_t room, stunp_received *told) {
            return stunp_endpoint_server_receive(get(), by, datagram.data(), datagram.size(), &from,
                                                 unix_seconds, out, room, told);
        };
    }
    auto asker(view datagram, const address &from, uint64_t unix_seconds) const {
        return [=, &from](uint8_t *out, size_t room, stunp_received *told) {
            return stunp_endpoint_server_identify(get(), datagram.data(), datagram.size(), &from,
                                                  unix_seconds, out, room, told);
        };
    }
    auto resumer(const stunp_found_user *found, view datagram, const address &from,
                 uint64_t unix_seconds) const {
        return [=, &from](uint8_t *out, size_t room, stunp_received *told) {
            return stunp_endpoint_server_resume(get(), found, datagram.data(), datagram.size(),
                                                &from, unix_seconds, out, room, told);
        };
    }

  public:
    static result<server> make(const settings &of) {
        server made;
        int64_t answer = stunp_endpoint_server_new(made.get(), &of);
        return result<server>(answer, std::move(made));
    }
    // Judges a datagram. Each of these calls has a second form, which writes the outcome to a
    // `received` of yours, and returns the kind of the outcome.
    result<received> receive(const users &by, view datagram, const address &from,
                             uint64_t unix_seconds) const;
    result<stunp_kind> receive(received &kept, const users &by, view datagram, const address &from,
                               uint64_t unix_seconds) const;
    // Judges a datagram at a server without credentials.
    result<received> receive(view datagram, const address &from) const {
        return received::of(judge(nullptr, datagram, from, 0));
    }
    result<stunp_kind> receive(received &kept, view datagram, const address &from) const {
        return kept.judged(judge(nullptr, datagram, from, 0));
    }
    // Judges a datagram as far as is possible without its user (stunp_endpoint_server_identify).
    result<received> identify(view datagram, const address &from, uint64_t unix_seconds) const {
        return received::of(asker(datagram, from, unix_seconds));
    }
    result<stunp_kind> identify(received &kept, view datagram, const address &from,
                                uint64_t unix_seconds) const {
        return kept.judged(asker(datagram, from, unix_seconds));
    }
    // Judges a request with the user who was found, or with no user.
    result<received> resume(const stunp_found_user *found, view datagram, const address &from,
                            uint64_t unix_seconds) const {
        return received::of(resumer(found, datagram, from, unix_seconds));
    }
    result<stunp_kind> resume(received &kept, const stunp_found_user *found, view datagram,
                              const address &from, uint64_t unix_seconds) const {
        return kept.judged(resumer(found, datagram, from, unix_seconds));
    }
    // Judges a datagram, and also returns why a request is refused: a stunp_cause, or 0 if it is
    // not refused.
    result<stunp_kind> receive_with_cause(received &kept, stunp_cause &cause, const users &by,
                                          view datagram, const address &from,
                                          uint64_t unix_seconds) const;
    // Returns why `receive` refuses a request: a stunp_cause, or 0 if it does not refuse it. To get
    // a text, pass `number()` of the result to stunp_cause_text.
    result<> cause(const users &by, view datagram, const address &from,
                   uint64_t unix_seconds) const;
    // Returns why `resume` refuses a request or, if you pass no user, why `identify` refuses it.
    result<> cause_for(const stunp_found_user *found, view datagram, const address &from,
                       uint64_t unix_seconds) const {
        return ask(stunp_endpoint_server_cause_for, get(), found, datagram, &from, unix_seconds);
    }
};

// The users of a server. With long-term credentials, a table works only with servers that have the
// same `realm`, `algorithms` and `anonymous_username`. Many threads may read a table at the same
// time, or one thread may change it.
struct users : handle<stunp_endpoint_users, stunp_endpoint_users_clear> {
    static result<users> make(const server &of) {
        users made;
        int64_t answer = stunp_endpoint_users_new(made.get(), of.get());
        return result<users>(answer, std::move(made));
    }
    result<> add(view name, view password) {
        return ask(stunp_endpoint_users_add, get(), name, password);
    }
    result<> add(const stored_user &of) {
        return ask(stunp_endpoint_users_add_keys, get(), of.name, of.sha1, of.sha256);
    }
    result<> remove(view name) { return ask(stunp_endpoint_users_remove, get(), name); }
};

inline result<received> server::receive(const users &by, view datagram, const address &from,
                                        uint64_t unix_seconds) const {
    return received::of(judge(by.get(), datagram, from, unix_seconds));
}
inline result<stunp_kind> server::receive(received &kept, const users &by, view datagram,
                                          const address &from, uint64_t unix_seconds) const {
    return kept.judged(judge(by.get(), datagram, from, unix_seconds));
}
inline result<stunp_kind> server::receive_with_cause(received &kept, stunp_cause &cause,
                                                     const users &by, view datagram,
                                                     const address &from,
                                                     uint64_t unix_seconds) const {
    return kept.judged([&](uint8_t *out, size_t room, stunp_received *told) {
        return stunp_endpoint_server_receive_with_cause(get(), by.get(), datagram.data(),
                                                        datagram.size(), &from, unix_seconds, out,
                                                        room, told, &cause);
    });
}
inline result<> server::cause(const users &by, view datagram, const address &from,
                              uint64_t unix_seconds) const {
    return ask(stunp_endpoint_server_cause, get(), by.get(), datagram, &from, unix_seconds);
}

// Starts the answer to an accepted request. To end it, call `sign` with the same reply, as in
//
//     auto answer = stunp::endpoint::success(*got->request())
//                       .add_number(STUNP_LIFETIME, 600, 4).sign(*got->request()).finish();
inline writer success(const stunp_reply &to, size_t room = 2048) {
    return writer(STUNP_SUCCESS, to.method, to.id, room);
}
inline writer error(const stunp_reply &to, uint32_t code, const char *why, size_t room = 2048) {
    return writer(STUNP_ERROR, to.method, to.id, room).add_error(code, why);
}

// The attributes of a request of a client. After an error the other calls do nothing, and
// `client::request` returns the error. A body can be moved, but not copied. A body that was moved
// from has no room.
class body {
    bytes room_;
    stunp_body added_;

  public:
    explicit body(size_t room = 512) : room_(room), added_(stunp_body_on(room_.data(), room)) {}
    body(body &&other) noexcept
        : room_(std::move(other.room_)),
          added_(std::exchange(other.added_, stunp_body_on(nullptr, 0))) {}

    body &add(uint32_t type, view value) & {
        return stunp_body_add(&added_, type, value.data(), value.size()), *this;
    }
    body &add_number(uint32_t type, uint64_t number, size_t size) & {
        return stunp_body_add_number(&added_, type, number, size), *this;
    }
    body &add_peer(const address &peer) & { return stunp_body_add_peer(&added_, &peer), *this; }
    body &add_requested_transport(uint8_t protocol) & {
        return stunp_body_add_requested_transport(&added_, protocol), *this;
    }
    body &add_channel_number(uint32_t channel) & {
        return stunp_body_add_channel_number(&added_, channel), *this;
    }
    // Like the calls above, but for a temporary, which they return as a temporary.
    body &&add(uint32_t type, view value) && { return std::move(add(type, value)); }
    body &&add_number(uint32_t type, uint64_t number, size_t size) && {
        return std::move(add_number(type, number, size));
    }
    body &&add_peer(const address &peer) && { return std::move(add_peer(peer)); }
    body &&add_requested_transport(uint8_t protocol) && {
        return std::move(add_requested_transport(protocol));
    }
    body &&add_channel_number(uint32_t channel) && {
        return std::move(add_channel_number(channel));
    }
    const stunp_body *get() const { return &added_; }
};

// What to do next: exactly one of `transmit`, `ended` and `wait` is not null. `datagram` is the
// request to send, or the response that ended a request. It is valid until the next `poll` of the
// client, which must outlive it.
struct event {
    stunp_event told = STUNP_INIT(stunp_event);
    view datagram;

    const view *transmit() const { return told.kind == STUNP_TRANSMIT ? &datagram : nullptr; }
    const stunp_event *ended() const { return told.kind == STUNP_ENDED ? &told : nullptr; }
    const stunp_event *wait() const { return told.kind == STUNP_WAIT ? &told : nullptr; }
};

// A client of one server. `now` is in nanoseconds of a clock that never goes back.
class client : public handle<stunp_endpoint_client, stunp_endpoint_client_clear> {
    bytes room_;

  public:
    static result<client> make(const client_settings &of) {
        client made;
        int64_t answer = stunp_endpoint_client_new(made.get(), &of);
        return result<client>(answer, std::move(made));
    }
    // Starts a request, and returns its number.
    result<uint64_t> request(uint32_t method, uint64_t now) { return request(method, nullptr, now); }
    result<uint64_t> request(uint32_t method, const body &with, uint64_t now) {
        return request(method, with.get(), now);
    }
    result<uint64_t> request(uint32_t method, const stunp_body *with, uint64_t now) {
        uint64_t number = 0;
        int64_t answer = stunp_endpoint_client_request(get(), method, with, now, &number);
        return result<uint64_t>(answer, number);
    }
    // Starts a request with options that say how it is sent, and from which address its response
    // comes. Initialize them with `STUNP_INIT(stunp_request_options)`.
    result<uint64_t> request(uint32_t method, const body &with,
                             const stunp_request_options &options, uint64_t now) {
        return request(method, with.get(), options, now);
    }
    result<uint64_t> request(uint32_t method, const stunp_body *with,
                             const stunp_request_options &options, uint64_t now) {
        uint64_t number = 0;
        int64_t answer =
            stunp_endpoint_client_request_as(get(), method, with, &options, now, &number);
        return result<uint64_t>(answer, number);
    }
    // Reads a datagram. If it is dropped, the reason is written to `*why`.
    result<stunp_kind> receive(view datagram, const address &from, uint64_t now,
                               stunp_drop *why = nullptr) {
        return ask<stunp_kind>(stunp_endpoint_client_receive, get(), datagram, &from, now, why);
    }
    // Finds the next thing to do. Repeat the call until `wait` of the event is not null.
    result<event> poll(uint64_t now) {
        event next;
        room_.resize(STUNP_LONGEST_MESSAGE);
        int64_t kind =
            stunp_endpoint_client_poll(get(), now, room_.data(), room_.size(), &next.told);
        next.datagram = view(room_.data(), next.told.length);
        return result<event>(kind, next);
    }
    // Ends a request. Returns true, or false if the request had ended already.
    result<bool> cancel(uint64_t request) {
        return ask<bool>(stunp_endpoint_client_cancel, get(), request);
    }
    // Returns how many responses to a request were dropped, and why the last of them was dropped,
    // or no value if the request has ended.
    result<std::optional<stunp_dropped>> dropped(uint64_t request) {
        stunp_dropped of{};
        int64_t answer = stunp_endpoint_client_dropped(get(), request, &of);
        return result<std::optional<stunp_dropped>>(
            answer, answer > 0 ? std::optional<stunp_dropped>(of) : std::nullopt);
    }
};

} // namespace endpoint

// ---- Connectivity checks of ICE (stunp_endpoint.h)

namespace ice {

using settings = stunp_ice_settings; // from STUNP_INIT(stunp::ice::settings)

// A check to send, and the data with which its answer is judged, which you store with the pair.
struct check {
    bytes datagram;
    stunp_ice_check stored{};
};

// The outcome of a datagram: see `told.kind` and `told.outcome`. If `answer` is not empty, send it.
struct received {
    stunp_ice_received told = STUNP_INIT(stunp_ice_received);
    bytes answer;
};

struct checker : handle<stunp_ice_checker, stunp_ice_checker_clear> {
    static result<checker> make(const settings &of) {
        checker made;
        int64_t answer = stunp_ice_checker_new(made.get(), &of);
        return result<checker>(answer, std::move(made));
    }
    // Sets the credentials of the peer (stunp_ice_checker_set_peer).
    result<> set_peer(view name, view password) {
        return ask(stunp_ice_checker_set_peer_with, get(), name, password);
    }
    result<bool> is_controlling() { return ask<bool>(stunp_ice_checker_is_controlling, get()); }
    result<> set_role(bool is_controlling) {
        return ask(stunp_ice_checker_set_role, get(), is_controlling);
    }
    result<> set_tie_breaker(uint64_t random) {
        return ask(stunp_ice_checker_set_tie_breaker, get(), random);
    }
    result<check> write(const std::array<uint8_t, STUNP_ID_LENGTH> &random_id, const address &to,
                        uint32_t priority, bool nominate) {
        check made;
        made.datagram.resize(STUNP_ICE_CHECK_MAX);
        int64_t length = stunp_ice_checker_check(get(), random_id.data(), &to, priority, nominate,
                                                 made.datagram.data(), made.datagram.size(),
                                                 &made.stored);
        made.datagram.resize(length < 0 ? 0 : size_t(length));
        return result<check>(length, std::move(made));
    }
    // Writes a check with further attributes.
    result<check> write(const std::array<uint8_t, STUNP_ID_LENGTH> &random_id, const address &to,
                        uint32_t priority, bool nominate, const endpoint::body &with) {
        check made;
        made.datagram.resize(STUNP_ICE_CHECK_MAX + with.get()->length);
        int64_t length = stunp_ice_checker_check_body(get(), random_id.data(), &to, priority, nominate,
                                                      with.get(), made.datagram.data(),
                                                      made.datagram.size(), &made.stored);
        made.datagram.resize(length < 0 ? 0 : size_t(length));
        return result<check>(length, std::move(made));
    }
    // Judges a datagram. `stored` is the check with the transaction ID of the datagram, or null if
    // there is none.
    result<received> receive(view datagram, const address &from, const stunp_ice_check *stored) {
        received got;
        int64_t kind = receive(got, datagram, from, stored).number();
        return result<received>(kind, std::move(got));
    }
    // Judges a datagram, and writes the outcome to a `received` of yours, whose memory is used
    // again.
    result<stunp_kind> receive(received &kept, view datagram, const address &from,
                               const stunp_ice_check *stored) {
        kept.answer.resize(2048);
        auto judge = [&] {
            return stunp_ice_checker_receive(get(), datagram.data(), datagram.size(), &from, stored,
                                             kept.answer.data(), kept.answer.size(), &kept.told);
        };
        int64_t kind = judge();
        if (kind == STUNP_BUFFER_TOO_SMALL) kept.answer.resize(kept.told.needed), kind = judge();
        kept.answer.resize(kind == STUNP_ANSWER ? kept.told.length : 0);
        return result<stunp_kind>(kind, kind < 0 ? STUNP_FAILED : stunp_kind(kind));
    }
};

} // namespace ice

} // namespace stunp

#endif
