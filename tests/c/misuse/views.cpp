// The value of a call that failed, which is a datagram that no call has judged, and a view of a
// text that is gone.
//
// clang: dangling
// harmless: nothing
// named: view: points to a text that no longer exists
#define NDEBUG
#include "stunp.hpp"
#include <cstdio>

int main() {
    stunp::endpoint::server none;
    stunp::view gone = std::string("a text that is too long for a small string");
    (void)gone;
    auto got = none.receive(stunp::view("no server"), {});
    const auto &it = *got;
    bool is_any = it.answer() || it.request() || it.indication() || it.response() || it.lookup()
        || it.dropped();
    std::puts(got || is_any ? "something" : "nothing");
    return 0;
}
