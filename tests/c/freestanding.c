/* The library without an operating system and without a C library: the functions that a program
 * must then define itself, and a server that judges a request. tests/rust_c.sh links this program
 * with the archive alone. Its only system call ends it with status 0. */
#include "stunp_endpoint.h"

/* The memory of the library: blocks of one array. None of them is used again. */
static uint8_t memory[1 << 16];
static size_t taken;

rattle_allocation rattle_alloc(size_t length, size_t alignment) {
    size_t at = (taken + alignment - 1) / alignment * alignment;
    if (at > sizeof memory || length > sizeof memory - at) return (rattle_allocation){false, NULL};
    taken = at + length;
    return (rattle_allocation){true, memory + at};
}

rattle_allocation rattle_realloc(void *at, size_t kept, size_t length, size_t alignment) {
    rattle_allocation to = rattle_alloc(length, alignment);
    if (to.is_ok) memcpy(to.at, at, kept);
    return to;
}

void rattle_dealloc(void *at) { (void)at; }

/* The functions of a C library that the library uses. malloc is not called, since this program
 * defines the three functions of stunp_endpoint.h. */
void *malloc(size_t length) { return (void)length, (void *)0; }
void *realloc(void *at, size_t length) { return (void)at, (void)length, (void *)0; }
void free(void *at) { (void)at; }

void *memcpy(void *restrict to, const void *restrict from, size_t length) {
    for (size_t i = 0; i < length; i++) ((volatile uint8_t *)to)[i] = ((const uint8_t *)from)[i];
    return to;
}

void *memmove(void *to, const void *from, size_t length) {
    if ((uintptr_t)to <= (uintptr_t)from) return memcpy(to, from, length);
    for (size_t i = length; i > 0; i--)
        ((volatile uint8_t *)to)[i - 1] = ((const uint8_t *)from)[i - 1];
    return to;
}

void *memset(void *to, int value, size_t length) {
    for (size_t i = 0; i < length; i++) ((volatile uint8_t *)to)[i] = (uint8_t)value;
    return to;
}

int memcmp(const void *one, const void *other, size_t length) {
    for (size_t i = 0; i < length; i++) {
        int difference = ((const uint8_t *)one)[i] - ((const uint8_t *)other)[i];
        if (difference != 0) return difference;
    }
    return 0;
}

int bcmp(const void *one, const void *other, size_t length) { return memcmp(one, other, length); }

size_t strlen(const char *text) {
    size_t length = 0;
    while (text[length] != 0) length++;
    return length;
}

static _Noreturn void end(long status) {
#if defined __x86_64__
    __asm__ volatile("syscall" : : "a"(60L), "D"(status));
#elif defined __aarch64__
    register long number __asm__("x8") = 93, with __asm__("x0") = status;
    __asm__ volatile("svc 0" : : "r"(number), "r"(with));
#endif
    for (;;) (void)status;
}

_Noreturn void abort(void) { end(99); }

static long judged(void) {
    static const uint8_t secret[32] = {1}, id[STUNP_ID_LENGTH] = {1};
    static uint8_t out[512];
    const stunp_address from = {{192, 0, 2, 1}, 3478, 4};
    uint8_t request[STUNP_HEADER_LENGTH];
    stunp_writer writer = stunp_write(STUNP_REQUEST, STUNP_BINDING, id, request, sizeof request);
    stunp_endpoint_server server = {0};
    stunp_endpoint_users users = {0};
    stunp_endpoint_server_settings settings = STUNP_INIT(stunp_endpoint_server_settings);
    settings.realm = "realm", settings.secret = secret;
    if (stunp_written(&writer) < 0) return 1;
    if (stunp_endpoint_server_new(&server, &settings) != 0) return 2;
    if (stunp_endpoint_users_new(&users, &server) != 0) return 2;
    if (stunp_endpoint_server_receive(&server, &users, request, sizeof request, &from, 0, out,
                                      sizeof out, NULL)
        != STUNP_ANSWER)
        return 3;
    stunp_endpoint_users_free(&users);
    stunp_endpoint_server_free(&server);
    return taken > 0 ? 0 : 4;
}

/* The first instructions. A function may expect the stack to be aligned as a call leaves it. */
#if defined __x86_64__
__asm__(".globl _start\n_start: xor %ebp, %ebp\n and $-16, %rsp\n call begun");
#else
__asm__(".globl _start\n_start: bl begun");
#endif
_Noreturn void begun(void);
_Noreturn void begun(void) { end(judged()); }
