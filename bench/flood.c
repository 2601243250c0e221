/* Floods a STUN server on 127.0.0.1 with unsigned requests, each from another address:
 * flood PORT ADDRESSES RATE
 *
 * They come from 127.16.0.0 on, from one port, RATE a second; what is answered is not read. Prints
 * how many were sent, and the seconds. */
#define _GNU_SOURCE
#include <arpa/inet.h>
#include <netinet/in.h>
#include <stdint.h>
#include <stdio.h>
#include <stdlib.h>
#include <string.h>
#include <sys/socket.h>
#include <time.h>

enum { FIRST = 0x7f100000, AT_ONCE = 50 };

static double now(void) {
    struct timespec moment;
    clock_gettime(CLOCK_MONOTONIC, &moment);
    return (double)moment.tv_sec + (double)moment.tv_nsec / 1e9;
}

/* Waits until a moment. */
static void wait_until(double moment) {
    double left = moment - now();
    struct timespec wait = {(time_t)left, (long)((left - (double)(time_t)left) * 1e9)};
    if (left > 0) nanosleep(&wait, NULL);
}

static ssize_t send_from(int fd, uint32_t address, const struct sockaddr_in *server) {
    uint8_t request[20] = {0, 1, 0, 0, 0x21, 0x12, 0xa4, 0x42};
    size_t control[CMSG_SPACE(sizeof(struct in_pktinfo)) / sizeof(size_t)] = {0};
    struct in_pktinfo from = {.ipi_spec_dst.s_addr = htonl(address)};
    struct iovec data = {request, sizeof request};
    struct msghdr message = {(void *)server, sizeof *server, &data, 1, control, sizeof control, 0};
    struct cmsghdr *one = CMSG_FIRSTHDR(&message);
    one->cmsg_level = IPPROTO_IP, one->cmsg_type = IP_PKTINFO,
        one->cmsg_len = CMSG_LEN(sizeof from);
    memcpy(CMSG_DATA(one), &from, sizeof from);
    memcpy(request + 8, &address, sizeof address);
    return sendmsg(fd, &message, 0);
}

int main(int count, char **words) {
    if (count != 4) {
        fprintf(stderr, "usage: flood PORT ADDRESSES RATE\n");
        return 2;
    }
    struct sockaddr_in server = {.sin_family = AF_INET, .sin_addr.s_addr = htonl(INADDR_LOOPBACK)},
        any = {.sin_family = AF_INET};
    uint32_t addresses = (uint32_t)strtoul(words[2], NULL, 10), sent = 0;
    double rate = atof(words[3]), begun = now();
    int fd = socket(AF_INET, SOCK_DGRAM, 0), least = 0;
    server.sin_port = htons((uint16_t)atoi(words[1]));
    setsockopt(fd, SOL_SOCKET, SO_RCVBUF, &least, sizeof least);
    if (fd < 0 || bind(fd, (struct sockaddr *)&any, sizeof any) < 0) {
        perror("flood");
        return 1;
    }
    for (uint32_t i = 0; i < addresses; i++) {
        if (i % AT_ONCE == 0) wait_until(begun + i / rate);
        sent += send_from(fd, FIRST + i, &server) == 20;
    }
    printf("sent %u seconds %.3f\n", sent, now() - begun);
    return 0;
}
