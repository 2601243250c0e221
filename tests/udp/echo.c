/* A bare echo on UDP, to compare the processor time of a server with: one socket of IPv4, up to 32
 * datagrams in each recvmmsg and sendmmsg. Each comes back with the class of a success, and nothing
 * is read of it. The first line of output is `port N`. */
#define _GNU_SOURCE
#include <arpa/inet.h>
#include <netinet/in.h>
#include <stdio.h>
#include <sys/socket.h>

enum { BATCH = 32, MOST_BYTES = 4096, RECEIVE_BUFFER = 4 << 20 };

int main(void) {
    static uint8_t bytes[BATCH][MOST_BYTES];
    static struct sockaddr_in from[BATCH];
    static struct iovec data[BATCH];
    static struct mmsghdr messages[BATCH];
    struct sockaddr_in at = {.sin_family = AF_INET};
    socklen_t length = sizeof at;
    int fd = socket(AF_INET, SOCK_DGRAM, 0), buffer = RECEIVE_BUFFER;
    setsockopt(fd, SOL_SOCKET, SO_RCVBUFFORCE, &buffer, sizeof buffer);
    if (fd < 0 || bind(fd, (struct sockaddr *)&at, length) < 0
        || getsockname(fd, (struct sockaddr *)&at, &length) < 0) {
        perror("echo");
        return 1;
    }
    printf("port %u\n", (unsigned)ntohs(at.sin_port));
    fflush(stdout);
    for (;;) {
        for (int i = 0; i < BATCH; i++) {
            data[i] = (struct iovec){bytes[i], MOST_BYTES};
            messages[i].msg_hdr = (struct msghdr){.msg_name = &from[i],
                                                  .msg_namelen = sizeof from[i],
                                                  .msg_iov = &data[i],
                                                  .msg_iovlen = 1};
        }
        int number = recvmmsg(fd, messages, BATCH, MSG_WAITFORONE, NULL);
        for (int i = 0; i < number; i++) {
            data[i].iov_len = messages[i].msg_len;
            bytes[i][0] |= 1;
        }
        if (number > 0) sendmmsg(fd, messages, (unsigned)number, 0);
    }
}
