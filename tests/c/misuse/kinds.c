/* The kind of an event is compared with a kind of a datagram, and a switch leaves out a kind.
 *
 * warned: enum-compare
 * warned: switch */
#include "stunp_endpoint.h"

int compares(const stunp_event *event, const stunp_received *received);
int compares(const stunp_event *event, const stunp_received *received) {
    if (event->kind == STUNP_ANSWER) return 1;
    switch (received->kind) {
    case STUNP_DROPPED: return 0;
    case STUNP_ANSWER: return 2;
    }
    return 3;
}
