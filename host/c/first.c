#include <ambrulicciu.h>
#include <stdio.h>

static ambrulicciu_link yard;

int main(void) {
    uint32_t secret[8] = {1, 2, 3, 4, 5, 6, 7, 8}; /* a real host asks its system for random bytes */
    ambrulicciu_packet packet = {1000, 7};         /* when a probe was sent, and a tag of the host's */
    ambrulicciu_accepted reply;
    uint8_t text[AMBRULICCIU_TEXT];
    uint64_t length;
    ambrulicciu_link_fresh(&yard, 1, secret, 3, 2000000000); /* one reply a probe; failed at 3 losses in a row; lost after 2 s */
    ambrulicciu_link_sent(&yard, 1, 1, 0, packet.time, packet.tag);
    ambrulicciu_link_sent(&yard, 2, 2, 0, 2000, 8);
    ambrulicciu_link_accept(&yard, 1, 1, 5, &packet, &reply); /* a reply to the first; the second stays without */
    if (reply.class_ == AMBRULICCIU_UNIQUE) {
        ambrulicciu_observation observation = {.t3 = 5, .sender = 1, .reflector = 1, .round_trip = 50};
        ambrulicciu_link_observe(&yard, &observation);
    }
    ambrulicciu_link_advance(&yard, 3000000000);
    ambrulicciu_link_report(&yard, 5, 0, text, &length);
    return fwrite(text, 1, length, stdout) != length;
}
