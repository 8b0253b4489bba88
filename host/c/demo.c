/* Two ends of a link, in C: seals, opens in order and late, a repeated message, refusal 8 with its plaintext, a handover between
   accesses, and SERVICE REQUEST on an EPS context. Keys and messages are those of docs/HEX-LINES.md and of the EPS session
   (crates/checks_eps), those of the handover come from differential/model.py, so every octet is known beforehand. Prints what it
   does; exit status 1 if an answer differs. */
#include "saihdelu.h"
#include <stdio.h>
#include <string.h>

static int wrong = 0;

static void print_hex(const uint8_t *octets, size_t n) {
    for (size_t i = 0; i < n; i++) printf("%02x", octets[i]);
}

/* What is to be answered, and the octets that are to be written, in hex. */
typedef struct {
    saihdelu_answer answer;
    const char *out;
} expected;

static int same_octets(const char *hex, const uint8_t *octets, size_t n) {
    char text[129];
    if (strlen(hex) != 2 * n || 2 * n > 128) return 0;
    for (size_t i = 0; i < n; i++) snprintf(text + 2 * i, 3, "%02x", octets[i]);
    return n == 0 || memcmp(text, hex, 2 * n) == 0;
}

static void check(const char *what, saihdelu_answer a, const uint8_t *out, expected e) {
    int same = a.number == e.answer.number && a.carried == e.answer.carried && a.header_type == e.answer.header_type &&
               a.octet == e.answer.octet && a.connection == e.answer.connection && a.count == e.answer.count &&
               a.distance == e.answer.distance && a.second == e.answer.second && same_octets(e.out, out, a.wrote);
    printf("%-46s ", what);
    if (a.number == 0 || a.number == 8) {
        printf("COUNT %u", (unsigned)a.count);
        if (a.connection > 0) printf(" of connection %u", a.connection);
        if (a.distance > 0) printf(", distance %u", (unsigned)a.distance);
        if (a.header_type > 0) printf(", header type %u", a.header_type);
        if (a.header_type == SAIHDELU_SERVICE_REQUEST) printf(", identifier %u", a.octet);
        if (a.wrote > 0) printf(", ");
        print_hex(out, a.wrote);
    }
    if (a.number != 0) printf("%srefusal %u: %s", a.number == 8 ? "; " : "", a.number, saihdelu_refusal_text(a.number));
    if (a.number == 8) printf("; it carries %u: %s", a.carried, saihdelu_refusal_text(a.carried));
    printf("%s\n", same ? "" : "   <-- NOT WHAT WAS EXPECTED");
    if (!same) wrong = 1;
}

/* A call that uses no COUNT: a creation or a change. */
static void check_change(const char *what, saihdelu_answer a, uint8_t number) {
    printf("%-46s ", what);
    if (a.number == 0) printf("done");
    else printf("refusal %u: %s", a.number, saihdelu_refusal_text(a.number));
    printf("%s\n", a.number == number ? "" : "   <-- NOT WHAT WAS EXPECTED");
    if (a.number != number) wrong = 1;
}

static void check_number(const char *what, uint32_t number, uint32_t e) {
    printf("%-46s %u%s\n", what, (unsigned)number, number == e ? "" : "   <-- NOT WHAT WAS EXPECTED");
    if (number != e) wrong = 1;
}

static expected refused(uint8_t number) {
    expected e = {{0}, ""};
    e.answer.number = number;
    return e;
}

static expected sealed(uint32_t count, const char *out) {
    expected e = {{0}, out};
    e.answer.count = count;
    return e;
}

static expected opened(uint32_t count, uint32_t distance, uint8_t header_type, const char *out) {
    expected e = {{0}, out};
    e.answer.count = count;
    e.answer.distance = distance;
    e.answer.header_type = header_type;
    return e;
}

static expected opened_on(uint8_t connection, uint32_t count, uint32_t distance, uint8_t header_type, const char *out) {
    expected e = opened(count, distance, header_type, out);
    e.answer.connection = connection;
    return e;
}

static expected service_request(uint32_t count, uint32_t distance, uint8_t identifier) {
    expected e = opened(count, distance, SAIHDELU_SERVICE_REQUEST, "");
    e.answer.octet = identifier;
    return e;
}

static expected content(uint8_t carried, uint32_t count, uint32_t distance, uint8_t header_type, const char *out) {
    expected e = opened(count, distance, header_type, out);
    e.answer.number = 8;
    e.answer.carried = carried;
    return e;
}

static void five(const uint8_t ik[16], const uint8_t ck[16]) {
    const uint8_t status[] = {0x7e, 0x00, 0x64, 0x16}; /* 5GMM STATUS, goes both ways */
    const uint8_t odd[] = {0xaa};                      /* no message at all */
    uint8_t first[16], second[16], third[16], plain[16], inside[16];
    saihdelu_left core = saihdelu_new(SAIHDELU_AES, SAIHDELU_AES, ik, ck);
    saihdelu_left handset = saihdelu_new(SAIHDELU_AES, SAIHDELU_AES, ik, ck);
    saihdelu_answer a;

    puts("5GS: a core and a handset with the same keys");
    check_change("a context for the core", core.answer, 0);
    check_change("a context for the handset", handset.answer, 0);
    check_change("algorithm code 4", saihdelu_new(4, SAIHDELU_AES, ik, ck).answer, 13);

    /* A call by value: whatever it answers, the context to go on with is the one that comes back. */
    handset = saihdelu_set_window(handset.context, 8);
    check_change("the handset takes what comes up to 8 late", handset.answer, 0);
    handset = saihdelu_set_window(handset.context, 65);
    check_change("a window of 65", handset.answer, 14);
    check_number("the window is still", saihdelu_window(handset.context), 8);

    core = saihdelu_seal(core.context, SAIHDELU_INTEGRITY_CIPHERED, SAIHDELU_DOWNLINK, SAIHDELU_3GPP,
                         status, sizeof status, first, sizeof first);
    check("the core seals", core.answer, first, sealed(0, "7e02da77f40f00ce974f6f"));
    size_t n = core.answer.wrote;

    /* The same call in place, for a host that keeps its contexts in a table. */
    a = saihdelu_seal_in_place(&core.context, SAIHDELU_INTEGRITY_CIPHERED, SAIHDELU_DOWNLINK, SAIHDELU_3GPP,
                               status, sizeof status, second, sizeof second);
    check("and once more, in place", a, second, sealed(1, "7e028a80fd310101c893cf"));

    a = saihdelu_open_in_place(&handset.context, SAIHDELU_DOWNLINK, SAIHDELU_3GPP, second, a.wrote,
                               plain, sizeof plain, inside, sizeof inside);
    check("the second message arrives first", a, plain, opened(1, 1, 2, "7e006416"));
    a = saihdelu_open_in_place(&handset.context, SAIHDELU_DOWNLINK, SAIHDELU_3GPP, first, n, plain, sizeof plain, inside, sizeof inside);
    check("the first one arrives late", a, plain, opened(0, 1, 2, "7e006416"));
    a = saihdelu_open_in_place(&handset.context, SAIHDELU_DOWNLINK, SAIHDELU_3GPP, first, n, plain, sizeof plain, inside, sizeof inside);
    check("somebody sends it again", a, plain, refused(7));
    check_number("the handset expects COUNT", saihdelu_next_count(handset.context, SAIHDELU_DOWNLINK, SAIHDELU_3GPP), 2);

    core = saihdelu_seal_opaque(core.context, SAIHDELU_INTEGRITY, SAIHDELU_DOWNLINK, SAIHDELU_3GPP, odd, sizeof odd, third, sizeof third);
    check("the core seals octets that are no message", core.answer, third, sealed(2, "7e01176a319d02aa"));
    handset = saihdelu_open(handset.context, SAIHDELU_DOWNLINK, SAIHDELU_3GPP, third, core.answer.wrote,
                            plain, sizeof plain, inside, sizeof inside);
    check("the handset opens them", handset.answer, plain, content(9, 2, 0, 1, "aa"));
    check_number("COUNT 2 is used; it expects", saihdelu_next_count(handset.context, SAIHDELU_DOWNLINK, SAIHDELU_3GPP), 3);

    core = saihdelu_seal(core.context, SAIHDELU_INTEGRITY_NEW, SAIHDELU_DOWNLINK, SAIHDELU_3GPP, status, sizeof status, first, sizeof first);
    check("header type 3 without SECURITY MODE COMMAND", core.answer, first, refused(10));
    core = saihdelu_seal(core.context, SAIHDELU_INTEGRITY, 7, SAIHDELU_3GPP, status, sizeof status, first, sizeof first);
    check("direction 7", core.answer, first, refused(19));
    core = saihdelu_seal(core.context, SAIHDELU_INTEGRITY, SAIHDELU_DOWNLINK, SAIHDELU_3GPP, status, sizeof status, first, 10);
    check("an output of 10 octets", core.answer, first, refused(5));
    check_number("a refusal uses no COUNT; the core's next is", saihdelu_next_count(core.context, SAIHDELU_DOWNLINK, SAIHDELU_3GPP), 3);
}

static void handover(const uint8_t ik[16], const uint8_t ck[16]) {
    const uint8_t status[] = {0x7e, 0x00, 0x64, 0x16};
    uint8_t slow[16], fast[16], after[16], plain[16], inside[16];
    saihdelu_left core = saihdelu_new(SAIHDELU_AES, SAIHDELU_AES, ik, ck);
    saihdelu_left handset = saihdelu_new(SAIHDELU_AES, SAIHDELU_AES, ik, ck);
    saihdelu_answer a;
    size_t n;

    /* Octets and answers below are those of differential/model.py, over the AES of OpenSSL. */
    puts("5GS: a handover from 3GPP to non-3GPP access");
    check_change("contexts for the core", core.answer, 0);
    handset = saihdelu_set_window(handset.context, 8);
    check_change("and the handset, with a window of 8", handset.answer, 0);
    a = saihdelu_seal_in_place(&core.context, SAIHDELU_INTEGRITY_CIPHERED, SAIHDELU_DOWNLINK, SAIHDELU_3GPP,
                               status, sizeof status, slow, sizeof slow);
    check("the core seals on 3GPP access", a, slow, sealed(0, "7e02da77f40f00ce974f6f"));
    n = a.wrote;
    a = saihdelu_seal_in_place(&core.context, SAIHDELU_INTEGRITY_CIPHERED, SAIHDELU_DOWNLINK, SAIHDELU_3GPP,
                               status, sizeof status, fast, sizeof fast);
    check("and once more", a, fast, sealed(1, "7e028a80fd310101c893cf"));
    a = saihdelu_open_in_place(&handset.context, SAIHDELU_DOWNLINK, SAIHDELU_3GPP, fast, a.wrote,
                               plain, sizeof plain, inside, sizeof inside);
    check("the second message arrives", a, plain, opened(1, 1, 2, "7e006416"));

    /* The handset moves; what the core sends from here on, it seals on non-3GPP access, with COUNTs of its own. */
    a = saihdelu_seal_in_place(&core.context, SAIHDELU_INTEGRITY_CIPHERED, SAIHDELU_DOWNLINK, SAIHDELU_NON_3GPP,
                               status, sizeof status, after, sizeof after);
    check("the core seals on non-3GPP access", a, after, sealed(0, "7e023d3789480085faebd0"));
    a = saihdelu_open_across_in_place(&handset.context, SAIHDELU_DOWNLINK, SAIHDELU_NON_3GPP, after, a.wrote,
                                      plain, sizeof plain, inside, sizeof inside);
    check("it arrives on non-3GPP access", a, plain, opened_on(SAIHDELU_NON_3GPP, 0, 0, 2, "7e006416"));

    /* The first message was under way on 3GPP access when the handset moved, and comes by the new one. */
    handset = saihdelu_open(handset.context, SAIHDELU_DOWNLINK, SAIHDELU_NON_3GPP, slow, n, plain, sizeof plain, inside, sizeof inside);
    check("the first one too; open does not take it", handset.answer, plain, refused(7));
    handset = saihdelu_open_across(handset.context, SAIHDELU_DOWNLINK, SAIHDELU_NON_3GPP, slow, n,
                                   plain, sizeof plain, inside, sizeof inside);
    check("open_across takes it on the old connection", handset.answer, plain, opened_on(SAIHDELU_3GPP, 0, 1, 2, "7e006416"));
    handset = saihdelu_open_across(handset.context, SAIHDELU_DOWNLINK, SAIHDELU_NON_3GPP, slow, n,
                                   plain, sizeof plain, inside, sizeof inside);
    check("and not again", handset.answer, plain, refused(7));
    handset = saihdelu_open_across(handset.context, SAIHDELU_DOWNLINK, SAIHDELU_3GPP, slow, n,
                                   plain, sizeof plain, inside, sizeof inside);
    check("nor on 3GPP access", handset.answer, plain, refused(7));
    check_number("the handset expects, on 3GPP access, COUNT", saihdelu_next_count(handset.context, SAIHDELU_DOWNLINK, SAIHDELU_3GPP), 2);
    check_number("and on non-3GPP access", saihdelu_next_count(handset.context, SAIHDELU_DOWNLINK, SAIHDELU_NON_3GPP), 1);
}

static void eps(const uint8_t ik[16], const uint8_t ck[16]) {
    const uint8_t update[] = {0x07, 0x48, 0xaa}; /* TRACKING AREA UPDATE REQUEST, as far as it goes */
    uint8_t message[16], request[2][4], empty[16], plain[16];
    saihdelu_eps_left handset = saihdelu_eps_new(SAIHDELU_AES, SAIHDELU_AES, ik, ck);
    saihdelu_eps_left core = saihdelu_eps_new(SAIHDELU_AES, SAIHDELU_AES, ik, ck);
    size_t n;

    puts("EPS: a handset and a core with the same keys");
    check_change("a context for the handset", handset.answer, 0);
    core = saihdelu_eps_set_window(core.context, 8);
    check_change("the core takes what comes up to 8 late", core.answer, 0);

    handset = saihdelu_eps_seal(handset.context, SAIHDELU_INTEGRITY_CIPHERED, SAIHDELU_UPLINK, update, sizeof update, message, sizeof message);
    check("the handset seals", handset.answer, message, sealed(0, "27154153a700eaeb9a"));
    n = handset.answer.wrote;
    handset = saihdelu_eps_service_request(handset.context, 5, request[0], 4);
    check("it sends SERVICE REQUEST, identifier 5", handset.answer, request[0], sealed(1, "c7a14b16"));
    handset = saihdelu_eps_service_request(handset.context, 5, request[1], 4);
    check("and another", handset.answer, request[1], sealed(2, "c7a2b2d0"));

    /* A SERVICE REQUEST writes nothing: an output of no octets will do, its pointer not null all the same. */
    core = saihdelu_eps_open(core.context, SAIHDELU_UPLINK, request[1], 4, plain, 0);
    check("the last one arrives first", core.answer, plain, service_request(2, 2, 5));
    core = saihdelu_eps_open(core.context, SAIHDELU_UPLINK, message, n, plain, sizeof plain);
    check("the message arrives late", core.answer, plain, opened(0, 2, 2, "0748aa"));
    core = saihdelu_eps_open(core.context, SAIHDELU_UPLINK, request[0], 4, plain, 0);
    check("a SERVICE REQUEST does not open late", core.answer, plain, refused(7));
    core = saihdelu_eps_open(core.context, SAIHDELU_DOWNLINK, request[0], 4, plain, 0);
    check("nor downlink", core.answer, plain, refused(11));
    core = saihdelu_eps_open(core.context, SAIHDELU_DOWNLINK, request[0], 3, plain, 0);
    check("nor with 3 octets", core.answer, plain, refused(1));
    handset = saihdelu_eps_seal(handset.context, SAIHDELU_INTEGRITY, SAIHDELU_DOWNLINK, update, 0, empty, 6);
    check("nothing is sealed", handset.answer, empty, sealed(0, "1752ca1c9000"));
    core = saihdelu_eps_open(core.context, SAIHDELU_DOWNLINK, empty, 6, plain, sizeof plain);
    check("and not opened", core.answer, plain, refused(1));
    handset = saihdelu_eps_service_request(handset.context, 8, request[0], 0);
    check("identifier 8", handset.answer, request[0], refused(16));
    check_number("the core expects uplink COUNT", saihdelu_eps_next_count(core.context, SAIHDELU_UPLINK), 3);
}

int main(void) {
    uint8_t ik[16], ck[16];
    for (int i = 0; i < 16; i++) {
        ik[i] = (uint8_t)i;
        ck[i] = (uint8_t)(16 + i);
    }
    if (saihdelu_context_size() != sizeof(saihdelu_context) || saihdelu_eps_context_size() != sizeof(saihdelu_eps_context)) {
        puts("the library has another layout than saihdelu.h");
        return 1;
    }
    five(ik, ck);
    handover(ik, ck);
    eps(ik, ck);
    puts(wrong ? "an answer is not what was expected" : "every answer is what was expected");
    return wrong;
}
