/* A host that journals its calls: each call on its 5GS context is written to a file as a record (docs/JOURNAL.md), then made, and
   its answer is printed as the line that journal_read prints for it (docs/HEX-LINES.md). So

       journal FILE > ANSWERS        and        journal_read < FILE > REPLAYED

   give the same lines. The other end of the link has a context of its own, which is in no journal.
   Exit status 1 if the file cannot be written or the library refuses a record that it should take. */
#define _POSIX_C_SOURCE 200809L
#include "saihdelu.h"
#include <fcntl.h>
#include <stdio.h>
#include <stdlib.h>
#include <string.h>
#include <unistd.h>

enum {
    NEW = 1, RESTORE, RESELECT, WINDOW, SEAL, OPAQUE, OPEN, EPS_SEAL, EPS_OPEN, N1_TO_S1, VERIFY_N1_TO_S1, S1_TO_N1, VERIFY_S1_TO_N1, INITIAL
};

static saihdelu_context context; /* the one that the journal is about */
static FILE *journal;
static uint8_t bytes[65536], out[65536], out2[65536];
static size_t used; /* of bytes */

/* ---- the bytes of a call ---- */

static void octet(uint8_t o) {
    bytes[used++] = o;
}

static void octets(const uint8_t *o, size_t n) {
    memcpy(bytes + used, o, n);
    used += n;
}

static void number(uint32_t n, int width) {
    while (width-- > 0) octet((uint8_t)(n >> (8 * width)));
}

static void room(size_t n) {
    number(n > 65535 ? 65535 : (uint32_t)n, 2);
}

static void place(uint8_t direction, uint8_t connection) {
    octet((uint8_t)(direction + 2 * (connection - 1)));
}

static void keys(uint8_t integrity, uint8_t ciphering, const uint8_t ik[16], const uint8_t ck[16]) {
    octet(integrity);
    octet(ciphering);
    octets(ik, 16);
    octets(ck, 16);
}

/* Writes the record before the call is made, so that a call that ends in a crash is in the journal too. Answers the refusal. */
static uint8_t record(uint8_t kind) {
    static uint8_t whole[SAIHDELU_JOURNAL_MAX + SAIHDELU_JOURNAL_OVERHEAD];
    saihdelu_answer a = saihdelu_journal(kind, bytes, used, whole, sizeof whole);
    used = 0;
    if (a.number == 0 && fwrite(whole, 1, a.wrote, journal) != a.wrote) {
        perror("journal");
        exit(1);
    }
    /* What journal_read lends is filled so. */
    memset(out, 0xa5, sizeof out);
    memset(out2, 0xa5, sizeof out2);
    return a.number;
}

static void must(uint8_t refusal) {
    if (refusal != 0) {
        fprintf(stderr, "a record was refused: %s\n", saihdelu_refusal_text(refusal));
        exit(1);
    }
}

/* ---- the line of an answer ---- */

enum { DISTANCE = 1, HEADER_TYPE = 2, OCTET = 4, SECOND = 8 }; /* what a call answers beside COUNT and octets */

static void hex(const uint8_t *o, size_t n) {
    if (n == 0) printf(" -");
    else putchar(' ');
    for (size_t i = 0; i < n; i++) printf("%02x", o[i]);
}

static void print_change(saihdelu_answer a) {
    if (a.number == 0) puts("ok");
    else printf("no %u\n", a.number);
}

static void print_use(saihdelu_answer a, int answers) {
    if (a.number != 0 && a.number != 8) {
        printf("no %u", a.number);
    } else {
        printf(a.number == 0 ? "ok %08x" : "no 8 %08x", (unsigned)a.count);
        if (answers & DISTANCE) printf(" %08x", (unsigned)a.distance);
        printf(" %04zx", a.wrote);
        if (answers & HEADER_TYPE) printf(" %02x", a.header_type);
        if (answers & OCTET) printf(" %02x", a.octet);
        if (a.number == 8) printf(" %u", a.carried);
        hex(out, a.wrote);
        if (answers & SECOND) {
            printf(" %04zx", a.second);
            hex(out2, a.second);
        }
    }
    for (size_t i = a.wrote; i < sizeof out; i++)
        if (out[i] != 0xa5) { printf(" !tail"); break; }
    for (size_t i = a.second; i < sizeof out2; i++)
        if (out2[i] != 0xa5) { printf(" !tail"); break; }
    putchar('\n');
}

/* The context that a call left is kept, whatever its answer is. */
static saihdelu_answer keep(saihdelu_left left) {
    context = left.context;
    return left.answer;
}

/* ---- the calls, each journaled ---- */

static void make(uint8_t integrity, uint8_t ciphering, const uint8_t ik[16], const uint8_t ck[16]) {
    keys(integrity, ciphering, ik, ck);
    must(record(NEW));
    print_change(keep(saihdelu_new(integrity, ciphering, ik, ck)));
}

static void restore(uint8_t integrity, uint8_t ciphering, const uint8_t ik[16], const uint8_t ck[16], const uint32_t next[4]) {
    keys(integrity, ciphering, ik, ck);
    for (int i = 0; i < 4; i++) number(next[i], 4);
    must(record(RESTORE));
    print_change(keep(saihdelu_restore(integrity, ciphering, ik, ck, next[0], next[1], next[2], next[3])));
}

static void reselect(uint8_t integrity, uint8_t ciphering, const uint8_t ik[16], const uint8_t ck[16]) {
    keys(integrity, ciphering, ik, ck);
    must(record(RESELECT));
    print_change(keep(saihdelu_reselect(context, integrity, ciphering, ik, ck)));
}

static void window(uint8_t size) {
    octet(size);
    must(record(WINDOW));
    print_change(saihdelu_set_window_in_place(&context, size)); /* in place: the same call, the same kind */
}

static void seal(uint8_t header_type, uint8_t direction, uint8_t connection, const uint8_t *inner, size_t n, size_t lent) {
    octet(header_type);
    place(direction, connection);
    room(lent);
    octets(inner, n);
    must(record(SEAL));
    print_use(saihdelu_seal_in_place(&context, header_type, direction, connection, inner, n, out, lent), 0);
}

static uint8_t opaque(uint8_t header_type, uint8_t direction, uint8_t connection, const uint8_t *inner, size_t n, size_t lent) {
    octet(header_type);
    place(direction, connection);
    room(lent);
    octets(inner, n);
    uint8_t refusal = record(OPAQUE);
    saihdelu_answer a = keep(saihdelu_seal_opaque(context, header_type, direction, connection, inner, n, out, lent));
    if (refusal == 0) print_use(a, 0); /* a call that is in no journal has no line in the replay */
    return refusal;
}

static void open_message(uint8_t direction, uint8_t connection, const uint8_t *message, size_t n, size_t lent, size_t lent2) {
    place(direction, connection);
    room(lent);
    room(lent2);
    octets(message, n);
    must(record(OPEN));
    print_use(saihdelu_open_in_place(&context, direction, connection, message, n, out, lent, out2, lent2), DISTANCE | HEADER_TYPE | SECOND);
}

static void eps_seal(const uint8_t *inner, size_t n, size_t lent) {
    room(lent);
    octets(inner, n);
    must(record(EPS_SEAL));
    print_use(keep(saihdelu_seal_eps_message(context, inner, n, out, lent)), 0);
}

static void eps_open(const uint8_t *message, size_t n, size_t lent) {
    room(lent);
    octets(message, n);
    must(record(EPS_OPEN));
    print_use(keep(saihdelu_open_eps_message(context, message, n, out, lent)), DISTANCE);
}

static void n1_to_s1(void) {
    must(record(N1_TO_S1));
    print_use(keep(saihdelu_n1_to_s1(context)), OCTET);
}

static void verify_n1_to_s1(uint8_t container) {
    octet(container);
    must(record(VERIFY_N1_TO_S1));
    print_use(keep(saihdelu_verify_n1_to_s1(context, container)), DISTANCE);
}

static void s1_to_n1(uint8_t ncc, uint8_t ngksi, size_t lent) {
    octet(ncc);
    octet(ngksi);
    room(lent);
    must(record(S1_TO_N1));
    print_use(keep(saihdelu_s1_to_n1(context, ncc, ngksi, out, lent)), 0);
}

static void verify_s1_to_n1(const uint8_t *value, size_t n) {
    octets(value, n);
    must(record(VERIFY_S1_TO_N1));
    print_use(keep(saihdelu_verify_s1_to_n1(context, value, n)), 0);
}

static void initial(uint8_t connection, const uint8_t *whole, size_t n, size_t lent) {
    octet((uint8_t)(connection - 1));
    room(lent);
    octets(whole, n);
    must(record(INITIAL));
    print_use(keep(saihdelu_initial(context, connection, whole, n, out, lent)), 0);
}

/* ---- a shift of the host ---- */

static void shift(void) {
    const uint8_t mode_command[] = {0x7e, 0x00, 0x5d, 0x02, 0x00, 0x04, 0xf0, 0x70, 0xf0, 0x70};
    const uint8_t status[] = {0x7e, 0x00, 0x64, 0x16};
    const uint8_t accept[] = {0x7e, 0x00, 0x42, 0x01, 0x09}; /* REGISTRATION ACCEPT, downlink */
    const uint8_t request[] = {0x7e, 0x00, 0x4c, 0x10, 0x00, 0x07, 0xf4, 0x00, 0x40, 0xc0, 0x00, 0x00, 0x01,
                               0x40, 0x02, 0x20, 0x00, 0x50, 0x02, 0x20, 0x00}; /* SERVICE REQUEST with two optional parts */
    const uint8_t update[] = {0x07, 0x48, 0x01}, odd[] = {0x4e, 0x53}; /* a payload that looks like a record's mark */
    static uint8_t longest[60000];
    uint8_t ik[16], ck[16], sealed[3][64], container[8];
    uint32_t next[4];
    saihdelu_left peer;
    size_t n[3];

    for (int i = 0; i < 16; i++) {
        ik[i] = (uint8_t)i;
        ck[i] = (uint8_t)(16 + i);
    }

    n1_to_s1(); /* before the first creation */
    make(4, 2, ik, ck);
    window(8);
    make(2, 2, ik, ck);
    window(65);
    window(8);
    seal(3, SAIHDELU_DOWNLINK, SAIHDELU_3GPP, mode_command, sizeof mode_command, 64);
    seal(2, SAIHDELU_DOWNLINK, SAIHDELU_3GPP, accept, sizeof accept, 64);
    seal(2, SAIHDELU_DOWNLINK, SAIHDELU_NON_3GPP, accept, sizeof accept, 12);
    seal(2, SAIHDELU_DOWNLINK, SAIHDELU_NON_3GPP, accept, sizeof accept, 11);
    seal(2, SAIHDELU_UPLINK, SAIHDELU_3GPP, accept, sizeof accept, 64);

    /* The handset sends three messages, and the last two arrive before the first. */
    peer = saihdelu_new(2, 2, ik, ck);
    peer = saihdelu_seal(peer.context, 2, SAIHDELU_UPLINK, SAIHDELU_3GPP, status, sizeof status, sealed[0], sizeof sealed[0]);
    n[0] = peer.answer.wrote;
    peer = saihdelu_initial(peer.context, SAIHDELU_3GPP, request, sizeof request, sealed[1], sizeof sealed[1]);
    n[1] = peer.answer.wrote;
    peer = saihdelu_seal_opaque(peer.context, 1, SAIHDELU_UPLINK, SAIHDELU_3GPP, odd, sizeof odd, sealed[2], sizeof sealed[2]);
    n[2] = peer.answer.wrote;
    open_message(SAIHDELU_UPLINK, SAIHDELU_3GPP, sealed[2], n[2], 2, 2);
    open_message(SAIHDELU_UPLINK, SAIHDELU_3GPP, sealed[1], n[1], 64, 10);
    open_message(SAIHDELU_UPLINK, SAIHDELU_3GPP, sealed[1], n[1], 64, 64);
    open_message(SAIHDELU_UPLINK, SAIHDELU_3GPP, sealed[0], n[0], 64, 0);
    open_message(SAIHDELU_UPLINK, SAIHDELU_3GPP, sealed[0], n[0], 64, 0);
    sealed[0][1] = 0x05;
    open_message(SAIHDELU_UPLINK, SAIHDELU_3GPP, sealed[0], n[0], 64, 0);

    /* A handset that moves to EPS, and one that comes from there. */
    peer = saihdelu_seal_eps_message(peer.context, update, sizeof update, sealed[0], sizeof sealed[0]);
    eps_open(sealed[0], peer.answer.wrote, 64);
    eps_open(sealed[0], peer.answer.wrote, 64);
    eps_seal(update, sizeof update, 9);
    eps_seal(status, sizeof status, 64);
    n1_to_s1();
    verify_n1_to_s1(0x20);
    s1_to_n1(2, 5, 8);
    memcpy(container, out, sizeof container);
    verify_s1_to_n1(container, sizeof container);
    container[7] ^= 1;
    verify_s1_to_n1(container, sizeof container);
    s1_to_n1(8, 5, 8);

    /* Messages as a handset's context seals them, and the other algorithms. */
    initial(SAIHDELU_NON_3GPP, request, sizeof request, 64);
    initial(SAIHDELU_3GPP, status, sizeof status, 64);
    opaque(1, SAIHDELU_UPLINK, SAIHDELU_3GPP, odd, sizeof odd, 9);
    opaque(2, SAIHDELU_UPLINK, SAIHDELU_3GPP, odd, 0, 7);
    reselect(1, 1, ck, ik);
    seal(2, SAIHDELU_DOWNLINK, SAIHDELU_3GPP, accept, sizeof accept, 64);
    reselect(3, 3, ik, ck);
    seal(2, SAIHDELU_DOWNLINK, SAIHDELU_3GPP, accept, sizeof accept, 64);
    reselect(3, 9, ik, ck);

    /* A call that is too long for a journal: it is made and leaves a gap there. The host notes it elsewhere and restores its context at
       its own next COUNTs, so that the replay goes on from the same one. */
    if (opaque(1, SAIHDELU_DOWNLINK, SAIHDELU_3GPP, longest, sizeof longest, sizeof out) == 4) {
        fputs("a call of 60000 octets is not in the journal; the context is restored\n", stderr);
        next[0] = saihdelu_next_count(context, SAIHDELU_UPLINK, SAIHDELU_3GPP);
        next[1] = saihdelu_next_count(context, SAIHDELU_DOWNLINK, SAIHDELU_3GPP);
        next[2] = saihdelu_next_count(context, SAIHDELU_UPLINK, SAIHDELU_NON_3GPP);
        next[3] = saihdelu_next_count(context, SAIHDELU_DOWNLINK, SAIHDELU_NON_3GPP);
        restore(3, 3, ik, ck, next);
        window(8);
    }
    opaque(2, SAIHDELU_DOWNLINK, SAIHDELU_3GPP, longest, 59996, sizeof out); /* the longest that is */
    seal(2, SAIHDELU_DOWNLINK, SAIHDELU_3GPP, accept, sizeof accept, 64);

    /* The last COUNT. */
    next[0] = 0, next[1] = SAIHDELU_COUNTS - 1, next[2] = 5, next[3] = SAIHDELU_COUNTS;
    restore(2, 2, ik, ck, next);
    seal(2, SAIHDELU_DOWNLINK, SAIHDELU_3GPP, accept, sizeof accept, 64);
    seal(2, SAIHDELU_DOWNLINK, SAIHDELU_3GPP, accept, sizeof accept, 64);
    seal(2, SAIHDELU_DOWNLINK, SAIHDELU_NON_3GPP, accept, sizeof accept, 64);
    next[0] = SAIHDELU_COUNTS + 1;
    restore(2, 2, ik, ck, next);
    n1_to_s1();
}

int main(int argc, char **argv) {
    int file;
    if (argc != 2) {
        fputs("journal FILE\n", stderr);
        return 2;
    }
    /* It holds the keys: for its owner alone. */
    file = open(argv[1], O_WRONLY | O_CREAT | O_TRUNC, 0600);
    journal = file < 0 ? NULL : fdopen(file, "wb");
    if (journal == NULL) {
        perror(argv[1]);
        return 1;
    }
    /* The refused context, which a replay begins with. */
    context = saihdelu_new(255, 255, bytes, bytes).context;
    shift();
    if (fclose(journal) != 0 || fflush(stdout) != 0) {
        perror(argv[1]);
        return 1;
    }
    return 0;
}
