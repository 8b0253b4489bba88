/* Saihdelu: the NAS security contexts of 5GS and of EPS, for C11 and C++11.

   Link libnas_c.a (`rt lib` in crates/nas_c writes crates/nas_c/out/libnas_c.a). x86-64 Linux, System V calls. docs/HOST.md is
   the page for hosts.

   What holds of every function here:

   - It ends and answers. It keeps no state but the context, allocates nothing, reads no clock and no random numbers.
   - `number` of an answer is 0 on success, else a refusal: saihdelu_refusal_text. A refusal changes no context and writes no
     octet, but one: 8 says that the code of a received message was right and its content is refused. Its COUNT is used and
     its plaintext stands in the output, as on success.
   - A success writes the front of an output, `wrote` octets, and no octet behind it.
   - An array is a pointer and its length in octets. Pointers must not be null, also where the length is 0. A key is 16
     octets. Nothing is kept: the caller owns what it lends, and may free or change it after the call.
   - NOTHING MAY OVERLAP: no two of the context in place, the input and the outputs of one call may share an octet.
   - The refusals of a function are listed in the order in which they are tested; the first that applies is answered.
     "The context's own" are 13, 14, 16: they are met by a context that a refused creation or restore handed back (13), or
     that did not come from this library.

   A context is a value. Whoever goes on with an old copy uses its COUNTs and its keystream again, which gives the plaintext
   away: keep the one that comes back, and nothing else. A context holds its keys; wiping it is the host's matter. Some of its
   octets are padding and mean nothing: do not compare contexts octet by octet. */

#ifndef SAIHDELU_H
#define SAIHDELU_H

#include <stddef.h>
#include <stdint.h>

#ifdef __cplusplus
#define SAIHDELU_ASSERT(what, text) static_assert(what, text)
#else
#define SAIHDELU_ASSERT(what, text) _Static_assert(what, text)
#endif

#define SAIHDELU_KEY_BYTES 16u             /* of each of the two keys */
#define SAIHDELU_MESSAGE_MAX 65535u        /* inner octets of a message, octets of a container value: above it, refusal 4 */
#define SAIHDELU_OVERHEAD 7u               /* octets that a 5GS seal adds */
#define SAIHDELU_EPS_OVERHEAD 6u           /* octets that saihdelu_seal_eps_message and saihdelu_eps_seal add */
#define SAIHDELU_INITIAL_OVERHEAD(n) ((n) + 9u)  /* the most that saihdelu_initial adds to a message of n octets */
#define SAIHDELU_SERVICE_REQUEST_BYTES 4u  /* of a SERVICE REQUEST of EPS */
#define SAIHDELU_S1_TO_N1_BYTES 8u         /* of an S1-to-N1 container that is made here */
#define SAIHDELU_WINDOW_MAX 64u            /* the largest window size */
#define SAIHDELU_COUNTS 16777216u          /* COUNTs are below it; as a next COUNT it says that all are used */
#define SAIHDELU_NO_COUNT 4294967295u      /* from the next_count functions: no such direction or connection */
#define SAIHDELU_JOURNAL_MAX 60000u        /* bytes of a call in a journal: above it, refusal 4 */
#define SAIHDELU_JOURNAL_OVERHEAD 5u       /* octets in front of them */

/* Directions and connections. Any other number is answered 19 before all else. */
enum { SAIHDELU_UPLINK = 0, SAIHDELU_DOWNLINK = 1 };
enum { SAIHDELU_3GPP = 1, SAIHDELU_NON_3GPP = 2 };

/* Algorithm codes: integrity 128-NIA1 or 128-EIA1 and so on, ciphering 128-NEA1 or 128-EEA1 and so on. From 4 on: refusal 13. */
enum { SAIHDELU_NULL = 0, SAIHDELU_SNOW3G = 1, SAIHDELU_AES = 2, SAIHDELU_ZUC = 3 };

/* Security header types. 5GS pairs 3 with SECURITY MODE COMMAND and 4 with SECURITY MODE COMPLETE alone (refusal 10). 12 is
   answered for a SERVICE REQUEST of EPS and cannot be asked for. */
enum {
    SAIHDELU_INTEGRITY = 1,
    SAIHDELU_INTEGRITY_CIPHERED = 2,
    SAIHDELU_INTEGRITY_NEW = 3,
    SAIHDELU_INTEGRITY_CIPHERED_NEW = 4,
    SAIHDELU_SERVICE_REQUEST = 12
};

/* The words of a context are the library's own: they come from its functions and are changed by them alone. By value, size and
   alignment are all that a caller has to know. */
typedef struct { uint64_t w[65]; } saihdelu_context;
typedef struct { uint64_t w[61]; } saihdelu_eps_context;

/* An answer. Values that a call does not answer are 0, so are all but `number` of a refusal other than 8. */
typedef struct {
    uint8_t number;      /* 0, or the refusal, 1 to 19 */
    uint8_t carried;     /* with refusal 8: why the content is refused, 9, 10, 11, 12 or 18 */
    uint8_t header_type; /* of an opened message, 1 to 4; 12 for a SERVICE REQUEST of EPS */
    uint8_t octet;       /* the N1-to-S1 container that was made; the identifier of an opened SERVICE REQUEST of EPS */
    uint8_t connection;  /* of saihdelu_open_across: the connection that the message was taken on, 1 or 2 */
    uint32_t count;      /* the COUNT that was used */
    uint32_t distance;   /* of a received COUNT: how many were skipped before it, or how far below the highest used it lies */
    size_t wrote;        /* octets written to the output */
    size_t second;       /* octets written to the second output of an open */
} saihdelu_answer;

/* What a call leaves: its answer, and the context to go on with, whatever the answer is. */
typedef struct { saihdelu_answer answer; saihdelu_context context; } saihdelu_left;
typedef struct { saihdelu_answer answer; saihdelu_eps_context context; } saihdelu_eps_left;

SAIHDELU_ASSERT(sizeof(saihdelu_context) == 520, "the 5GS context has 520 octets");
SAIHDELU_ASSERT(sizeof(saihdelu_eps_context) == 488, "the EPS context has 488 octets");
SAIHDELU_ASSERT(offsetof(saihdelu_answer, count) == 8 && offsetof(saihdelu_answer, distance) == 12, "the answer's numbers");
SAIHDELU_ASSERT(offsetof(saihdelu_answer, wrote) == 16 && offsetof(saihdelu_answer, second) == 24, "the answer's lengths");
SAIHDELU_ASSERT(sizeof(saihdelu_answer) == 32, "an answer has 32 octets");
SAIHDELU_ASSERT(sizeof(saihdelu_left) == 552, "an answer, then a 5GS context");
SAIHDELU_ASSERT(sizeof(saihdelu_eps_left) == 520, "an answer, then an EPS context");

#ifdef __cplusplus
extern "C" {
#endif

/* The sizes that the library was built with. A host compares them with sizeof once, when it starts: no proof knows them. */
size_t saihdelu_context_size(void);     /* 520 */
size_t saihdelu_eps_context_size(void); /* 488 */

/* ---- 5GS: making and changing a context ---- */

/* A fresh context: every next COUNT 0, window size 0. For keys that nothing was sealed with before.
   Refusals: 13. The context that comes back with it is refused with 13 by every call. */
saihdelu_left saihdelu_new(uint8_t integrity, uint8_t ciphering,
                           const uint8_t integrity_key[16], const uint8_t ciphering_key[16]);

/* A context that goes on at stored next COUNTs, window size 0. 16777216 is a COUNT row that is used up. The numbers must be
   at or above those that were last in use with these keys: after older ones COUNTs and keystream are used again.
   Refusals: 13; 16, a next COUNT above 16777216. */
saihdelu_left saihdelu_restore(uint8_t integrity, uint8_t ciphering,
                               const uint8_t integrity_key[16], const uint8_t ciphering_key[16],
                               uint32_t next_uplink_3gpp, uint32_t next_downlink_3gpp,
                               uint32_t next_uplink_non_3gpp, uint32_t next_downlink_non_3gpp);

/* New codes and both new keys; next COUNTs, window size and window stay. Away from integrity code 0 every late COUNT is
   closed. Refusals: the context's own; 13. */
saihdelu_left saihdelu_reselect(saihdelu_context context, uint8_t integrity, uint8_t ciphering,
                                const uint8_t integrity_key[16], const uint8_t ciphering_key[16]);

/* The window size: how many COUNTs below the highest used one still open late, each once, in all four records. A COUNT that
   only the new size covers counts as used. Refusals: the context's own; 14, above 64. */
saihdelu_left saihdelu_set_window(saihdelu_context context, uint8_t size);

/* ---- 5GS: messages ---- */

/* Seals a plain 5GS message (7E 00 .. or 2E ..). Writes inner_len + 7 octets, answers count and wrote.
   Refusals: 19; the context's own; 9, not a known message; 3, header type not 1 to 4; 10, header type and message do not go
   together; 11, not a message of this direction; 4, above 65535; 5, out_len < inner_len + 7; 6, every COUNT is used. */
saihdelu_left saihdelu_seal(saihdelu_context context, uint8_t header_type, uint8_t direction, uint8_t connection,
                            const uint8_t *inner, size_t inner_len, uint8_t *out, size_t out_len);

/* The same for octets that are not looked at, for tests: what opens them may answer 8. Nothing (inner_len 0) gives 7 octets
   that no open takes. Refusals: 19; the context's own; 3, 4, 5, 6. */
saihdelu_left saihdelu_seal_opaque(saihdelu_context context, uint8_t header_type, uint8_t direction, uint8_t connection,
                                   const uint8_t *inner, size_t inner_len, uint8_t *out, size_t out_len);

/* Seals an initial message, SERVICE REQUEST or DEREGISTRATION REQUEST from the handset, given whole and without a container:
   header type 1, uplink. What is not cleartext goes out ciphered in a NAS message container, which is made here. Writes at most
   2 * whole_len + 9 octets, answers count and wrote.
   Refusals: 19; the context's own; 9, another message; 18, it has a container or a length runs past its end; 4, the message that
   goes out is above 65535; 5, out_len is below 7 and the message that goes out; 6. */
saihdelu_left saihdelu_initial(saihdelu_context context, uint8_t connection,
                               const uint8_t *whole, size_t whole_len, uint8_t *out, size_t out_len);

/* Opens a sealed 5GS message. Answers count, distance, header_type and wrote = message_len - 7: the message as it was sent, in
   out. `second` above 0: out2 has, in so many octets, the whole message of its container, and that is the one to act on. Under
   header type 1 and uplink out2 must be as long as out has to be; else it may have length 0 (its pointer still is not null).
   Refusals: 19; the context's own; 1, under 7 octets; 2, first octet not 7E; 3; 1, exactly 7; 4; 5, either output below
   message_len - 7; 6, no COUNT left that it could have; 7, the code is wrong, a repeated message among them; 8, carrying 9, 10,
   11 or 18, with count, distance, header_type, wrote and the plaintext in out, second 0. */
saihdelu_left saihdelu_open(saihdelu_context context, uint8_t direction, uint8_t connection,
                            const uint8_t *message, size_t message_len, uint8_t *out, size_t out_len,
                            uint8_t *out2, size_t out2_len);

/* Opens a message that may have been sealed on the other connection than the one that it arrives on, as one that is late after a
   handover between accesses. Where saihdelu_open on `connection`, on which it arrived, would refuse with 6 or 7, the other
   connection's record of this direction is tried. Answers what saihdelu_open answers, and in `connection` the one that it was taken
   on, also with 8; count and distance are of that one's record, and no other record changes. Under integrity code 0 no code tells
   the connections apart, and it is saihdelu_open on `connection`. It makes up to four codes, saihdelu_open up to two.
   Refusals: those of saihdelu_open in their order; where both connections would refuse, 6 if both would with 6, else 7. */
saihdelu_left saihdelu_open_across(saihdelu_context context, uint8_t direction, uint8_t connection,
                                   const uint8_t *message, size_t message_len, uint8_t *out, size_t out_len,
                                   uint8_t *out2, size_t out2_len);

/* Seals a plain EPS ATTACH REQUEST (07 41) or TRACKING AREA UPDATE REQUEST (07 48) with the 5GS context, uplink, 3GPP access.
   Writes inner_len + 6 octets, answers count and wrote. Refusals: the context's own; 12, 4, 5, 6. */
saihdelu_left saihdelu_seal_eps_message(saihdelu_context context,
                                        const uint8_t *inner, size_t inner_len, uint8_t *out, size_t out_len);

/* Opens one. Answers count, distance and wrote = message_len - 6. Refusals: the context's own; 1, under 6 octets; 2, first octet
   not 17; 4; 5; 6 or 7; 8, carrying 12. */
saihdelu_left saihdelu_open_eps_message(saihdelu_context context,
                                        const uint8_t *message, size_t message_len, uint8_t *out, size_t out_len);

/* ---- 5GS: the containers of a handover; downlink, 3GPP access ---- */

/* Makes an N1-to-S1 container: `octet`, the last octet of `count`. Refusals: the context's own; 6. */
saihdelu_left saihdelu_n1_to_s1(saihdelu_context context);

/* Takes one: answers count and distance. It has no code, so any octet is taken: hand one over once. Refusals: the context's own; 6. */
saihdelu_left saihdelu_verify_n1_to_s1(saihdelu_context context, uint8_t octet);

/* Makes an S1-to-N1 container: 8 octets, answers count and wrote. Refusals: the context's own; 16, ncc above 7 or ngksi above
   15; 5; 6. */
saihdelu_left saihdelu_s1_to_n1(saihdelu_context context, uint8_t ncc, uint8_t ngksi, uint8_t *out, size_t out_len);

/* Verifies one: answers count. The same container passes again and uses a COUNT again: hand one over once. Refusals: the
   context's own; 1, under 8 octets; 4, above 65535; 15, its algorithms are not the context's; 6; 7. */
saihdelu_left saihdelu_verify_s1_to_n1(saihdelu_context context, const uint8_t *value, size_t value_len);

/* ---- 5GS: reading; these refuse nothing and read a context as it is ---- */

uint32_t saihdelu_next_count(saihdelu_context context, uint8_t direction, uint8_t connection); /* or SAIHDELU_NO_COUNT */
uint8_t saihdelu_window(saihdelu_context context);
uint8_t saihdelu_integrity(saihdelu_context context);
uint8_t saihdelu_ciphering(saihdelu_context context);

/* ---- 5GS: a context that is changed where it lies ---- */

/* Each answers what the call of that name answers and leaves in *context the context that it hands back: with a refusal other
   than 8, the one that was there. Calls of both kinds may be mixed on one context. */
saihdelu_answer saihdelu_set_window_in_place(saihdelu_context *context, uint8_t size);
saihdelu_answer saihdelu_seal_in_place(saihdelu_context *context, uint8_t header_type, uint8_t direction, uint8_t connection,
                                       const uint8_t *inner, size_t inner_len, uint8_t *out, size_t out_len);
saihdelu_answer saihdelu_open_in_place(saihdelu_context *context, uint8_t direction, uint8_t connection,
                                       const uint8_t *message, size_t message_len, uint8_t *out, size_t out_len,
                                       uint8_t *out2, size_t out2_len);
saihdelu_answer saihdelu_open_across_in_place(saihdelu_context *context, uint8_t direction, uint8_t connection,
                                              const uint8_t *message, size_t message_len, uint8_t *out, size_t out_len,
                                              uint8_t *out2, size_t out2_len);

/* ---- EPS: a context of its own, with two records; it opens no message of a 5GS context, nor the other way round ---- */

/* As saihdelu_new. Refusals: 13. */
saihdelu_eps_left saihdelu_eps_new(uint8_t integrity, uint8_t ciphering,
                                   const uint8_t integrity_key[16], const uint8_t ciphering_key[16]);

/* As saihdelu_restore. Refusals: 13; 16. */
saihdelu_eps_left saihdelu_eps_restore(uint8_t integrity, uint8_t ciphering,
                                       const uint8_t integrity_key[16], const uint8_t ciphering_key[16],
                                       uint32_t next_uplink, uint32_t next_downlink);

/* As saihdelu_reselect. Refusals: the context's own; 13. */
saihdelu_eps_left saihdelu_eps_reselect(saihdelu_eps_context context, uint8_t integrity, uint8_t ciphering,
                                        const uint8_t integrity_key[16], const uint8_t ciphering_key[16]);

/* As saihdelu_set_window, in both records. Refusals: the context's own; 14. */
saihdelu_eps_left saihdelu_eps_set_window(saihdelu_eps_context context, uint8_t size);

/* Seals any octets: the inner message is not looked at. Writes inner_len + 6 octets, answers count and wrote. Nothing (inner_len
   0) gives 6 octets that no open takes. Refusals: 19; the context's own; 3, header type not 1 to 4; 4, above 65535; 5; 6. */
saihdelu_eps_left saihdelu_eps_seal(saihdelu_eps_context context, uint8_t header_type, uint8_t direction,
                                    const uint8_t *inner, size_t inner_len, uint8_t *out, size_t out_len);

/* Makes a SERVICE REQUEST: uplink, 4 octets, answers count and wrote. Refusals: the context's own; 16, identifier above 7; 5; 6. */
saihdelu_eps_left saihdelu_eps_service_request(saihdelu_eps_context context, uint8_t identifier, uint8_t *out, size_t out_len);

/* Opens a message of header type 1 to 4 (answers count, distance, header_type and wrote = message_len - 6) or a SERVICE REQUEST
   (answers count, distance, header_type 12 and its identifier in octet; nothing is written, so out_len may be 0). A SERVICE
   REQUEST opens forward only, among the 32 COUNTs from the next one on, and its code has 16 bits: one out of reach is taken as
   another COUNT one time in 65536. The host compares the identifier. There is no refusal 8.
   Refusals: 19; the context's own; 1, no octet; 2, low half of the first octet not 7; 3, its high half not 1 to 4 or C; 1,
   SERVICE REQUEST not of 4 octets, others under 7; 11, SERVICE REQUEST downlink; 4; 5; 6 or 7. */
saihdelu_eps_left saihdelu_eps_open(saihdelu_eps_context context, uint8_t direction,
                                    const uint8_t *message, size_t message_len, uint8_t *out, size_t out_len);

uint32_t saihdelu_eps_next_count(saihdelu_eps_context context, uint8_t direction); /* or SAIHDELU_NO_COUNT */
uint8_t saihdelu_eps_window(saihdelu_eps_context context);
uint8_t saihdelu_eps_integrity(saihdelu_eps_context context);
uint8_t saihdelu_eps_ciphering(saihdelu_eps_context context);

/* ---- The journal (docs/JOURNAL.md) ---- */

/* Writes the record of one call on a 5GS context: 4E 53, the kind, two octets of length, the call's bytes. Answers wrote =
   bytes_len + 5. The file that it goes to holds keys and plaintext. Refusals: 1, a length that this kind does not allow, or no
   such kind; 4, above 60000; 5. */
saihdelu_answer saihdelu_journal(uint8_t kind, const uint8_t *bytes, size_t bytes_len, uint8_t *out, size_t out_len);

#ifdef __cplusplus
}
#endif

/* One sentence for each number. */
static inline const char *saihdelu_refusal_text(uint8_t number) {
    switch (number) {
    case 0: return "success";
    case 1: return "too short: a message, a container value, or a journal record of a length that its kind does not allow";
    case 2: return "the first octet is not that of a protected message";
    case 3: return "the security header type is none that protects a message";
    case 4: return "too long: above 65535 octets, or above 60000 in a journal";
    case 5: return "an output is shorter than what would be written";
    case 6: return "every COUNT of this direction and connection is used, or none is left that this message could have";
    case 7: return "the code is wrong for every COUNT that the message could have: damaged, forged, repeated, or too late";
    case 8: return "the code is right and the content is refused: the COUNT is used and the plaintext handed over";
    case 9: return "not a known message";
    case 10: return "the security header type and the message do not go together";
    case 11: return "not a message of this direction";
    case 12: return "not an EPS ATTACH REQUEST or TRACKING AREA UPDATE REQUEST";
    case 13: return "an algorithm code is 4 or above, or the context is one that a refused creation handed back";
    case 14: return "the window size is above 64";
    case 15: return "the container's algorithms are not those of the context";
    case 16: return "NCC or key set identifier above 7, ngKSI above 15, or a next COUNT above 16777216";
    case 17: return "not given by this library";
    case 18: return "the initial message has a container, cannot be walked, or its container does not hold a message of its type";
    case 19: return "no such direction or connection";
    default: return "no such number";
    }
}

#endif
