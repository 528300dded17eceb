/* The C interface of the consensus library. A buffer is a pointer and its length in bytes; a null pointer is allowed where the length is 0.
   The buffers of one call do not overlap. No call keeps a pointer, and none allocates. Each call answers HPAXOS_ACCEPTED or the row that turns
   it down, and a delivery that has a reply answers HPAXOS_REPLIED and more. A call that is turned down writes nothing. Numbers of several
   bytes have the highest byte first. Link with -lhpaxos. */
#ifndef HPAXOS_H
#define HPAXOS_H

#include <stddef.h>
#include <stdint.h>

#ifdef __cplusplus
extern "C" {
#endif

/* What a call answers: that it is done, or the row that turns it down. 13 was struck, and no call answers it. */
enum hpaxos_answer {
    HPAXOS_ACCEPTED = 0,

    HPAXOS_LENGTH = 1,        /* length wrong, bytes short or left over */
    HPAXOS_VERSION = 2,       /* version not 1 */
    HPAXOS_RANGE = 3,         /* kind, marker or a count outside its range */
    HPAXOS_ORDER = 4,         /* ids or masks not ascending */
    HPAXOS_MASK = 5,          /* mask zero, naming an acceptor that the file lacks, or containing an earlier one */
    HPAXOS_NOT_VALID = 6,     /* graph not valid */
    HPAXOS_NOT_CONDENSED = 7, /* graph not condensed */
    HPAXOS_OTHER_ROUND = 8,   /* another house or bay */
    HPAXOS_SIGNER = 9,        /* signer of an acceptor message not in the graph */
    HPAXOS_KNOWN = 10,        /* known already */
    HPAXOS_REFERENCE = 11,    /* a reference not known: deliver that message first */
    HPAXOS_PREVIOUS = 12,     /* previous message not referred to, a proposal, or of another signer */
    HPAXOS_MALFORMED_1B = 14, /* 1b not well-formed */
    HPAXOS_MALFORMED_2A = 15, /* 2a not well-formed: for no learner, or for just those of the 2a of its ballot that it names as previous */
    HPAXOS_FULL = 16,         /* the round holds as many messages as it can */
    HPAXOS_ARGUMENT = 17,     /* a lent buffer too short, a number that the graph lacks, no n-th reference, or a round with a count or place out of bounds */

    HPAXOS_REPLIED = 256      /* a delivery with a reply; its length is added */
};

/* What the first byte of a report says. */
enum hpaxos_state {
    HPAXOS_UNDECIDED = 0,
    HPAXOS_DECIDED = 1,
    HPAXOS_SPLIT = 2
};

/* ---- bay level: a listening round, one decision for one house and bay

       hpaxos_open(plan, plan_len, 1, 12, HPAXOS_LISTENING, round, sizeof round);         house 1, bay 12
       hpaxos_deliver(round, sizeof round, message, message_len, reply, sizeof reply);    each message that arrives
       hpaxos_report(round, sizeof round, 0, page, sizeof page);                          page[0] == HPAXOS_DECIDED: agreed */

/* A round is bytes in a buffer of the host, which may copy, keep and move them; a call reads and writes the first HPAXOS_ROUND_BYTES
   and none behind them. Place p belongs to the p-th held message, from 0 on. A count or place outside the bounds below is HPAXOS_ARGUMENT in
   every call. What is not in use is not read: the lists of learners that the graph lacks, places that hold nothing, a proposal's references.

   offset   size  field
        0      1  acceptors of the graph, 1 to 16
        1      1  learners of the graph, 1 to 8
        2     44  how many masks each list of the graph has: the quorums of learner 0 to 7, then the safe lists 0-0, 0-1, 1-1, 0-2 and so on;
                  at most 8 in each that is in use
       46   1408  the masks: list k has eight places of 4 bytes from 46 + 32 * k on
     1454      2  house
     1456      2  bay
     1458      2  own acceptor number; 256: listening only. Any other that the graph lacks is HPAXOS_ARGUMENT
     1460      1  how many messages are held, at most 128
     1461      1  place of the last sent message, a held one; 255: none
     1462   4096  ids: place p has 32 bytes from 1462 + 32 * p on
     5558    128  kinds; 1: a proposal, any other: an acceptor message
     5686    128  signers
     5814   1024  ballots of proposals, 8 bytes each
     6838    128  place of an acceptor message's previous message, a held one; 255: none. A proposal's is written 255 and is read, too:
                  any but 255 or a held place is HPAXOS_ARGUMENT
     6966    128  how many references an acceptor message has, 1 to 128. A proposal's is written 0 and is read, too: more than 128 is
                  HPAXOS_ARGUMENT
     7094  16384  their places: place p has 128 bytes from 7094 + 128 * p on; each is below p
    23478    128  known; 0: awaits its return
    23606    128  recent, the messages that the next reply refers to; 0: not in it. A reply writes all of these bytes */
#define HPAXOS_ROUND_BYTES 23734

/* The acceptor number of a round that listens only. */
#define HPAXOS_LISTENING 256

/* The shortest reply buffer that a delivery takes: as long as the longest message. */
#define HPAXOS_REPLY_BYTES 4139

/* A report: its state, and two ballots behind it. */
#define HPAXOS_REPORT_BYTES 17

/* Opens a round from a graph file for an acceptor of the graph, by its number, or HPAXOS_LISTENING.
   HPAXOS_ACCEPTED: the first HPAXOS_ROUND_BYTES bytes of round are the round, those behind keep their values.
   HPAXOS_LENGTH to HPAXOS_NOT_CONDENSED: as hpaxos_check_graph, before all else.
   HPAXOS_ARGUMENT: then, where round_len < HPAXOS_ROUND_BYTES, or the acceptor number is neither in the graph nor HPAXOS_LISTENING. */
uint32_t hpaxos_open(const uint8_t *graph, size_t graph_len, uint16_t house, uint16_t bay, uint32_t acceptor, uint8_t *round, size_t round_len);

/* Delivers a message, any bytes, to a round, and keeps the next round in its place.
   HPAXOS_ACCEPTED: accepted, with no reply; reply keeps its values.
   HPAXOS_REPLIED + n: accepted; the first n bytes of reply are the message to send, those behind keep their values.
      In both cases the message is held, at the first free place, which is written in every column (of the references those that it has);
      or it returns, and becomes known where it is. A reply is held at the next free place, is last sent, and is recent alone: 1 at its place, 0 at all
      127 others, free ones too. Without one, the message joins recent in a round that votes, unless it is a proposal.
   HPAXOS_ARGUMENT: round_len < HPAXOS_ROUND_BYTES, a round with a count or place out of bounds, or reply_len < HPAXOS_REPLY_BYTES, before all else.
   HPAXOS_LENGTH to HPAXOS_ORDER: the bytes are no message, as hpaxos_read_message.
   HPAXOS_OTHER_ROUND to HPAXOS_FULL: then, the first of them that applies, in the order of their numbers. */
uint32_t hpaxos_deliver(uint8_t *round, size_t round_len, const uint8_t *message, size_t message_len, uint8_t *reply, size_t reply_len);

/* What is decided for a learner of the graph.
   HPAXOS_ACCEPTED: the first HPAXOS_REPORT_BYTES bytes of out are the report, those behind keep their values: 1 byte, HPAXOS_UNDECIDED,
      HPAXOS_DECIDED or HPAXOS_SPLIT; the least deciding ballot, 8 bytes, zeros if undecided; for a split the least deciding ballot of
      another value, 8 bytes, else zeros. The lower four bytes of a ballot are its value.
   HPAXOS_ARGUMENT: round_len < HPAXOS_ROUND_BYTES, out_len < HPAXOS_REPORT_BYTES, a round with a count or place out of bounds, or a learner not in the
      graph. */
uint32_t hpaxos_report(const uint8_t *round, size_t round_len, uint8_t learner, uint8_t *out, size_t out_len);

/* ---- house level: a voting round, and proposals. A round that was opened with an acceptor number votes: a delivery to it may have a
   reply, which the host sends to everybody, the acceptor itself included.

       hpaxos_open(plan, plan_len, 1, 12, 3, round, sizeof round);                        acceptor 3 of house 1, bay 12
       hpaxos_write_proposal(1, 12, 0, 5, 70, message, sizeof message);                   proposer 0, round number 5, value 70
       uint32_t answer = hpaxos_deliver(round, sizeof round, message, HPAXOS_PROPOSAL_BYTES, reply, sizeof reply);
       if (answer > HPAXOS_REPLIED) send(reply, answer - HPAXOS_REPLIED); */

#define HPAXOS_PROPOSAL_BYTES 17

/* Writes a proposal. Round number 0 stands for 1 and is written as 1.
   HPAXOS_ACCEPTED: the first HPAXOS_PROPOSAL_BYTES bytes of message are the proposal, those behind keep their values.
   HPAXOS_ARGUMENT: len < HPAXOS_PROPOSAL_BYTES. */
uint32_t hpaxos_write_proposal(uint16_t house, uint16_t bay, uint8_t proposer, uint32_t round, uint32_t value, uint8_t *message, size_t len);

/* ---- site level: the check of the trust plan

       uint32_t row = hpaxos_check_graph(plan, plan_len);
       if (row != HPAXOS_ACCEPTED) printf("the plan is turned down by row %u\n", row); */

/* Whether the bytes are a learner graph file that is accepted.
   HPAXOS_ACCEPTED: accepted.
   HPAXOS_LENGTH to HPAXOS_NOT_CONDENSED: why it is turned down; the fault nearest the front counts, and the last two come last. */
uint32_t hpaxos_check_graph(const uint8_t *file, size_t len);

/* ---- every level: messages and their ids */

/* The fields of a message that is read. */
#define HPAXOS_FIELDS_BYTES 48

/* A message's id, and a digest. */
#define HPAXOS_ID_BYTES 32

/* Reads a message from any bytes.
   HPAXOS_ACCEPTED: the first HPAXOS_FIELDS_BYTES bytes of fields are its fields, those behind keep their values:
      kind 1 byte, house 2, bay 2, signer 1, ballot 8 (0 for kind 2), marker 1, previous id 32 (zeros if there is none), count of references 1.
   HPAXOS_ARGUMENT: fields_len < HPAXOS_FIELDS_BYTES, before all else.
   HPAXOS_LENGTH to HPAXOS_ORDER: the bytes are no message. */
uint32_t hpaxos_read_message(const uint8_t *bytes, size_t len, uint8_t *fields, size_t fields_len);

/* The n-th reference of a message; n starts at 0.
   HPAXOS_ACCEPTED: the first HPAXOS_ID_BYTES bytes of id are the reference, those behind keep their values.
   HPAXOS_ARGUMENT: id_len < HPAXOS_ID_BYTES, before all else.
   HPAXOS_LENGTH to HPAXOS_ORDER: the bytes are no message.
   HPAXOS_ARGUMENT: then, where there is no n-th reference; a proposal has none. */
uint32_t hpaxos_reference(const uint8_t *bytes, size_t len, size_t n, uint8_t *id, size_t id_len);

/* The SHA-256 digest (FIPS 180-4) of a message of any length: a message's id.
   HPAXOS_ACCEPTED: the first HPAXOS_ID_BYTES bytes of digest are the digest, those behind keep their values.
   HPAXOS_ARGUMENT: digest_len < HPAXOS_ID_BYTES. */
uint32_t hpaxos_sha256(const uint8_t *message, size_t message_len, uint8_t *digest, size_t digest_len);

#ifdef __cplusplus
}
#endif

#endif
