/* One house and bay, one controller, one vent computer: a proposal is made, voted on and agreed. Ends with 0 if every answer is the expected one.

       gcc -Iinclude examples/first_round.c -Lcrates/hpaxos/out -lhpaxos -o first_round && ./first_round */
#include <stdio.h>

#include "hpaxos.h"

/* The trust plan: one acceptor, one learner, who trusts it. */
static const uint8_t plan[] = {0x00, 0x09, 0x01, 0x01, 0x01, 0x01, 0x00, 0x01, 0x01, 0x00, 0x01};

static uint8_t controller[HPAXOS_ROUND_BYTES];
static uint8_t vent_computer[HPAXOS_ROUND_BYTES];

static int wrong;

static uint32_t say(const char *what, uint32_t answer, uint32_t expected) {
    printf("%-44s %u\n", what, answer);
    wrong |= answer != expected;
    return answer;
}

/* A message to the controller; the length of its reply. */
static uint32_t answered(const char *what, const uint8_t *message, size_t len, uint8_t *reply, uint32_t expected) {
    uint32_t answer = hpaxos_deliver(controller, sizeof controller, message, len, reply, HPAXOS_REPLY_BYTES);
    return say(what, answer, HPAXOS_REPLIED + expected) - HPAXOS_REPLIED;
}

/* A message that has no reply, to either of them. */
static void heard(uint8_t *round, const char *what, const uint8_t *message, size_t len) {
    uint8_t none[HPAXOS_REPLY_BYTES];
    say(what, hpaxos_deliver(round, HPAXOS_ROUND_BYTES, message, len, none, sizeof none), HPAXOS_ACCEPTED);
}

int main(void) {
    uint8_t proposal[HPAXOS_PROPOSAL_BYTES], first[HPAXOS_REPLY_BYTES], second[HPAXOS_REPLY_BYTES], page[HPAXOS_REPORT_BYTES];

    say("the plan is accepted", hpaxos_check_graph(plan, sizeof plan), HPAXOS_ACCEPTED);
    say("controller 0 opens house 1, bay 12", hpaxos_open(plan, sizeof plan, 1, 12, 0, controller, sizeof controller), HPAXOS_ACCEPTED);
    say("the vent computer listens", hpaxos_open(plan, sizeof plan, 1, 12, HPAXOS_LISTENING, vent_computer, sizeof vent_computer), HPAXOS_ACCEPTED);

    say("round number 5, vents at 70", hpaxos_write_proposal(1, 12, 0, 5, 70, proposal, sizeof proposal), HPAXOS_ACCEPTED);
    uint32_t first_len = answered("the controller answers, 256 + 43 bytes", proposal, sizeof proposal, first, 43);
    uint32_t second_len = answered("its own answer returns, 256 + 75 bytes", first, first_len, second, 75);
    heard(controller, "its vote returns and is not voted on", second, second_len);

    heard(vent_computer, "the vent computer hears the proposal", proposal, sizeof proposal);
    heard(vent_computer, "and the first vote", first, first_len);
    say("the page is asked", hpaxos_report(vent_computer, sizeof vent_computer, 0, page, sizeof page), HPAXOS_ACCEPTED);
    say("nothing is agreed yet", page[0], HPAXOS_UNDECIDED);
    heard(vent_computer, "the second vote", second, second_len);
    say("the page is asked again", hpaxos_report(vent_computer, sizeof vent_computer, 0, page, sizeof page), HPAXOS_ACCEPTED);
    say("agreed", page[0], HPAXOS_DECIDED);
    say("value, the last of the ballot's eight bytes", page[8], 70);
    return wrong;
}
