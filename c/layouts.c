/* Writes the size of each struct of zvt.h and the offsets of its members, for till_check.py. */
#include "zvt.h"
#include <stdio.h>

#define AT(type, member) printf(" %zu", offsetof(type, member))

int main(void) {
    printf("_Handle %zu", sizeof(zvt_till));
    AT(zvt_till, at); AT(zvt_till, full);
    printf("\n_Answer %zu", sizeof(zvt_answer));
    AT(zvt_answer, size); AT(zvt_answer, place); AT(zvt_answer, reason); AT(zvt_answer, status);
    printf("\n_Outcome %zu", sizeof(zvt_outcome));
    AT(zvt_outcome, kind); AT(zvt_outcome, code); AT(zvt_outcome, trace); AT(zvt_outcome, receipt); AT(zvt_outcome, has_receipt);
    printf("\n_Step %zu", sizeof(zvt_step));
    AT(zvt_step, taken); AT(zvt_step, send); AT(zvt_step, place); AT(zvt_step, line); AT(zvt_step, reason);
    AT(zvt_step, message); AT(zvt_step, printed); AT(zvt_step, outcome);
    printf("\n_Line %zu", sizeof(zvt_line));
    AT(zvt_line, size); AT(zvt_line, copy);
    printf("\n_State %zu", sizeof(zvt_state));
    AT(zvt_state, total); AT(zvt_state, booked); AT(zvt_state, unclear); AT(zvt_state, unclear_reversals);
    AT(zvt_state, settled); AT(zvt_state, held); AT(zvt_state, registered); AT(zvt_state, running); AT(zvt_state, last);
    printf("\n_Entry %zu", sizeof(zvt_entry));
    AT(zvt_entry, amount); AT(zvt_entry, trace); AT(zvt_entry, receipt); AT(zvt_entry, has_receipt);
    AT(zvt_entry, reversed); AT(zvt_entry, cause); AT(zvt_entry, doubt);
    printf("\n_Settlement %zu", sizeof(zvt_settlement));
    AT(zvt_settlement, place); AT(zvt_settlement, kind); AT(zvt_settlement, trace); AT(zvt_settlement, receipt);
    AT(zvt_settlement, has_receipt);
    printf("\n_Pending %zu", sizeof(zvt_pending));
    AT(zvt_pending, place); AT(zvt_pending, kind); AT(zvt_pending, last_known);
    printf("\n");
    return 0;
}
