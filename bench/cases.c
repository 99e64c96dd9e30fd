/* The named cases, and the reader of their words. "The report" is UCLA report TR-070011. */
#include "cases.h"

#include <string.h>

/* Figure 6. 0 SaveOrder, 1 ReserveCredit, 2 Failed, 3 RestoreCredit, 4 SplitOrder, 5 FulfillPO, 6 MarkPOFailed, 7 CancelPO,
   8 BillCustomer, 9 Complete: just ten actions. Section 6.1 says that 0, 2, 3, 7 and 9 never fail. */
#define ORDER_TYPES "1311333131"
#define CREDIT_CHECK "12t;> 32; /"
#define BROKEN_CHECK "12t;>"
#define PROCESS_PO "56t;> 7/"
#define ORDER(check, fulfill) "0 " check "; 4; " fulfill "; 89; ;"

/* The order is saved, and then billed, fulfilled and complete and not failed, or the other way round in all four. */
#define PHI_O1 "0 85&9&2!& 8!5!&9!&2& | &"
/* No credit reserved: none restored and none billed. Reserved: restored or billed, not both. */
#define PHI_O2 "13!8!&| 1!38!&3!8&|| &"

/* Section 6.2. 0 BookFlight, 1 CancelFlight, 2 RentCar, 3 CancelCar, 4 ReserveTrain, 5 ReserveHotel1, 6 ReserveHotel2, typed as there. */
#define TRAVEL_TYPES "3131331"
#define TRAVEL "01/ 23/ ; 4> 56> ;"

/* "a or not a", which every set satisfies where no undo of a is paired; and 24 such with eight "not" after them, 127 bytes. */
#define YES(a) #a #a "!|"
#define YES_127                                                                                                                            \
    YES(0) YES(1) "&" YES(2) "&" YES(3) "&" YES(4) "&" YES(5) "&" YES(6) "&" YES(7) "&" YES(8) "&" YES(9) "&"                               \
    YES(0) "&" YES(1) "&" YES(2) "&" YES(3) "&" YES(4) "&" YES(5) "&" YES(6) "&" YES(7) "&" YES(8) "&" YES(9) "&"                           \
    YES(0) "&" YES(1) "&" YES(2) "&" YES(3) "&" "!!!!!!!!"

/* "a or not a, or 9", which every set satisfies where 9 is the undo of a; and 17 such, one "9 or not 9", and four "not", 127 bytes. */
#define YES_OR_UNDONE(a) #a #a "!|9|"
#define YES_PAIRED_127 \
    YES_OR_UNDONE(0) YES_OR_UNDONE(1) "&" YES_OR_UNDONE(2) "&" YES_OR_UNDONE(3) "&" YES_OR_UNDONE(4) "&" YES_OR_UNDONE(5) "&" \
    YES_OR_UNDONE(6) "&" YES_OR_UNDONE(7) "&" YES_OR_UNDONE(8) "&" YES_OR_UNDONE(0) "&" YES_OR_UNDONE(1) "&" YES_OR_UNDONE(2) "&" \
    YES_OR_UNDONE(3) "&" YES_OR_UNDONE(4) "&" YES_OR_UNDONE(5) "&" YES_OR_UNDONE(6) "&" YES_OR_UNDONE(7) "&" YES(9) "&" "!!!!"

/* "a or not a, or an undo", which every set satisfies where 7, 8 and 9 are the undos of a; and 11 such, one "9 or not 9", and two "not", 127 bytes. */
#define YES_OR_ANY_UNDONE(a) #a #a "!|7|8|9|"
#define YES_ALL_PAIRED_127 \
    YES_OR_ANY_UNDONE(0) YES_OR_ANY_UNDONE(1) "&" YES_OR_ANY_UNDONE(2) "&" YES_OR_ANY_UNDONE(3) "&" YES_OR_ANY_UNDONE(4) "&" \
    YES_OR_ANY_UNDONE(5) "&" YES_OR_ANY_UNDONE(6) "&" YES_OR_ANY_UNDONE(0) "&" YES_OR_ANY_UNDONE(1) "&" YES_OR_ANY_UNDONE(2) "&" \
    YES_OR_ANY_UNDONE(3) "&" YES(9) "&" "!!"

/* Ten actions side by side, each of which may do either and has "skip" as its handler: 39 nodes, each of the 1,024 sets under code 1. */
#define EITHER_TEN "0s> 1s>| 2s>| 3s>| 4s>| 5s>| 6s>| 7s>| 8s>| 9s>|"

/* Ten actions and "throw" side by side have every set under 9 and 10, since each action may finish or fail. The handler "throw or skip"
   brings these under 1, 2 and 3 also. So each of these five families is full, 1,024 sets, with 13 leaves. */
#define FULL_FIVE "01|2|3|4|5|6|7|8|9|t| ts+ >"

/* Beside it "skip, undone by throw or skip" adds 6 and 13: seven families, as many as there are where no undo has an undo, with 16 leaves. Two of these side by side are 63
   nodes, and the last node joins two full summaries to a full one. */
#define FULL_HALF FULL_FIVE " s ts+ / |"
#define FULL FULL_HALF FULL_HALF "|"

/* The undo "(skip, undone by throw or skip) beside throw or skip" has the empty set under 1, 2, 6, 9 and 13, and what it undoes so under 2, 3, 4, 6 and 7. So five full
   families beside that are all eleven, with 19 leaves. With five more beside these it is 63 nodes, and the last node has all eleven full. */
#define FULL_NESTED FULL_FIVE " s  s ts+ / ts+ |  / | " FULL_FIVE "|"

/* Which the set of all ten actions alone breaks. */
#define NOT_ALL_TEN "01&2&3&4&5&6&7&8&9& !"

/* Ten actions at three leaves each, and two leaves more: hard for the search for the plainest run, since it is long in doubt which leaf of an action can
   finish. Found by changing plans, at first random ones, for as long as the search took more folds. The first has choices and parallels alone, the second all forms. */
#define HARD_TYPES "3331311333"
#define HARD "000|4|4||41||12|15252||||39889++9+787++|6t||+33|||||65+6|t7|+||"
#define HARD_ALL_FORMS_TYPES "1133133333"
#define HARD_ALL_FORMS "tt|1116;;5/63|324;0|2;/307|679+>>;|;05/||||8452|4;/|799>88|>;>|"

const struct named_case CASES[] = {
    /* Examples 1 to 5: (Charge with undo Credit), then ProcessOrder; both of the first and third, or neither. Whole. */
    {"SimpleOrder", "313", "01", "01/ 2;", "02& 0!2!& |"},

    /* Section 2, with the trace there: 0 TakeMsg, 1 Preprocess, 2 SaveAcct, 3 LogErr, 4 Abort, 5 Commit. Its body is taken to be Preprocess,
       then SaveAcct with the handler LogErr. The report gives no types: 1 and 2 may fail, the rest do not. Rule phi_q1. */
    {"AcctRecv, q1", "133111", "", "0 1 23>; 4t;> ; 5;", "25& 2!4& |"},
    /* The same, mended as the report says: LogErr throws again. Rule phi_q3, which is phi_q1 and phi_q2. */
    {"AcctRecv mended, q3", "133111", "", "0 1 23t;>; 4t;> ; 5;", "25& 2!4& | 45!& 4!5& | &"},
    /* Section 2, "Other Features": 0 TakeMsg, 1 SaveHdr, 2 DelHdr, 3 AddContact, 4 Abort, 5 Commit; 1 and 3 may fail. Whole. */
    {"AcctRecv2", "131311", "12", "0 12/ 3; 4t;> ; 5;", "13&5& 1!3!&4& |"},

    /* Section 6.1. Its iteration over the purchase orders is erased, by Theorem 5: one order. Rule phi_o1. */
    {"OrderProcess, o1", ORDER_TYPES, "1357", ORDER(CREDIT_CHECK, PROCESS_PO), PHI_O1},
    /* The same with phi_o2, for which the report takes out the pair of ReserveCredit. */
    {"OrderProcess, o2", ORDER_TYPES, "57", ORDER(CREDIT_CHECK, PROCESS_PO), PHI_O2},
    /* Section 6.1, without the undo of CreditCheck. The report's counterexample goes on to FulfillPO; the smallest set ends with SplitOrder, which
       may fail too: SaveOrder and ReserveCredit, 3. */
    {"BrokenOrder, o2", ORDER_TYPES, "57", ORDER(BROKEN_CHECK, PROCESS_PO), PHI_O2},
    /* Section 6.1 with the iteration written out: five purchase orders side by side, on the same actions. 57 nodes. */
    {"OrderProcess x5, o1", ORDER_TYPES, "1357",
     ORDER(CREDIT_CHECK, PROCESS_PO PROCESS_PO "|" PROCESS_PO "|" PROCESS_PO "|" PROCESS_PO "|"), PHI_O1},

    /* Section 6.2, whole, the handler's left being flight and car as its text says. phi_t1: travel and a hotel, or nothing at all. phi_t2: only one way to travel, and only one hotel. */
    {"Travel, t1", TRAVEL_TYPES, "0123", TRAVEL, "02&4| 56| & 02|4|5|6|! |"},
    {"Travel, t2", TRAVEL_TYPES, "0123", TRAVEL, "02&4!& 02&!4& | 56!& 5!6& | & 02|4|5|6|! |"},

    /* Every set occurs and satisfies the rule. */
    {"all sets", "3333333333", "", EITHER_TEN, YES(0)},
    {"all sets, long rule", "3333333333", "", EITHER_TEN, YES_127},
    {"all sets, nine pairs", "3333333333", "091929394959697989", EITHER_TEN, YES_PAIRED_127},
    {"all sets, 21 pairs", "3333333333", "070809" "171819" "272829" "373839" "474849" "575859" "676869", EITHER_TEN, YES_ALL_PAIRED_127},

    /* Full families. The late rule is "not all ten", which the last set alone breaks. */
    {"full families", "3333333333", "", FULL, YES(0)},
    {"full, long rule", "3333333333", "", FULL, YES_127},
    {"full, late set", "3333333333", "", FULL, NOT_ALL_TEN},

    /* An undo of an undo: full families, and the office's withdrawal that half succeeds (plans/restored.plan). */
    {"nested, full families", "3333333333", "", FULL_NESTED, YES(0)},
    {"nested, restored", "3331131", "46", "0 1 46/5; / ; 2; 3;", "34| 1!|"},

    /* The search for the run: 244,337 folds, and 513,552. */
    {"hard run", HARD_TYPES, "", HARD, NOT_ALL_TEN},
    {"hard run, all forms", HARD_ALL_FORMS_TYPES, "", HARD_ALL_FORMS, NOT_ALL_TEN},
};

const unsigned CASE_COUNT = sizeof CASES / sizeof *CASES;

static unsigned digits(const char *words, uint8_t *out)
{
    unsigned n = 0;
    for (; words[n]; n++)
        out[n] = words[n] - '0';
    return n;
}

/* The nodes in the order of the words. */
static int write_process(const char *words, struct plan *p)
{
    static const char composites[] = ";|+/>"; /* forms 3 to 7 */
    unsigned stack[MOST_NODES], n = 0;
    for (; *words; words++) {
        const char *at = strchr(composites, *words);
        if (*words == ' ')
            continue;
        if (p->node_count == MOST_NODES || (at && n < 2))
            return 0;
        if (at) {
            n -= 2;
            stack[n] = add_node(p, SEQUENCE + (at - composites), stack[n], stack[n + 1]);
        } else if (*words == 's' || *words == 't')
            stack[n] = add_node(p, *words == 's' ? SKIP : THROW, 0, 0);
        else
            stack[n] = add_action(p, *words - '0');
        n++;
    }
    return n == 1;
}

static int write_rule(const char *words, struct plan *p)
{
    for (; *words; words++) {
        uint8_t t = *words == '!' ? NOT : *words == '&' ? AND : *words == '|' ? OR : *words - '0';
        if (*words == ' ')
            continue;
        if (p->rule_len == MOST_RULE)
            return 0;
        add_rule(p, &t, 1);
    }
    return 1;
}

int write_case(const struct named_case *c, struct plan_file *out)
{
    struct plan p = {0};
    p.actions = digits(c->types, p.types);
    p.pair_count = digits(c->pairs, p.pairs) / 2;
    if (!write_process(c->process, &p) || !write_rule(c->rule, &p))
        return 0;
    write_plan(&p, out);
    return 1;
}
