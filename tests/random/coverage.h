/*
 * What the compared inputs have reached, by the second program's account: a
 * comparison that never meets a step says nothing about it.
 */
#ifndef COVERAGE_H
#define COVERAGE_H

#include "../second/bench.h"

/* Where a validate that answers or acts in a wrong way would show. */
struct validates {
    unsigned long good_elsewhere; /* good, of a cell other than 0 */
    unsigned long gone_equal;     /* gone, though the cell's value is the same */
    unsigned long gone_between;   /* gone at the step, good when it began */
    unsigned long good_good;      /* two in a row on one link */
    unsigned long good_gone;
    unsigned long gone_gone;
    unsigned long stored_good;    /* stores begun after a good one */
    unsigned long stored_gone;    /* stores begun after a gone one */
    unsigned long go_after;       /* 17 for a go right after the end of one */
    unsigned long during[KINDS];  /* 16 for another call before its step */
    unsigned long early[KINDS];   /* 16 by the call that ran; under GO while idle */
    unsigned long for_cell;       /* 15 for its cell alone */
    unsigned long for_spare;      /* 15 for its sixth byte alone */
    unsigned long for_value;      /* 15 for its value alone */
};

/* Where a store without a link that changes something, or one that is refused,
 * would show.  Kept: the link that its task has on another cell. */
struct unlinked {
    unsigned long fresh;          /* while idle, the task has never loaded */
    unsigned long idle;           /* while idle, of another cell than the last */
    unsigned long again;          /* while idle, of the cell it was last linked to */
    unsigned long good;           /* while linked elsewhere, the link is good */
    unsigned long stale;
    unsigned long twice;          /* the task's entry before was one too */
    unsigned long load_after;     /* while idle, and its next entry is a load */
    unsigned long go_after;       /* 17 for a go that is its task's next entry */
    unsigned long kept_took;      /* stores on a kept link */
    unsigned long kept_lost;
    unsigned long kept_good;      /* validates */
    unsigned long kept_gone;
    unsigned long kept_released;
    unsigned long in_call[KINDS]; /* by the call that another task runs there */
    unsigned long in_set_idle;    /* another is in that cell's set, which the store */
    unsigned long in_set_linked;  /* must leave; by an idle, a linked task */
    unsigned long in_set_took;    /* and the store of such another took */
    unsigned long own[KINDS];     /* 16 for a store by the call that ran, of */
    unsigned long other[KINDS];   /* the call's own cell and of another */
    unsigned long no_cell_idle;   /* 14 */
    unsigned long no_cell_linked;
    unsigned long zero_idle;      /* 15 */
    unsigned long zero_linked;
};

struct coverage {
    /* accepted entries by the phase they found their task in */
    unsigned long phase[PHASES];
    /* those that leave one free node less, and one more, in the same way */
    unsigned long taken[PHASES];
    unsigned long freed[PHASES];
    /* replies and refusals; a refused setup counts too */
    unsigned long number[NUMBERS];
    /* refusal given, and another fault that the same bytes had */
    unsigned long entry_order[NUMBERS][NUMBERS];
    unsigned long setup_order[NUMBERS][NUMBERS];
    /* the same as entry_order, of validates alone */
    unsigned long validate_order[NUMBERS][NUMBERS];
    /* cut entries by the bytes that were left */
    unsigned long cut[ENTRY_BYTES];
    /* setups cut in the head by their length, and cut in the values */
    unsigned long setup_cut[SETUP_HEAD + 1];

    unsigned long inputs;
    unsigned long bytes;
    unsigned long empty_schedules;
    unsigned long full_schedules;   /* of exactly 65,530 bytes */
    unsigned long ended_at_s3;      /* stores that took with 1 left on m */
    unsigned long ended_at_s6;
    unsigned long s5_at_1;          /* S5 with 1 on m: others lowered it since S3 */
    unsigned long long_walks;       /* three busy nodes or more before the free one */
    unsigned long longest_walk;
    unsigned long cursor_wraps;
    unsigned long wraps_at_128;     /* of these, in a pool of 128 */
    unsigned long turned_back;
    unsigned long turned_two;       /* inputs with two tasks or more turned back */
    unsigned long came_back;        /* checks passed after the node left and returned */
    unsigned long lost_equal;       /* stores lost to an equal value */
    unsigned long most_busy;        /* tasks in a call or linked at once */
    struct validates validates;
    struct unlinked unlinked;
};

/* Walks one input and adds what it meets. */
void cover(struct coverage *c, const uint8_t *input, size_t length);

/*
 * Prints the tables, and a line for everything the program's bytes can reach
 * that was never met.  Returns the number of such lines.
 */
unsigned coverage_print(FILE *out, const struct coverage *c);

#endif
