/*
 * What the files of this program share. Each check calls the library as include/hanthuvelo.h declares it; it prints the
 * place of its first failure and returns 1, or it returns 0.
 */
#ifndef CHECKS_H
#define CHECKS_H

#include "hanthuvelo.h"
#include <stdio.h>
#include <string.h>

#define FILLING 0xA5
#define EXPECT(condition)                                                    \
    do {                                                                     \
        if (!(condition)) {                                                  \
            printf("%s, line %d: %s\n", __FILE__, __LINE__, #condition);     \
            return 1;                                                        \
        }                                                                    \
    } while (0)

extern const uint8_t H1_JOB[15];
extern const uint8_t H1_ANSWER[8];

/*
 * The longer header modulo 7: three outputs with the bounds 2, 0 and 1, dg 1 and E 0. g = 1 + u, f1 = 1 + u^2, f2 = 3
 * and f3 = 2u at the points 0 to 3; it is the trial job of these polynomials too.
 */
extern const uint8_t LONGER_JOB[39];
extern const uint8_t LONGER_ANSWER[20];

/* The example of docs/TRIAL.md: g = 1 + u, f1 = 5 and f2 = 1 modulo 7, two rows spoiled from the word 14. */
extern const uint8_t TRIAL_JOB[45];
extern const uint8_t TRIAL_ANSWER[12];

/* Modulo 7: df 0, dg 1, E 0, values 3 and 5 at the point 3, and a pole at 4. g = 3 + u, f1 = 4, f2 = 2. */
extern const uint8_t MARKED_JOB[19];
extern const uint8_t MARKED_ANSWER[12];

/* Whether a call returned these numbers. */
int same(struct hanthuvelo_report r, uint32_t refusal, uint32_t row, uint32_t written, uint32_t wrong);
int checked(struct hanthuvelo_refusal r, uint32_t refusal, uint32_t row);
int refused(struct hanthuvelo_written w, uint32_t refusal);
int judged(struct hanthuvelo_judgement j, uint32_t refusal, uint32_t row, uint32_t yes);

/* Whether an area holds what it was filled with between two places. */
int kept(const uint8_t *area, size_t from, size_t to);

/* Whether a check refuses a job so, and there is no margin, whatever number of wrong rows is named. */
int form_refused(const uint8_t *job, size_t job_length, uint32_t refusal, uint32_t row);

int check_recover(void);
int check_form(void);
int check_margin(void);
int check_trial(void);
int check_reciprocal(void);
int check_refusals(void);
int check_judge(void);
int check_longer(void);
int check_marked(void);

#endif
