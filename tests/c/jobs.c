/* Jobs recovered, checked for their form alone, and asked for margins. */
#include "checks.h"

int check_recover(void)
{
    uint8_t area[HANTHUVELO_ANSWER_MAX];
    memset(area, FILLING, sizeof area);

    EXPECT(same(hanthuvelo_recover(H1_JOB, sizeof H1_JOB, area, 7), HANTHUVELO_AREA_TOO_SHORT, 0, 0, 0));
    EXPECT(same(hanthuvelo_recover(H1_JOB, sizeof H1_JOB, NULL, 0), HANTHUVELO_AREA_TOO_SHORT, 0, 0, 0));
    EXPECT(same(hanthuvelo_recover(NULL, 0, NULL, 0), HANTHUVELO_TOO_SHORT, 0, 0, 0));

    uint8_t job[sizeof H1_JOB];
    memcpy(job, H1_JOB, sizeof job);
    job[14] = 7;
    EXPECT(same(hanthuvelo_recover(job, sizeof job, area, sizeof area), HANTHUVELO_OUT_OF_RANGE, 2, 0, 0));
    memcpy(job, H1_JOB, sizeof job);
    job[10] = 4;
    EXPECT(same(hanthuvelo_recover(job, sizeof job, area, sizeof area), HANTHUVELO_NO_ANSWER, 0, 0, 0));
    EXPECT(kept(area, 0, sizeof area));

    EXPECT(same(hanthuvelo_recover(H1_JOB, sizeof H1_JOB, area, sizeof area), HANTHUVELO_RECOVERED, 0, 8, 1));
    EXPECT(memcmp(area, H1_ANSWER, sizeof H1_ANSWER) == 0);
    EXPECT(kept(area, sizeof H1_ANSWER, sizeof area));
    return 0;
}

/*
 * Whether a check says what a recovery does before it looks at its area, which has no bytes here; and there is a margin,
 * with no wrong row, exactly if the job is accepted.
 */
static int agrees(const uint8_t *job, size_t job_length)
{
    struct hanthuvelo_report r = hanthuvelo_recover(job, job_length, NULL, 0);
    if (r.refusal == HANTHUVELO_AREA_TOO_SHORT) {
        r.refusal = HANTHUVELO_ACCEPTED;
    }
    int is_accepted = r.refusal == HANTHUVELO_ACCEPTED;
    return checked(hanthuvelo_check(job, job_length), r.refusal, r.row)
           && (hanthuvelo_margin(job, job_length, 0) != 0) == is_accepted;
}

int check_form(void)
{
    EXPECT(sizeof(struct hanthuvelo_refusal) == 8);
    EXPECT(offsetof(struct hanthuvelo_refusal, refusal) == 0);
    EXPECT(offsetof(struct hanthuvelo_refusal, row) == 4);

    EXPECT(checked(hanthuvelo_check(NULL, 0), HANTHUVELO_TOO_SHORT, 0));
    EXPECT(checked(hanthuvelo_check(H1_JOB, sizeof H1_JOB), HANTHUVELO_ACCEPTED, 0));

    /* Every other byte at each place, with every length, and what is lent stays as it was. */
    uint8_t job[sizeof H1_JOB], before[sizeof H1_JOB];
    for (size_t place = 0; place < sizeof job; place++) {
        for (unsigned byte = 0; byte < 256; byte++) {
            memcpy(job, H1_JOB, sizeof job);
            job[place] = (uint8_t)byte;
            memcpy(before, job, sizeof job);
            for (size_t length = 0; length <= sizeof job; length++) {
                EXPECT(agrees(job, length));
            }
            EXPECT(memcmp(job, before, sizeof job) == 0);
        }
    }

    /* A job without an answer, which a recovery refuses with 8. */
    memcpy(job, H1_JOB, sizeof job);
    job[10] = 4;
    EXPECT(checked(hanthuvelo_check(job, sizeof job), HANTHUVELO_ACCEPTED, 0));
    return 0;
}

/*
 * S - df - dg - 2 wrong, or 0. H1 has three rows that speak and df = dg = 0; the longer job four rows, df 2 and dg 1; the
 * marked job two rows that speak and dg 1.
 */
int check_margin(void)
{
    static const uint32_t H1_MARGINS[] = {3, 1, 0, 0};
    for (uint32_t wrong = 0; wrong < 4; wrong++) {
        EXPECT(hanthuvelo_margin(H1_JOB, sizeof H1_JOB, wrong) == H1_MARGINS[wrong]);
        EXPECT(hanthuvelo_margin(LONGER_JOB, sizeof LONGER_JOB, wrong) == (wrong == 0));
        EXPECT(hanthuvelo_margin(MARKED_JOB, sizeof MARKED_JOB, wrong) == (wrong == 0));
        /* In 32 bits twice this number is twice `wrong`. */
        EXPECT(hanthuvelo_margin(H1_JOB, sizeof H1_JOB, ((uint32_t)1 << 31) + wrong) == 0);
        EXPECT(hanthuvelo_margin(H1_JOB, sizeof H1_JOB, UINT32_MAX - wrong) == 0);
        EXPECT(hanthuvelo_margin(NULL, 0, wrong) == 0);
    }

    /* The marked job with a third row: silent, it does not count; with a pole or with values it does. */
    uint8_t job[] = {0x11, 0x80, 0x21, 0,    0,    8,    0, 0, 3, 0,    3,    0,    5,
                     0,    4,    0xFF, 0xFF, 0xFF, 0xFF, 0, 5, 0xFF, 0xFE, 0xFF, 0xFE};
    EXPECT(hanthuvelo_margin(job, sizeof job, 0) == 1);
    job[22] = job[24] = HANTHUVELO_POLE & 0xFF;
    EXPECT(hanthuvelo_margin(job, sizeof job, 0) == 2);
    job[21] = job[22] = job[23] = job[24] = 0;
    EXPECT(hanthuvelo_margin(job, sizeof job, 0) == 2);

    /* The margin of H1's answer, and every byte of the job as it was. */
    uint8_t area[HANTHUVELO_ANSWER_MAX], lent[sizeof H1_JOB];
    memcpy(lent, H1_JOB, sizeof lent);
    struct hanthuvelo_report r = hanthuvelo_recover(lent, sizeof lent, area, sizeof area);
    EXPECT(hanthuvelo_margin(lent, sizeof lent, r.wrong) == 1);
    EXPECT(memcmp(lent, H1_JOB, sizeof lent) == 0);
    return 0;
}
