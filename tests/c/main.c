/* Calls the library as include/hanthuvelo.h declares it; prints the place of the first failure and ends with 1. */
#include "checks.h"

const uint8_t H1_JOB[15] = {0x01, 0x80, 0x02, 0, 0, 0, 5, 0, 1, 0, 5, 0, 2, 0, 2};
const uint8_t H1_ANSWER[8] = {0x20, 0, 0, 0, 0, 1, 0, 5};
const uint8_t LONGER_JOB[39] = {0x22, 0x08, 0x21, 0x10, 0x02, 0, 0, 0, 0, 0, 1, 0, 3, 0, 0, 0, 1, 0, 1, 0,
                                5,    0,    1,    0,    2,    0, 4, 0, 1, 0, 6, 0, 3, 0, 6, 0, 6, 0, 5};
const uint8_t LONGER_ANSWER[20] = {0, 0, 0, 0, 0, 1, 0, 1, 0, 1, 0, 0, 0, 1, 0, 3, 0, 0, 0, 2};
const uint8_t TRIAL_JOB[45] = {0x13, 0x80, 0x24, 0, 0, 0, 2, 0, 1, 0, 1, 0, 6, 0, 4, 0, 2, 0, 4, 0, 5, 0, 3,
                               0,    3,    0,    2, 0, 4, 0, 1, 0, 3, 0, 5, 0, 2, 0, 6, 0, 6, 0, 2, 0, 0};
const uint8_t TRIAL_ANSWER[12] = {0x82, 0, 0, 0, 0, 1, 0, 1, 0, 5, 0, 1};
const uint8_t MARKED_JOB[19] = {0x11, 0, 0x21, 0, 0, 8, 0, 0, 3, 0, 3, 0, 5, 0, 4, 0xFF, 0xFF, 0xFF, 0xFF};
const uint8_t MARKED_ANSWER[12] = {0, 0, 0, 0, 0, 3, 0, 1, 0, 4, 0, 2};

int same(struct hanthuvelo_report r, uint32_t refusal, uint32_t row, uint32_t written, uint32_t wrong)
{
    return r.refusal == refusal && r.row == row && r.written == written && r.wrong == wrong;
}

int checked(struct hanthuvelo_refusal r, uint32_t refusal, uint32_t row)
{
    return r.refusal == refusal && r.row == row;
}

int refused(struct hanthuvelo_written w, uint32_t refusal)
{
    return w.refusal == refusal && w.row == 0 && w.written == 0;
}

int judged(struct hanthuvelo_judgement j, uint32_t refusal, uint32_t row, uint32_t yes)
{
    return j.refusal == refusal && j.row == row && j.yes == yes;
}

int kept(const uint8_t *area, size_t from, size_t to)
{
    for (size_t i = from; i < to; i++) {
        if (area[i] != FILLING) {
            return 0;
        }
    }
    return 1;
}

int form_refused(const uint8_t *job, size_t job_length, uint32_t refusal, uint32_t row)
{
    return checked(hanthuvelo_check(job, job_length), refusal, row) && hanthuvelo_margin(job, job_length, 0) == 0
           && hanthuvelo_margin(job, job_length, 1) == 0 && hanthuvelo_margin(job, job_length, UINT32_MAX) == 0;
}

int main(void)
{
    return check_recover() || check_form() || check_margin() || check_trial() || check_reciprocal() || check_refusals()
           || check_judge() || check_longer() || check_marked();
}
