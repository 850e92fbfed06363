/* Offered answers judged. */
#include "checks.h"

/*
 * Whether the first job_length bytes of H1's job with one byte changed are refused so, by a check, and by a judgement
 * whatever is offered as the answer.
 */
static int job_refused(size_t place, uint8_t byte, size_t job_length, uint32_t refusal, uint32_t row)
{
    uint8_t job[sizeof H1_JOB], before[sizeof H1_JOB];
    memcpy(job, H1_JOB, sizeof job);
    job[place] = byte;
    memcpy(before, job, sizeof job);
    return form_refused(job, job_length, refusal, row)
           && judged(hanthuvelo_judge(job, job_length, H1_ANSWER, sizeof H1_ANSWER), refusal, row, 0)
           && judged(hanthuvelo_judge(job, job_length, H1_ANSWER, 7), refusal, row, 0)
           && judged(hanthuvelo_judge(job, job_length, NULL, 0), refusal, row, 0)
           && memcmp(job, before, sizeof job) == 0;
}

int check_refusals(void)
{
    uint8_t answer[HANTHUVELO_ANSWER_MAX] = {0};
    memcpy(answer, H1_ANSWER, sizeof H1_ANSWER);

    EXPECT(judged(hanthuvelo_judge(NULL, 0, NULL, 0), HANTHUVELO_TOO_SHORT, 0, 0));
    EXPECT(judged(hanthuvelo_judge(NULL, 0, H1_ANSWER, sizeof H1_ANSWER), HANTHUVELO_TOO_SHORT, 0, 0));
    EXPECT(job_refused(0, 0x01, 2, HANTHUVELO_TOO_SHORT, 0));
    /* The first row is read as the added header, and sets flags. */
    EXPECT(job_refused(2, 0x03, 3, HANTHUVELO_TOO_SHORT, 0));
    EXPECT(job_refused(2, 0x03, 6, HANTHUVELO_TOO_SHORT, 0));
    EXPECT(job_refused(2, 0x03, sizeof H1_JOB, HANTHUVELO_ADDED_HEADER, 0));
    EXPECT(job_refused(0, 0x01, sizeof H1_JOB - 1, HANTHUVELO_BYTE_COUNT, 0));
    EXPECT(job_refused(1, 0x00, 11, HANTHUVELO_TOO_FEW_ROWS, 0));
    EXPECT(job_refused(14, 7, sizeof H1_JOB, HANTHUVELO_OUT_OF_RANGE, 2));
    EXPECT(job_refused(12, 0, sizeof H1_JOB, HANTHUVELO_REPEATED_POINT, 2));
    for (size_t length = 0; length <= sizeof answer; length++) {
        int fits = length == sizeof H1_ANSWER;
        uint32_t refusal = fits ? HANTHUVELO_JUDGED : HANTHUVELO_BYTE_COUNT;
        EXPECT(judged(hanthuvelo_judge(H1_JOB, sizeof H1_JOB, answer, length), refusal, 0, fits ? 1 : 0));
    }
    EXPECT(judged(hanthuvelo_judge(H1_JOB, sizeof H1_JOB, NULL, 0), HANTHUVELO_BYTE_COUNT, 0, 0));
    return 0;
}

int check_judge(void)
{
    EXPECT(sizeof(struct hanthuvelo_judgement) == 12);
    EXPECT(offsetof(struct hanthuvelo_judgement, refusal) == 0);
    EXPECT(offsetof(struct hanthuvelo_judgement, row) == 4);
    EXPECT(offsetof(struct hanthuvelo_judgement, yes) == 8);

    /* Every other byte at each place is a no, and what is lent stays as it was. */
    uint8_t job[sizeof H1_JOB], answer[sizeof H1_ANSWER], before[sizeof H1_ANSWER];
    memcpy(job, H1_JOB, sizeof job);
    for (size_t place = 0; place < sizeof answer; place++) {
        for (unsigned byte = 0; byte < 256; byte++) {
            memcpy(answer, H1_ANSWER, sizeof answer);
            answer[place] = (uint8_t)byte;
            memcpy(before, answer, sizeof answer);
            uint32_t yes = byte == H1_ANSWER[place];
            EXPECT(judged(hanthuvelo_judge(job, sizeof job, answer, sizeof answer), HANTHUVELO_JUDGED, 0, yes));
            EXPECT(memcmp(answer, before, sizeof answer) == 0);
        }
    }
    EXPECT(memcmp(job, H1_JOB, sizeof job) == 0);

    /* A job without an answer, which a recovery refuses with 8; and a job and an answer that overlap. */
    job[10] = 4;
    EXPECT(judged(hanthuvelo_judge(job, sizeof job, H1_ANSWER, sizeof H1_ANSWER), HANTHUVELO_JUDGED, 0, 0));
    EXPECT(judged(hanthuvelo_judge(H1_JOB, sizeof H1_JOB, H1_JOB, 8), HANTHUVELO_JUDGED, 0, 0));
    EXPECT(judged(hanthuvelo_judge(TRIAL_JOB, sizeof TRIAL_JOB, TRIAL_ANSWER, sizeof TRIAL_ANSWER),
                  HANTHUVELO_JUDGED, 0, 1));
    return 0;
}
