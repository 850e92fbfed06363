/* Jobs with the longer header, and with marked rows. */
#include "checks.h"

/* Whether the longer job with one byte changed is refused so, by every function that takes a job. */
static int longer_refused(size_t place, uint8_t byte, size_t job_length, uint32_t refusal)
{
    uint8_t job[sizeof LONGER_JOB], area[sizeof LONGER_ANSWER];
    memcpy(job, LONGER_JOB, sizeof job);
    job[place] = byte;
    memset(area, FILLING, sizeof area);
    return same(hanthuvelo_recover(job, job_length, area, sizeof area), refusal, 0, 0, 0) && kept(area, 0, sizeof area)
           && form_refused(job, job_length, refusal, 0)
           && judged(hanthuvelo_judge(job, job_length, LONGER_ANSWER, sizeof LONGER_ANSWER), refusal, 0, 0);
}

int check_longer(void)
{
    EXPECT(HANTHUVELO_JOB_MAX == 317 && HANTHUVELO_ANSWER_MAX == 254);
    EXPECT(HANTHUVELO_SPARE_BIT == 2 && HANTHUVELO_ADDED_HEADER == 11 && HANTHUVELO_TOO_FEW_SPEAKING == 12);

    for (size_t length = 0; length < sizeof LONGER_JOB; length++) {
        EXPECT(longer_refused(0, 0x22, length, length < 7 ? HANTHUVELO_TOO_SHORT : HANTHUVELO_BYTE_COUNT));
    }
    EXPECT(longer_refused(1, 0x0C, sizeof LONGER_JOB, HANTHUVELO_ADDED_HEADER)); /* df is 3 */
    EXPECT(longer_refused(4, 0x06, sizeof LONGER_JOB, HANTHUVELO_ADDED_HEADER)); /* f3 has the bound 3 */
    EXPECT(longer_refused(5, 0x10, sizeof LONGER_JOB, HANTHUVELO_ADDED_HEADER)); /* f4 has the bound 1 */
    EXPECT(longer_refused(6, 0x01, sizeof LONGER_JOB, HANTHUVELO_ADDED_HEADER)); /* the last flag */
    EXPECT(longer_refused(5, 0x04, sizeof LONGER_JOB, HANTHUVELO_ADDED_HEADER)); /* the second flag */
    EXPECT(longer_refused(2, 0x23, sizeof LONGER_JOB, HANTHUVELO_TOO_FEW_ROWS)); /* E is 1 */

    uint8_t area[HANTHUVELO_JOB_MAX];
    memset(area, FILLING, sizeof area);
    size_t needed = sizeof LONGER_ANSWER;
    EXPECT(same(hanthuvelo_recover(LONGER_JOB, sizeof LONGER_JOB, area, needed - 1), HANTHUVELO_AREA_TOO_SHORT, 0, 0,
                0));
    EXPECT(same(hanthuvelo_recover(LONGER_JOB, sizeof LONGER_JOB, area, sizeof area), HANTHUVELO_RECOVERED, 0, 20, 0));
    EXPECT(memcmp(area, LONGER_ANSWER, needed) == 0 && kept(area, needed, sizeof area));
    EXPECT(judged(hanthuvelo_judge(LONGER_JOB, sizeof LONGER_JOB, LONGER_ANSWER, needed), HANTHUVELO_JUDGED, 0, 1));
    EXPECT(judged(hanthuvelo_judge(LONGER_JOB, sizeof LONGER_JOB, area, needed + 2), HANTHUVELO_BYTE_COUNT, 0, 0));

    const uint8_t *coefficients = LONGER_ANSWER + 4;
    memset(area, FILLING, sizeof area);
    for (size_t length = 0; length < 12; length++) {
        struct hanthuvelo_written w
            = hanthuvelo_trial(LONGER_JOB, length, coefficients, needed - 4, 0, 0, area, sizeof area);
        if (length == 7) {
            EXPECT(w.refusal == HANTHUVELO_WRITTEN && w.row == 0 && w.written == sizeof LONGER_JOB);
            EXPECT(memcmp(area, LONGER_JOB, sizeof LONGER_JOB) == 0 && kept(area, sizeof LONGER_JOB, sizeof area));
        } else {
            EXPECT(refused(w, length < 7 ? HANTHUVELO_TOO_SHORT : HANTHUVELO_BYTE_COUNT));
        }
    }
    return 0;
}

/* Whether this job is refused so by every function that takes a job, and the area kept. */
static int marked_refused(const uint8_t *job, uint32_t refusal, uint32_t row)
{
    uint8_t area[sizeof MARKED_ANSWER];
    memset(area, FILLING, sizeof area);
    return same(hanthuvelo_recover(job, sizeof MARKED_JOB, area, sizeof area), refusal, row, 0, 0)
           && kept(area, 0, sizeof area) && form_refused(job, sizeof MARKED_JOB, refusal, row)
           && judged(hanthuvelo_judge(job, sizeof MARKED_JOB, MARKED_ANSWER, sizeof MARKED_ANSWER), refusal, row, 0);
}

int check_marked(void)
{
    EXPECT(HANTHUVELO_MARKS == 0x800 && HANTHUVELO_POLE == 0xFFFF && HANTHUVELO_SILENT == 0xFFFE);
    uint8_t area[HANTHUVELO_ANSWER_MAX], job[sizeof MARKED_JOB], answer[sizeof MARKED_ANSWER];
    memset(area, FILLING, sizeof area);
    EXPECT(checked(hanthuvelo_check(MARKED_JOB, sizeof MARKED_JOB), HANTHUVELO_ACCEPTED, 0));
    EXPECT(same(hanthuvelo_recover(MARKED_JOB, sizeof MARKED_JOB, area, sizeof area), HANTHUVELO_RECOVERED, 0, 12, 0));
    EXPECT(memcmp(area, MARKED_ANSWER, sizeof MARKED_ANSWER) == 0 && kept(area, 12, sizeof area));
    /* Every other byte at each place is a no, a mark at the row that reports the pole included. */
    for (size_t place = 0; place < sizeof answer; place++) {
        for (unsigned byte = 0; byte < 256; byte++) {
            memcpy(answer, MARKED_ANSWER, sizeof answer);
            answer[place] = (uint8_t)byte;
            struct hanthuvelo_judgement j = hanthuvelo_judge(MARKED_JOB, sizeof MARKED_JOB, answer, sizeof answer);
            EXPECT(judged(j, HANTHUVELO_JUDGED, 0, byte == MARKED_ANSWER[place]));
        }
    }
    memcpy(job, MARKED_JOB, sizeof job);
    job[18] = HANTHUVELO_SILENT & 0xFF; /* both marks in one row */
    EXPECT(marked_refused(job, HANTHUVELO_OUT_OF_RANGE, 1));
    job[16] = HANTHUVELO_SILENT & 0xFF; /* the row is silent, and one row alone speaks */
    EXPECT(marked_refused(job, HANTHUVELO_TOO_FEW_SPEAKING, 0));
    job[14] = 3; /* a point is repeated too, which is tested later */
    EXPECT(marked_refused(job, HANTHUVELO_TOO_FEW_SPEAKING, 0));
    memcpy(job, MARKED_JOB, sizeof job);
    job[14] = 3;
    EXPECT(marked_refused(job, HANTHUVELO_REPEATED_POINT, 1));
    memcpy(job, MARKED_JOB, sizeof job);
    job[5] = 0; /* without the flag */
    EXPECT(marked_refused(job, HANTHUVELO_OUT_OF_RANGE, 1));
    job[5] = 0x0C; /* the second flag besides */
    EXPECT(marked_refused(job, HANTHUVELO_ADDED_HEADER, 0));
    return 0;
}
